# What the scripts of bench/ begin with that take the built jm, each by `. "$(dirname "$0")/built.sh"`. jm is the program, named
# by JM=PATH or built here (cd crates/jm && rt run); folder is an empty folder, which is taken away at the end. The script
# stands at the top of the tree from here on.
set -euo pipefail
jm=$(realpath -m "${JM:-$(dirname "$0")/../crates/jm/out/jm}")
[ -x "$jm" ] || { echo "bench/$(basename "$0"): build jm first (cd crates/jm && rt run), or name it: JM=PATH" >&2; exit 1; }
cd "$(dirname "$0")/.."
folder=$(mktemp -d); trap 'rm -rf "$folder"' EXIT

# nanoseconds that a command takes, by the shell's own clock: no other process is started between
elapsed() { local from=${EPOCHREALTIME/./} to; "$@" > /dev/null; to=${EPOCHREALTIME/./}; echo $(((to - from) * 1000)); }

# nanoseconds that a command takes longer with the word `large` behind it than with `small`
difference() { local less more; less=$(elapsed "$@" small); more=$(elapsed "$@" large); echo $((more - less)); }
