"""The page of the manual, the completions and the syntax, tried by the programs that they are for."""
import glob
import os
import re
import shutil
import subprocess
import tempfile

from user_files import definitions, looks
from user_files.files import TOP, standing

# The files of the folder in which words are completed; one that ends in / is a folder.
FILES = ("A.j", "B.class", "B$C.class", "notes.txt", "src/")
# A line, the words that have to be offered behind it, and words that must not be.
LINES = (
    ("jm ", ("run", "replay", "explain", "version"), ("A.j", "--heap")),
    ("jm ex", ("explore", "explain"), ("run",)),
    ("jm run --", ("--heap", "--schedule", "--workers", "--help"), ("--outcome",)),
    ("jm explore --out", ("--outcome",), ("--heap",)),
    ("jm run --stress ", ("minor", "full"), ("A.j",)),
    ("jm run --heap 16 ", ("A.j", "B.class", "src/"), ("notes.txt", "run")),
    ("jm run A.j ", ("A.j", "B.class", "src/"), ("notes.txt",)),
    ("jm run --schedule ", ("notes.txt", "A.j"), ()),
    ("jm film --source ", ("src/",), ("A.j",)),
    ("jm replay ", ("notes.txt",), ()),
    ("jm asm ", ("A.j",), ("notes.txt",)),
    ("jm asm A.j ", ("B.class",), ("notes.txt",)),
    ("jm explain 5", ("50", "57"), ("61",)),
)
BASH = r"""
source "$COMPLETIONS/jm.bash"
compopt() { :; }
while IFS= read -r line; do
  read -ra COMP_WORDS <<< "$line"
  [[ $line != *' ' ]] || COMP_WORDS+=("")
  COMP_CWORD=$((${#COMP_WORDS[@]} - 1))
  _jm
  printf '%s\n' "${COMPREPLY[@]}" ''
done
"""
FISH = r"""
source $COMPLETIONS/jm.fish
while read -l line
  complete -C $line | string split -f 1 \t
  echo
end
"""
# zsh completes in a terminal alone: one is made for it, and what it would offer is told between two marks.
ZSH = r"""
zmodload zsh/zpty
setopt rcquotes
while IFS= read -r asked; do
  zpty z zsh -f -i
  zpty -w z "source $HOME/.tell"
  while zpty -r z line; do [[ $line != *READY* ]] || break; done
  zpty -w z "$asked"$'\t'
  while zpty -r z line; do
    line=${line%%[[:cntrl:]]#}
    [[ $line != *LAST* ]] || break
    [[ $line != *OFFER:* ]] || print -r -- ${${line##*OFFER:}%%[[:cntrl:]]*}
  done
  zpty -d z
  print
done
"""
TELL = r"""
PROMPT=
fpath=($COMPLETIONS $fpath)
autoload -U compinit
compinit -u -D
bindkey '^I' complete-word
zstyle ':completion:*' list-grouped false
zmodload zsh/zutil
last() { print -r -- LAST }
comppostfuncs=(last exit)
compadd() {
  local -a offers
  local offer
  if [[ ${@[1,(i)(-|--)]} == *-(O|A|D)\ * ]]; then
    builtin compadd "$@"
    return
  fi
  builtin compadd -A offers "$@"
  for offer in $offers; do print -r -- "OFFER:${(Q)offer}"; done
  builtin compadd "$@"
}
print READY
"""


def room():
    """Returns a folder with the files among which words are completed."""
    folder = tempfile.TemporaryDirectory()
    for name in FILES:
        if name.endswith("/"):
            os.mkdir(f"{folder.name}/{name}")
        else:
            open(f"{folder.name}/{name}", "w", encoding="utf-8").close()
    with open(f"{folder.name}/.tell", "w", encoding="utf-8") as file:
        file.write(TELL)
    return folder


def offered(shell, script):
    """Returns the words that a shell offers behind each line."""
    with room() as folder:
        words = {**os.environ, "COMPLETIONS": f"{TOP}/completions", "HOME": folder}
        lines = "".join(f"{line}\n" for line, _, _ in LINES)
        ran = subprocess.run([shell, "-c", script], cwd=folder, env=words, input=lines, capture_output=True, text=True, timeout=120)
    if ran.stderr:
        return [[f"({ran.stderr.strip()})"] for _ in LINES]
    parts = ran.stdout.split("\n\n")
    return [part.split("\n") for part in (it.lstrip("\n") for it in parts)]


def misfit(shell, asked, offer):
    """Returns what a shell offers behind a line that it should not, or does not and should."""
    line, wanted, unwanted = asked
    there = {it.rstrip("/") for it in offer}
    if all(it.rstrip("/") in there for it in wanted) and not any(it in there for it in unwanted):
        return None
    return f"{shell}: `{line}` offers {' '.join(sorted(there)) or 'nothing'}, and {' '.join(wanted)} is wanted"


def page_faults():
    """Yields what man says of the page, and the names that it does not show."""
    words = ["man", "--warnings", "-l", f"{TOP}/man/jm.1"]
    ran = subprocess.run(words, env={**os.environ, "MANWIDTH": "100", "MAN_KEEP_FORMATTING": "", "MANPAGER": "cat"}, capture_output=True, text=True)
    yield from (f"man: {line}" for line in ran.stderr.splitlines())
    shown = re.sub(".\b", "", ran.stdout)
    yield from (f"man: {it} is not shown" for it in ("SYNOPSIS", "jm explore", "--heap N", "HeapFull", "`") if (it in shown) == (it == "`"))


def texts():
    """Returns the texts of examples/ and tests/data/texts by their paths, and one with each word at its place and at others."""
    paths = sorted(glob.glob(f"{TOP}/examples/*.j") + glob.glob(f"{TOP}/tests/data/texts/*.j"))
    there = {os.path.relpath(it, TOP): standing(os.path.relpath(it, TOP)) for it in paths}
    return there | {"each word": looks.every_word(definitions.words())}


def syntax_faults(by_vim):
    """Yields what TextMate's form, and vim if it is there, show as what it is not, and where the two differ."""
    grammar, words = looks.grammar_of(standing("editors/textmate/jasmin.tmLanguage.json")), definitions.words()
    for name, text in texts().items():
        shown = looks.by_textmate(grammar, text)
        yield from (f"TextMate: {name}, {it}" for it in looks.faults(words, text, shown))
        if by_vim:
            other = looks.by_vim(f"{TOP}/editors/vim", text)
            yield from (f"vim: {name}, {it}" for it in looks.faults(words, text, other))
            differing = sorted(it for it in {*shown, *other} if shown.get(it) != other.get(it))
            yield from (f"{name}, line {it[0]}, column {it[1]}: TextMate {shown.get(it)}, vim {other.get(it)}" for it in differing)


def faults():
    """Returns what the programs that are there show otherwise than it should be."""
    found = []
    for name, script in (("bash", BASH), ("fish", FISH), ("zsh", ZSH)):
        if shutil.which(name):
            found += filter(None, (misfit(name, *it) for it in zip(LINES, offered(name, script))))
    found += page_faults() if shutil.which("man") else []
    found += syntax_faults(shutil.which("vim"))
    missing = [it for it in ("bash", "fish", "zsh", "man", "vim") if not shutil.which(it)]
    print(f"not tried, since it is not there: {', '.join(missing)}" if missing else "tried by bash, fish, zsh, man and vim")
    return found
