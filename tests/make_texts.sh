#!/bin/sh
# Assembles the texts under data/texts with the real Jasmin (Debian's jasmin-sable, which knows no
# .bytecode), writes the table that javap gives of its class files to expected.txt, and what a real
# Java prints when it runs each that has a main to printed.txt. The class files of the real Jasmin's own
# examples of arrays of arrays, and what javap says of them as a text, go to data/jobs. Needs jasmin,
# java, javap and python3. No check runs this: what it writes is committed.
set -eu
cd "$(dirname "$0")/data/texts"
folder=$(mktemp -d)
trap 'rm -rf "$folder"' EXIT
for text in *.j; do
    grep -v '^\.bytecode' "$text" > "$folder/$text"
    jasmin -d "$folder" "$folder/$text" > "$folder/log" || { cat "$folder/log" >&2; exit 1; }
done
python3 ../../expected.py "$folder"/*.class "$folder"/examples/*.class | sed 's/\.class/.j/' > expected.txt
for name in MultiANewArray MultiArrays; do
    cp "$folder/examples/$name.class" ../jobs/
    python3 ../../expected_texts.py --bare "../jobs/$name.class" > "../jobs/${name}_bare.j"
done
for text in *.j; do
    name=${text%.j}
    grep -q 'public static main' "$text" || continue
    echo "== $name"
    java -cp "$folder" "$(sed -n 's/^\.class .* //p' "$text")"
done > printed.txt
