"""Writes an assembler text of many methods, each with labels, branches, a switch, calls and
constants. Usage: make_text.py METHODS FILE; prints how many lines it has."""
import sys

def method(number):
    lines = [f".method static m{number}(I)I", "    .limit stack 4", "    .limit locals 3"]
    for block in range(30):
        lines += [
            f"L{block}:", "    iload_0", f"    ldc {number * 1000 + block}", "    iadd", "    istore_1",
            f"    iinc 1 {block}", "    iload_1", f"    ifge M{block}", "    iload_0",
            f"    invokestatic Many/m{number}(I)I", f"    putstatic Many/f{block} I", f"M{block}:", "    iload_1", "    istore_0",
        ]
    lines += ["    iload_0", "    tableswitch 0", "        L0", "        M0", "        default : End", "End:"]
    return lines + ["    iload_0", "    ireturn", ".end method", ""]

def main():
    methods, path = int(sys.argv[1]), sys.argv[2]
    lines = ["; many methods", ".class public Many", ".super java/lang/Object", ""]
    lines += [f".field static f{block} I" for block in range(30)] + [""]
    for number in range(methods):
        lines += method(number)
    with open(path, "w") as out:
        out.write("\n".join(lines) + "\n")
    print(len(lines))

main()
