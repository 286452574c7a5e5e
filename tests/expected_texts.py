#!/usr/bin/env python3
"""Writes the text of class files as `jm dis` shows them, made from what `javap -v -p` prints of each.

expected_texts.py [--bare] FILE..: one text after the other; expected_texts.py --compare JM FILE..: says for each file
whether `JM dis` and `JM dis --bare` print that text, and how many do; expected_texts.py --table FOLDER: behind each line
of the table of that folder's class files that a class is written and read again equal, and whether a text can say it or
which flags it cannot. What javap prints has the numbers of bytes where
a text has labels by the numbers of instructions, and the constants of the pool with escapes of its own; nothing here
was taken from what jm prints.
Not read by any check: what stands in data/jobs/ is committed. Needs javap.
"""

import os
import re
import subprocess
import sys

COLUMN = 16
CLASS_WORDS = {0x1: "public", 0x2: "private", 0x4: "protected", 0x8: "static", 0x10: "final", 0x40: "volatile", 0x80: "transient", 0x400: "abstract"}
INTERFACE_WORDS = {0x1: "public", 0x2: "private", 0x4: "protected", 0x8: "static", 0x10: "final", 0x20: "synchronized", 0x40: "volatile", 0x80: "transient"}
MEMBER_WORDS = CLASS_WORDS | {0x20: "synchronized"}
WORDLESS = {0x200: "interface", 0x100: "native", 0x800: "strict", 0x1000: "synthetic", 0x2000: "annotation", 0x4000: "enum", 0x8000: "mandated"}
ARRAYS = {4: "boolean", 5: "char", 8: "byte", 9: "short", 10: "int", 11: "long"}


class Code:
    """The lines of a Code attribute."""

    def __init__(self):
        self.stack = self.locals = 0
        self.rows, self.handlers, self.lines = [], [], []


class Member:
    """A field or a method."""

    def __init__(self):
        self.name, self.type, self.flags, self.value, self.code = None, None, 0, None, None


def words(bits, table):
    """The words of flags, each with a blank behind it."""
    return "".join(f"{word} " for bit, word in sorted(table.items()) if bits & bit)


def slots(types):
    """The argument slots of a method's type."""
    inner, count = types[1 : types.index(")")], 0
    for found in re.finditer(r"\[*(?:L[^;]*;|[BCSZIJ])", inner):
        count += 2 if found[0] == "J" else 1
    return count


def escaped(text):
    """A string as the text has it, from javap's escapes."""
    units = []
    for sign in re.finditer(r"\\u([0-9a-fA-F]{4})|\\(.)|(.)", text, re.S):
        if sign[1]:
            units.append(int(sign[1], 16))
        elif sign[2]:
            units.append({"n": 10, "t": 9, "r": 13, '"': 34, "\\": 92, "'": 39, "b": 8, "f": 12}[sign[2]])
        else:
            units += [int.from_bytes(sign[3].encode("utf-16-be")[k : k + 2], "big") for k in range(0, len(sign[3].encode("utf-16-be")), 2)]
    return units


def string_text(units):
    """Code units between quotes; control characters, `"`, `\\\\` and halves of pairs by \\\\uXXXX."""
    out, k = "", 0
    while k < len(units):
        unit = units[k]
        if 0xD800 <= unit < 0xDC00 and k + 1 < len(units) and 0xDC00 <= units[k + 1] < 0xE000:
            out += chr(0x10000 + ((unit - 0xD800) << 10) + units[k + 1] - 0xDC00)
            k += 2
            continue
        out += f"\\u{unit:04x}" if unit < 32 or unit in (34, 92) or unit == 127 or 0xD800 <= unit < 0xE000 else chr(unit)
        k += 1
    return out


def target_of(operand):
    return int(operand.split()[0])


class Reader:
    """Reads what javap prints of one class file."""

    def __init__(self, path):
        printed = subprocess.run(["javap", "-v", "-p", path], check=True, capture_output=True, text=True).stdout
        self.lines = printed.split("\n")
        self.pool = {}
        for line in self.lines:
            if found := re.match(r" *#(\d+) = (\w+) *(.*?)(?: +//.*)?$", line):
                # (javap writes the kind in 19 columns)
                kind, whole = found[2], line.split(" = ", 1)[1][19:]
                self.pool[int(found[1])] = (kind, whole if kind == "Utf8" else found[3])
        self.minor = self.major = self.flags = 0
        self.name = self.superclass = self.source = None
        self.interfaces, self.fields, self.methods = [], [], []
        self.read()

    def utf8(self, k):
        return self.pool[k][1]

    def class_at(self, k):
        return self.utf8(int(self.pool[k][1][1:]))

    def reference(self, k):
        owner, what = self.pool[k][1].split(".")
        name, kind = self.pool[int(what[1:])][1].split(":")
        return self.class_at(int(owner[1:])), self.utf8(int(name[1:])), self.utf8(int(kind[1:]))

    def read(self):
        text = "\n".join(self.lines)
        self.minor = int(re.search(r"minor version: (\d+)", text)[1])
        self.major = int(re.search(r"major version: (\d+)", text)[1])
        self.flags = int(re.search(r"^  flags: \(0x([0-9a-f]+)\)", text, re.M)[1], 16)
        self.name = self.class_at(int(re.search(r"this_class: #(\d+)", text)[1]))
        found = re.search(r"super_class: #(\d+)", text)
        self.superclass = self.class_at(int(found[1])) if found and found[1] != "0" else None
        if found := re.search(r'^SourceFile: "(.*)"$', text, re.M):
            self.source = found[1]
        self.read_interfaces(text)
        at = self.lines.index("{")
        member, block = None, None
        for line in self.lines[at + 1 :]:
            if line == "}":
                break
            if re.match(r"^  \S.*;$", line) or re.match(r"^  static \{\};$", line):
                member, block = Member(), None
                member.name = line.strip().rstrip(";")
            elif found := re.match(r"^    descriptor: (.*)$", line):
                member.type = found[1]
                (self.methods if "(" in member.type else self.fields).append(member)
            elif found := re.match(r"^    flags: \(0x([0-9a-f]+)\)", line):
                member.flags = int(found[1], 16)
            elif found := re.match(r"^    ConstantValue: (\w+) ?(.*)$", line):
                # (of a field that is not static it says nothing, JVMS 4.7.2)
                member.value = (found[1], found[2]) if member.flags & 0x8 else None
            elif line == "    Code:":
                member.code, block = Code(), "code"
            elif found := re.match(r"^      stack=(\d+), locals=(\d+), args_size=\d+$", line):
                member.code.stack, member.code.locals = int(found[1]), int(found[2])
            elif re.match(r"^      (Exception table|LineNumberTable):$", line):
                block = "handlers" if "Exception" in line else "lines"
            elif re.match(r"^ {4,6}[A-Z]\w*:", line):
                block = None
            elif block == "code":
                self.read_row(member.code, line)
            elif block == "handlers" and (found := re.match(r"^ +(\d+) +(\d+) +(\d+) +(?:Class (.*)|(any))$", line)):
                member.code.handlers.append((int(found[1]), int(found[2]), int(found[3]), found[4]))
            elif block == "lines" and (found := re.match(r"^ +line (\d+): (\d+)$", line)):
                member.code.lines.append((int(found[1]), int(found[2])))

    def read_interfaces(self, text):
        """javap -v names interfaces in the class's line alone, by dots; here by the pool's classes of those names."""
        head = next(line for line in self.lines if re.match(r"^(public |final |abstract |strictfp |synchronized )*(class|interface|@interface|enum) ", line))
        word = "extends" if re.search(r"\binterface\b", head) else "implements"
        count = int(re.search(r"interfaces: (\d+)", text)[1])
        if count:
            names = re.sub(r"<.*?>", "", head.split(f" {word} ")[1]).split(",")
            self.interfaces = [name.strip().replace(".", "/") for name in names]
            assert len(self.interfaces) == count, head

    def read_row(self, code, line):
        if found := re.match(r"^ *(\d+): ([a-z][a-z_0-9]*) *(.*)$", line):
            code.rows.append([int(found[1]), found[2], found[3], []])
        elif found := re.match(r"^ +(-?\d+|default): (\d+)$", line):
            code.rows[-1][3].append((found[1], int(found[2])))


def operand_text(reader, opcode, operand):
    """The operands of an instruction that is no branch and no switch."""
    rest = operand.split("//")[0].strip()
    if found := re.match(r"^#(\d+)(?:, +(\d+))?$", rest):
        kind, value = reader.pool[int(found[1])]
        if kind == "Class":
            dimensions = f" {found[2]}" if opcode == "multianewarray" else ""
            return f"{reader.class_at(int(found[1]))}{dimensions}"
        if kind == "Integer":
            return value
        if kind == "Long":
            return value.rstrip("l")
        if kind == "String":
            return f'"{string_text(escaped(reader.utf8(int(value[1:]))))}"'
        owner, name, types = reader.reference(int(found[1]))
        if kind == "Fieldref":
            return f"{owner}/{name} {types}"
        count = f" {slots(types) + 1}" if opcode == "invokeinterface" else ""
        return f"{owner}/{name}{types}{count}"
    if opcode == "newarray":
        return rest if rest in ARRAYS.values() else ARRAYS[int(rest)]
    return rest.replace(", ", " ").replace(",", " ")


def labels(code, number):
    """The numbers of the instructions at which labels stand."""
    marked = set()
    for _, opcode, operand, keys in code.rows:
        if opcode.startswith(("if", "goto")):
            marked.add(number[target_of(operand)])
        marked.update(number[to] for _, to in keys)
    for start, end, to, _ in code.handlers:
        marked.update((number[start], number[end], number[to]))
    return marked


def code_lines(reader, code, comments):
    """The lines of a method's body."""
    out = [f"  .limit stack {code.stack}", f"  .limit locals {code.locals}"]
    number = {row[0]: k for k, row in enumerate(code.rows)}
    ends = {end for _, end, _, _ in code.handlers}
    for end in ends:
        number.setdefault(end, len(code.rows))
    for start, end, to, caught in code.handlers:
        out.append(f"  .catch {caught or 'all'} from L{number[start]} to L{number[end]} using L{number[to]}")
    marked = labels(code, number)
    for k, (at, opcode, operand, keys) in enumerate(code.rows):
        if k in marked:
            out.append(f"L{k}:")
        out += [f"  .line {line}" for line, start in code.lines if start == at]
        note = f"  ; {k}" if comments else ""
        opcode = opcode.removesuffix("_w") if opcode in ("ldc_w", "iload_w", "lload_w", "aload_w", "istore_w", "lstore_w", "astore_w", "iinc_w") else opcode
        if opcode == "tableswitch":
            low = re.search(r"\{ // (-?\d+) to", operand)[1]
            out.append(f"  tableswitch     {low}{note}")
            out += [f"    L{number[to]}" for key, to in keys if key != "default"]
        elif opcode == "lookupswitch":
            out.append(f"  lookupswitch{note}")
            out += [f"    {key} : L{number[to]}" for key, to in keys if key != "default"]
        elif opcode.startswith(("if", "goto")):
            out.append(f"  {opcode.ljust(COLUMN)}L{number[target_of(operand)]}{note}")
        elif operand.split("//")[0].strip():
            out.append(f"  {opcode.ljust(COLUMN)}{operand_text(reader, opcode, operand)}{note}")
        else:
            out.append(f"  {opcode}{note}")
        if opcode in ("tableswitch", "lookupswitch"):
            out += [f"    default : L{number[to]}" for key, to in keys if key == "default"]
    if len(code.rows) in marked:
        out.append(f"L{len(code.rows)}:")
    return out


def member_end(bits, comments):
    """What stands in front of a member's line, and behind it."""
    lost = [word for bit, word in WORDLESS.items() if bits & bit]
    return (["; 90 NoText(flags)"] if lost else []), (f"  ; {' '.join(lost)}" if lost and comments else "")


def member_name(reader, member):
    """javap's line has the name before the brackets; constructors have the class's."""
    if "(" not in member.type:
        return re.split(r"[ .]", re.sub(r" =.*", "", member.name))[-1]
    if member.name == "static {}":
        return "<clinit>"
    name = member.name.split("(")[0].split(" ")[-1]
    return "<init>" if name == reader.name.replace("/", ".") else name


def text_of(path, comments):
    """The text of the class in a class file."""
    reader = Reader(path)
    out = [f".bytecode {reader.major}.{reader.minor}"]
    if reader.source is not None:
        out.append(f".source {reader.source}")
    is_interface = reader.flags & 0x200
    said = 0x600 if is_interface else 0x20
    table = INTERFACE_WORDS if is_interface else CLASS_WORDS
    lost = [f"not {'abstract' if is_interface else 'super'}"] if not reader.flags & (0x400 if is_interface else 0x20) else []
    lost += [word for bit, word in WORDLESS.items() if bit != 0x200 and reader.flags & bit]
    if lost:
        out.append("; 90 NoText(flags)")
    front = words(reader.flags & ~said, table)
    note = f"  ; {' '.join(lost)}" if lost and comments else ""
    out.append(f"{'.interface' if is_interface else '.class'} {front}{reader.name}{note}")
    if reader.superclass:
        out.append(f".super {reader.superclass}")
    out += [f".implements {name}" for name in reader.interfaces]
    for k, field in enumerate(reader.fields):
        mark, note = member_end(field.flags, comments)
        value = ""
        if field.value:
            kind, given = field.value
            value = f' = "{string_text(escaped(given))}"' if kind == "String" else f" = {given.rstrip('l')}"
        out += ([""] if not k else []) + mark + [f".field {words(field.flags, MEMBER_WORDS)}{member_name(reader, field)} {field.type}{value}{note}"]
    for method in reader.methods:
        mark, note = member_end(method.flags, comments)
        out += ["", *mark, f".method {words(method.flags, MEMBER_WORDS)}{member_name(reader, method)}{method.type}{note}"]
        if method.code:
            out += code_lines(reader, method.code, comments)
        out.append(".end method")
    return "\n".join(out) + "\n"


def compare(jm, paths):
    """Says for each file whether jm prints the text, with comments and without."""
    kept = 0
    for path in paths:
        same = True
        for comments in (True, False):
            given = subprocess.run([jm, "dis", *([] if comments else ["--bare"]), path], capture_output=True, check=False).stdout
            if given != text_of(path, comments).encode("utf-8"):
                same = False
        kept += same
        if not same:
            print(f"{os.path.basename(path)}: another text")
    print(f"{kept} of {len(paths)} have the text that javap says")


def part_without_text(reader):
    """The first part of a class with flags that no word says, or None."""
    said = 0x600 if reader.flags & 0x200 else 0x20
    if reader.flags & said != said or any(bit & reader.flags & ~said for bit in WORDLESS):
        return "class"
    for kind, members in (("field", reader.fields), ("method", reader.methods)):
        for number, member in enumerate(members):
            if any(bit & member.flags for bit in WORDLESS):
                return f"{kind} {number}"
    return None


def table(folder):
    """The lines of a folder's table, with what comes of each class that is written again and given a text."""
    with open(os.path.join(folder, "expected.txt"), encoding="utf-8") as lines:
        for line in lines:
            part = part_without_text(Reader(os.path.join(folder, line.split()[0])))
            print(line.rstrip("\n"), "equal", f"90 NoText({part}: flags)" if part else "equal")


def main():
    if sys.argv[1:2] == ["--table"]:
        table(sys.argv[2])
        return
    if sys.argv[1:2] == ["--compare"]:
        compare(sys.argv[2], sys.argv[3:])
        return
    bare = "--bare" in sys.argv[1:]
    for path in sys.argv[1:]:
        if path != "--bare":
            sys.stdout.write(text_of(path, not bare))


main()
