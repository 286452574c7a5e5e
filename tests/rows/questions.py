"""Tables of questions (tests/data/answers/README.md): what no row of a job tells, asked by one command or a few. A row is
`ASKED =>ANSWER`."""
import os
import re

from rows import frames
from rows.calls import Missed, NotAsked, shown
from rows.class_bytes import class_with, constants, units_of, utf8, with_code, with_string
from rows.class_files import counts
from rows.columns import answer_bytes, bytes_of, data, expanded, rows, text_bytes, with_instructions

# Which values of a byte are tried of the 256 that a row of changes asks of: every so many. tests/library tries all of a class file.
STRIDE = int(os.environ.get("JM_STRIDE", "128"))


def told_fault(lines, name):
    """Returns the fault that a line on standard error tells of a file."""
    told = re.fullmatch(rf"jm: {re.escape(name)}: (.*)\n", lines.decode())
    if not told:
        raise Missed(f"came {shown(lines)}")
    return told[1]


def assembled(jm, text):
    """Returns the class file of a text, or the fault that is told of it."""
    came = jm.made(["asm", "A.j", "A.class"], {"A.j": text}, output=b"", lines=None, status=None, left=None)
    if came.status == 4:
        return told_fault(came.lines, "A.j")
    if came.status or came.lines:
        raise Missed(f"came {came.status} {shown(came.lines)}")
    return came.files["A.class"]


def shown_class(jm, content, *options):
    """Returns the text of a class file, or the fault that is told of it."""
    came = jm.made(["dis", *options, "A.class"], {"A.class": content}, output=None, lines=None, status=None)
    return came.output.decode() if came.output else told_fault(came.lines, "A.class")


def ask_class_bytes(jm, asked, _wanted):
    """Tells whether a class is written as the same bytes, by way of its text."""
    text = jm.made(["dis", "A.class"], {"A.class": answer_bytes(asked)}, output=None).output
    return "the same bytes" if assembled(jm, text) == answer_bytes(asked) else "other bytes"


def ask_class_file(jm, asked, _wanted):
    """Tells bytes of the class file of a text, whose first line has the two places."""
    places, text = answer_bytes(asked).split(b"\n", 1)
    written = assembled(jm, text)
    first, last = map(int, places.split())
    return written if isinstance(written, str) else written[first:last].hex(" ").upper()


def ask_versions(jm, asked, _wanted):
    """Tells the major versions with which a class file is read."""
    content = answer_bytes(asked)
    kept = []
    for major in range(40, 61):
        told = shown_class(jm, content[:4] + b"\0\0" + major.to_bytes(2, "big") + content[8:])
        if told.startswith(".bytecode"):
            kept.append(str(major))
        elif told != "31 Version":
            raise Missed(f"of {major} came {told}")
    return " ".join(kept)


def ask_code_length(jm, asked, _wanted):
    """Tells how many bytes and instructions a code has."""
    code = answer_bytes(asked)
    return f"{len(code)} bytes, {counts(shown_class(jm, with_code(data('sum.class'), code)))[4]}"


def ask_code(jm, asked, wanted):
    """Tells the fault of a code. (What its instructions are is asked in tests/library, by their offsets.)"""
    if not re.fullmatch(r" ?\d+ [A-Z]\w+(\(.*\))?", wanted) or asked == "-":
        raise NotAsked("offsets and indexes of a code, or a code without a byte")
    return shown_class(jm, with_code(data("sum.class"), answer_bytes(asked)))


def is_class_or_fault(told, text):
    """Says whether what was told of a text is a class file, or a fault with a number and one of its lines."""
    if not isinstance(told, str):
        return True
    line = re.fullmatch(r"\d+ \w+\((\d+)\)|46 LeftOut\(.*\)", told)
    return bool(line) and (not line[1] or 1 <= int(line[1]) <= text.count(b"\n") + 1)


def ask_cuts(jm, asked, _wanted):
    """Tells whether each text that is cut is a class, or has a fault."""
    _, first, last, column = asked.split(" ", 3)
    text = bytes_of(column)
    for length in range(int(first), int(last)):
        told = assembled(jm, text[:length])
        if not is_class_or_fault(told, text[:length]):
            return f"{told} of {length} bytes"
    return f"{int(last) - int(first)} times answered"


def ask_descriptor(jm, asked, _wanted):
    """Tells what a descriptor prints as, of a field, or of a method where it begins with a bracket."""
    text = text_bytes(expanded(asked)).decode()
    member = "method" if text.startswith("(") else "field"
    told = shown_class(jm, class_with(member, utf8(text)))
    if told in ("35 LeftOut(float)", "35 LeftOut(double)"):
        raise NotAsked("a type outside the profile")
    if told.startswith(".bytecode"):
        line = re.search(rf"(?m)^\.{member} .*$", told)[0]
        told = line[line.index("f(") + 1:] if member == "method" else line.split(" ")[-1]
        told = "itself" if told == text else told
    return told


def ask_explanation(jm, asked, _wanted):
    """Tells the name that `jm explain` has beside a number, or all numbers."""
    if asked != "all" and jm.made(["explain", asked], {}, output=None, lines=None, status=None).status:
        return "none"
    listed = jm.made(["explain"], {}, output=None).output.decode().splitlines()
    found_of = dict(line.split(" ", 1) for line in listed)
    if asked == "all":
        return " ".join(found_of)
    return found_of[asked].split(": ")[0] if asked in found_of else "none"


def ask_left_out(jm, asked, wanted):
    """Tells the fault of a text. (The line that it has is asked in tests/library: it is not printed.)"""
    told = assembled(jm, answer_bytes(asked))
    return told + re.search(r" at \d+$|$", wanted)[0] if isinstance(told, str) else "class"


def text_with(instructions):
    """Returns a text of one method that does these instructions."""
    return with_instructions("answers/body.j", instructions)


def ask_literal(jm, asked, _wanted):
    """Tells the code units of a string as it is written."""
    made_of = assembled(jm, text_with(f"ldc {asked} / return"))
    if isinstance(made_of, str):
        return made_of
    pool = constants(made_of)
    return " ".join(map(str, units_of(pool[next(it for it in pool if isinstance(it, tuple))[1]])))


def ask_number(jm, asked, _wanted):
    """Tells the number that a word is, or `none`."""
    made_of = assembled(jm, text_with(f"ldc2_w {text_bytes(asked).decode()} / return"))
    return "none" if isinstance(made_of, str) else str(next(it for it in constants(made_of) if isinstance(it, int)))


def ask_units(jm, asked, _wanted):
    """Tells the code units of a text of a pool, here of a string's."""
    told = shown_class(jm, with_string(data("sum.class"), answer_bytes(asked)))
    if not told.startswith(".bytecode"):
        return told
    literal = re.search(r'(?m)^  ldc\s+"(.*)"  ; 0$', told)[1]
    signs = {"n": "\n", "t": "\t"}
    text = re.sub(r"\\u([0-9a-fA-F]{4})|\\(.)", lambda it: chr(int(it[1], 16)) if it[1] else signs.get(it[2], it[2]), literal)
    units = text.encode("utf-16-be", "surrogatepass")
    return " ".join(str(units[at] << 8 | units[at + 1]) for at in range(0, len(units), 2))


def ask_pool(jm, asked, wanted):
    """Tells the fault of a class file whose pool is this."""
    if "entries" in wanted:
        raise NotAsked("how many entries a pool has")
    cut = re.fullmatch(r"@cut (\d+) (\d+) (.*)", asked)
    lengths = range(int(cut[1]), int(cut[2])) if cut else [None]
    content = bytes_of(cut[3]) if cut else answer_bytes(asked)
    told = " or ".join(sorted({shown_class(jm, b"\xCA\xFE\xBA\xBE\0\0\0\x31" + content[:length]) for length in lengths}))
    if told.startswith("35 LeftOut"):
        raise NotAsked("a fault that a class file is refused for before its pool's")
    return f"{len(lengths)} times {told}" if cut else told


def ask_changes(jm, asked, wanted, told):
    """Tells how many are answered as they should be of the files that have another value for a byte: a part of those is tried."""
    content = answer_bytes(asked)
    tried = kept = 0
    for at in range(len(content)):
        for value in range((at * 37) % STRIDE, 256, STRIDE):
            tried += 1
            kept += told(jm, content[:at] + bytes([value]) + content[at + 1:])
    if wanted.strip() != str(256 * len(content)) or kept != tried:
        raise Missed(f"{tried - kept} of {tried} are not as they should be")
    return wanted


def is_events(words, name):
    """Returns what tells whether a text is events, or has a bad line."""
    def told(jm, content):
        files = {name: content, "Main.class": data("sum.class")}
        came = jm.made([*words, "Main.class"], files, output=None, lines=None, status=None)
        bad = re.fullmatch(rb"jm: 70 BadSchedule\((\d+)\)\n", came.lines)
        if bad:
            return came.status == 9 and 1 <= int(bad[1]) <= content.count(b"\n") + 1
        return came.status in (0, 8, 9) and b"70 BadSchedule" not in came.lines
    return told


def is_class_kept(jm, content):
    """Tells whether a class file is refused, or its class is the same when it is written and read again."""
    came = jm.made(["dis", "--bare", "A.class"], {"A.class": content}, output=None, lines=None, status=None)
    if came.status == 4:
        told_fault(came.lines, "A.class")
        return True
    if came.status:
        return False
    written = assembled(jm, came.output)
    return isinstance(written, bytes) and shown_class(jm, written, "--bare") == came.output.decode()


def ask_written(jm, asked, _wanted):
    """Tells what comes of writing the class of a text and reading it again."""
    first = assembled(jm, answer_bytes(asked))
    if isinstance(first, str):
        return first
    second = assembled(jm, shown_class(jm, first, "--bare").encode())
    return "equal" if second == first else "different"


QUESTIONS = {
    "class_bytes": ask_class_bytes, "class_file_parts": ask_class_file, "class_versions": ask_versions, "code_lengths": ask_code_length,
    "codes": ask_code, "cut_texts": ask_cuts, "descriptors": ask_descriptor, "explanations": ask_explanation, "left_out": ask_left_out,
    "literals": ask_literal, "numbers": ask_number, "plain": frames.ask_plain, "plain_instructions": frames.ask_plain_count,
    "pool_texts": ask_units, "pools": ask_pool, "written_again": ask_written,
    "class_changes": lambda jm, asked, wanted: ask_changes(jm, asked, wanted, is_class_kept),
    "record_changes": lambda jm, asked, wanted: ask_changes(jm, asked, wanted, is_events(["replay", "record"], "record")),
    "schedule_changes": lambda jm, asked, wanted: ask_changes(jm, asked, wanted, is_events(["run", "--schedule", "events"], "events")),
}


def ask_answer(jm, question, line):
    """Asks a row of a table of questions."""
    asked, wanted = line.split(" =>", 1)
    told = question(jm, asked, wanted)
    wanted = text_bytes(expanded(wanted)).decode()
    if told.lstrip() != wanted.lstrip():
        raise Missed(f"wanted {wanted.lstrip()!r}, came {told.lstrip()!r}")


def tables(_long):
    """Yields the tables of questions that a command answers. The others are asked in tests/library."""
    for name, question in sorted(QUESTIONS.items()):
        table = f"answers/{name}.txt"
        yield table, [(f"{table}:{at}", lambda jm, line=line, question=question: ask_answer(jm, question, line)) for at, line in rows(table)]
