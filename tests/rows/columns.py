"""What the columns of a row mean (tests/data/jobs/README.md, tests/data/answers/README.md), and the rows of a table."""
import functools
import re

from rows.calls import DATA, Folder, Large, Link


@functools.lru_cache(None)
def data(name):
    """Returns the bytes of a file among the data."""
    with open(f"{DATA}/{name}", "rb") as file:
        return file.read()


def rows(table):
    """Returns the rows of a table, each behind the number of its line."""
    lines = data(table).decode().split("\n")[:-1]
    return [(number, line.removesuffix("\r")) for number, line in enumerate(lines, 1) if not line.startswith("#")]


def text_bytes(text):
    """Returns the bytes of a text: `~` is the end of a line, and `%FF` a byte."""
    first, *parts = text.replace("~", "\n").split("%")
    return first.encode() + b"".join(bytes([int(it[:2], 16)]) + it[2:].encode() for it in parts)


def word_bytes(word):
    """Returns the byte of two hexadecimal digits, or the ASCII behind a `'`."""
    return word[1:].encode() if word.startswith("'") else bytes([int(word, 16)])


def edited(whole, edits):
    """Returns bytes with edits: `AT:REMOVED` goes on behind the bytes removed there, other words stand in their place."""
    made, at = b"", 0
    for word in edits.split():
        if place := re.fullmatch(r"(\d+):(\d+)", word):
            made, at = made + whole[at:int(place[1])], int(place[1]) + int(place[2])
        else:
            made += word_bytes(word)
    return made + whole[at:]


def with_instructions(file, instructions):
    """Returns the text of a file with instructions for its comment `; here`."""
    return data(file).replace(b"; here", instructions.replace(" / ", "\n").encode())


def repetition(rest):
    """Returns three texts, of which the middle one stands so many times."""
    count, rest = rest.split(" ", 1)
    before, part, behind = map(text_bytes, rest.split(" / ", 2))
    return before + part * int(count) + behind


def numbered(rest):
    """Returns three texts, of which the middle one stands so many times, with the number of each for `#` in it, from 0 on."""
    count, rest = rest.split(" ", 1)
    before, part, behind = rest.split(" / ", 2)
    return text_bytes(before + "".join(part.replace("#", str(number)) for number in range(int(count))) + behind)


MEANINGS = {
    "@file": data,
    "@empty": lambda name: f".class {name}\n.super java/lang/Object\n".encode(),
    "@print": lambda rest: with_instructions("jobs/print.j", rest),
    "@main": lambda rest: with_instructions("jobs/main.j", rest),
    "@body": lambda rest: with_instructions("answers/body.j", rest),
    "@repeat": repetition,
    "@numbered": numbered,
    "@hex": lambda words: b"".join(map(word_bytes, words.split())),
    "@edits": lambda edits: edited(data("sum.class"), edits),
}


def bytes_of(column):
    """Returns the bytes that a column means."""
    word, space, rest = column.partition(" ")
    if column == "-":
        return b""
    return MEANINGS[word](rest) if space and word in MEANINGS else text_bytes(column)


def expanded(column):
    """Returns a text in which `{N PART}` stands for PART as often as N says; `#` in it is the number, from 0 on."""
    return re.sub(r"\{(\d+) ([^}]*)\}", lambda it: "".join(it[2].replace("#", str(number)) for number in range(int(it[1]))), column)


def answer_bytes(column):
    """Returns the bytes that a column of a question means."""
    return bytes_of(expanded(column))


def link_of(column):
    """Returns the link that a column means, if it means one."""
    for word, is_hard in (("@link ", False), ("@hard link ", True)):
        if column.startswith(word):
            return Link(column.removeprefix(word), is_hard)
    return None


def file_of(files, name, column):
    """Lays a file with what a column means among the files."""
    if column == "@not read":
        return
    content = {"@out of memory": Large, "@folder": Folder}.get(column) or link_of(column) or bytes_of(column)
    if files.setdefault(name, content) != content:
        raise ValueError(f"two files have the name {name}")


def name_of(column):
    """Returns a name of a file, or a word of a command line: a text in which `{N PART}` stands for PART so often."""
    return text_bytes(expanded(column)).decode()


def files_of(names, columns):
    """Returns the names of a program's files, and the files."""
    if names == "-":
        return [], {}
    files, names = {}, [name_of(it) for it in names.split(" & ")]
    for name, column in zip(names, columns.split(" & ")):
        file_of(files, name, column)
    return names, files
