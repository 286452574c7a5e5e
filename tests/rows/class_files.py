"""files.txt: what each class file and each text has, and whether its class is the same, written and read again, and as a text."""
import collections
import re

from rows.calls import Missed
from rows.columns import data, rows


def counts(text):
    """Returns the seven numbers of a class whose text `jm dis` gave: of members, of limits, and of rows."""
    words = [line.split() for line in re.sub(r"(?m)^;.*\n", "", text).splitlines()]
    heads = collections.Counter(it[0] for it in words if it)
    limits = [sum(int(it[2]) for it in words if it[:2] == [".limit", what]) for what in ("stack", "locals")]
    return [heads[".field"], heads[".method"], *limits, len(re.findall(r"(?m)  ; \d+$", text)), heads[".catch"], heads[".line"]]


def again(jm, name, content):
    """Returns `equal` where the class of a text or of a class file is the same, written as a class file by way of its text."""
    text = jm.made(["dis", "--bare", name], {name: content}, output=None).output
    first = jm.made(["asm", "T.j", "T.class"], {"T.j": text}, left=None).files["T.class"]
    if jm.made(["dis", "--bare", "T.class"], {"T.class": first}, output=None).output != text:
        return "different"
    return "equal"


def ask_file(jm, name, wanted):
    """Asks for the line of a file: its name and why it is refused, or its seven numbers, whether its class comes back, and what no text
    can say of it."""
    content, base = data(name), name.split("/")[-1]
    came = jm.made(["dis", base], {base: content}, output=None, lines=None, status=None)
    fault = re.fullmatch(rf"jm: {re.escape(base)}: (.*)\n", came.lines.decode())
    if came.status == 4 and not came.output:
        told = fault[1]
    else:
        numbers = " ".join(map(str, counts(came.output.decode())))
        told = f"{numbers}, {fault[1] if fault else again(jm, base, content)}"
    if told != wanted:
        raise Missed(f"{name}: wanted {wanted}, came {told}")


def tables(_long):
    """Yields the list of class files and texts."""
    lines = [(at, *line.split(" => ")) for at, line in rows("files.txt")]
    yield "files.txt", [(f"files.txt:{at}", lambda jm, name=name, wanted=wanted: ask_file(jm, name, wanted)) for at, name, wanted in lines]
