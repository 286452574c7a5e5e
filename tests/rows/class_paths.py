"""Programs of many classes that are found by their names (docs/LINKING.md, "Classes found by name"): a chain in which each class uses the
next, one class that uses all others, and one that is found through links. What is wanted is by hand: each class prints its number, and a
file is found once."""
from rows.calls import Call, Link

MANY = 2_000
MAIN = "public static main([Ljava/lang/String;)V"
PRINTS = "getstatic java/lang/System/out Ljava/io/PrintStream;\nldc {number}\ninvokevirtual java/io/PrintStream/println(I)V\n"


def text(name, method, code):
    """Returns the text of a class with one method."""
    body = f".limit stack 2\n.limit locals 1\n{code}return\n.end method\n"
    return f".class public {name}\n.super java/lang/Object\n.method {method}\n{body}".encode()


def calls(numbers):
    """Returns the instructions that call the methods of classes."""
    return "".join(f"invokestatic its/C{it}/f()V\n" for it in numbers)


def chain():
    """Returns the files of a chain: each class prints its number, and the last of a piece of 400 calls begins the next by hand."""
    files = {"Main.j": text("Main", MAIN, calls(range(0, MANY, 400)))}
    for number in range(MANY):
        behind = [number + 1] if (number + 1) % 400 and number + 1 < MANY else []
        files[f"d/its/C{number}.j"] = text(f"its/C{number}", "static f()V", PRINTS.format(number=number) + calls(behind))
    return files


def star():
    """Returns the files of a class that calls the methods of all others, twice."""
    files = {"Main.j": text("Main", MAIN, calls(range(MANY)) * 2)}
    for number in range(MANY):
        files[f"d/its/C{number}.j"] = text(f"its/C{number}", "static f()V", PRINTS.format(number=number))
    return files


def in_order(numbers):
    """Returns a line for each number."""
    return "".join(f"{it}\n" for it in numbers).encode()


def listed(numbers):
    """Returns the line of each file that is found for a class."""
    return b"Main.j\n" + b"".join(b"d/its/C%d.j\n" % it for it in numbers)


def first_uses():
    """Returns the numbers of the chain's classes in the order of their first use: the pieces' first ones, then the second ones, and so on."""
    return [piece + at for at in range(400) for piece in range(0, MANY, 400)]


def linked(files, folder="d", **wanted):
    """Returns the call of a class that is looked for below a folder, where these files and links lie."""
    main = text("Main", MAIN, calls([7]))
    return Call(["run", "--path", folder, "Main.j"], {"Main.j": main, **files}, left=None, **wanted)


def subclass(name, superclass):
    """Returns a class file of a class without members (JVMS 4.1)."""
    def in_pool(units):
        return b"\x01" + len(units).to_bytes(2, "big") + units

    pool = in_pool(name) + b"\x07\x00\x01" + in_pool(superclass) + b"\x07\x00\x03"
    return bytes.fromhex("CAFEBABE 0000 0031 0005") + pool + bytes.fromhex("0021 0002 0004 0000 0000 0000 0000")


def below(name, **wanted):
    """Returns the call of a class whose superclass has a name that a path may not have, though its file lies there."""
    superclass = name.encode()
    files = {"Main.class": subclass(b"Main", superclass), f"d/{name}.class": subclass(superclass, b"java/lang/Object")}
    return Call(["check", "--list", "--path", "d", "Main.class"], files, **wanted)


SEVENTH = text("its/C7", "static f()V", PRINTS.format(number=7))
NOWHERE = {"lines": b"jm: 51 NoClass(its/C7)\n", "status": 4}
CALLS = {
    "a chain runs": lambda: Call(["run", "--path", "d", "Main.j"], chain(), output=in_order(range(MANY))),
    "a chain is listed": lambda: Call(["check", "--list", "--path", "d", "Main.j"], chain(), output=listed(first_uses())),
    "a star runs": lambda: Call(["run", "--path", "d", "Main.j"], star(), output=in_order([*range(MANY)] * 2)),
    "a link out of the folder": lambda: linked({"out.j": SEVENTH, "d/its/D.j": SEVENTH, "d/its/C7.j": Link("../../out.j", False)}, output=b"7\n"),
    "a hard link": lambda: linked({"out.j": SEVENTH, "d/its/C7.j": Link("out.j", True), "d/its/D.j": SEVENTH}, output=b"7\n"),
    "a link to the folder": lambda: linked({"d/its/C7.j": SEVENTH, "l": Link("d", False)}, "l", output=b"7\n"),
    "a link to nothing": lambda: linked({"d/its/D.j": SEVENTH, "d/its/C7.j": Link("nowhere", False)}, **NOWHERE),
    "a link to itself": lambda: linked({"d/its/D.j": SEVENTH, "d/its/C7.j": Link("C7.j", False)}, **NOWHERE),
    "a line feed in a name": lambda: below("E\nx", output=b"Main.class\n"),
    "U+007F in a name": lambda: below("E\x7fx", output=b"Main.class\n"),
    "U+0085 in a name": lambda: below("E\x85x", output=b"Main.class\n"),
    "a blank in a name": lambda: below("its/E x", output=b"Main.class\nd/its/E x.class\n"),
    "a backslash in a name": lambda: below("its/E\\x", output=b"Main.class\nd/its/E\\x.class\n"),
    "a star is listed": lambda: Call(["check", "--list", "--path", "d", "Main.j"], star(), output=listed(range(MANY))),
}


def tables(_long):
    """Yields the programs."""
    yield "classes found by name", [(name, lambda jm, call=call: jm.ask(call())) for name, call in CALLS.items()]
