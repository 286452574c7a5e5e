#!/usr/bin/env python3
"""make_files.py FOLDER: writes a folder of class files (JVMS 4) a shape, each of which makes work for linking:
many members, many references to one of them, many literals, long chains, cycles and diamonds of classes. The first
file by name is the main class."""
import pathlib
import random
import struct
import sys

sys.path.insert(0, str(pathlib.Path(__file__).parent.parent / "large_classes"))
from make_classes import Pool

PUBLIC, PUBLIC_STATIC, PUBLIC_ABSTRACT, PUBLIC_CLASS, ABSTRACT_CLASS, INTERFACE = 1, 9, 0x401, 0x21, 0x421, 0x601
RETURN, LDC_W, POP, GETSTATIC, GETFIELD, INVOKESTATIC, INVOKEVIRTUAL = b"\xb1", 0x13, 0x57, 0xB2, 0xB4, 0xB8, 0xB6
MAIN = ("main", "([Ljava/lang/String;)V")
LONGEST = 65533 // 3 * 3
MANY = 65535
CLASSES = 60001


def method(pool, name, descriptor, code=RETURN):
    body = struct.pack(">HHI", 8, 8, len(code)) + code + struct.pack(">HH", 0, 0)
    head = struct.pack(">HHHH", PUBLIC_STATIC, pool.text(name), pool.text(descriptor), 1)
    return head + struct.pack(">HI", pool.text("Code"), len(body)) + body


def abstract_method(pool, name, descriptor):
    return struct.pack(">HHHH", PUBLIC_ABSTRACT, pool.text(name), pool.text(descriptor), 0)


def field(pool, name, descriptor, flags=PUBLIC_STATIC):
    return struct.pack(">HHHH", flags, pool.text(name), pool.text(descriptor), 0)


def class_file(name, above="java/lang/Object", interfaces=(), flags=PUBLIC_CLASS, members=lambda pool: ([], [])):
    pool = Pool()
    fields, methods = members(pool)
    this, superclass = pool.class_(name), pool.class_(above)
    named = [pool.class_(interface) for interface in interfaces]
    return (struct.pack(">IHHH", 0xCAFEBABE, 0, 52, pool.next) + pool.written
            + struct.pack(">HHHH", flags, this, superclass, len(named)) + struct.pack(f">{len(named)}H", *named)
            + struct.pack(">H", len(fields)) + b"".join(fields)
            + struct.pack(">H", len(methods)) + b"".join(methods) + struct.pack(">H", 0))


def uses(opcode, place, count):
    """The code of as many uses of a pool entry as fit into methods, and a return in each."""
    while count > 0:
        here = min(count, LONGEST // 3)
        yield struct.pack(">BH", opcode, place) * here + RETURN
        count -= here


def main_of(pool, opcode, place, count=1):
    return method(pool, *MAIN, next(uses(opcode, place, count)))


def many_calls(pool):
    """20,000 methods, of which 6 and main invoke the last one 131,000 times."""
    last = pool.member(10, "A", "m19999", "()V")
    callers = [method(pool, f"c{n}", "()V", code) for n, code in enumerate(uses(INVOKESTATIC, last, 131000))]
    plain = [method(pool, f"m{n}", "()V") for n in range(len(callers) + 1, 20000)]
    return [], [main_of(pool, INVOKESTATIC, last)] + callers + plain


def many_fields(pool):
    """65,535 fields, of 256 names and 256 types."""
    last = pool.member(9, "A", "f254", "LT255;")
    declared = [field(pool, f"f{n % 256}", f"LT{n // 256};") for n in range(MANY)]
    return declared, [main_of(pool, GETSTATIC, last, 20000)]


def many_methods(pool):
    """65,535 methods, of 256 names and 256 types."""
    last = pool.member(10, "A", "m253", "(LT255;)V")
    declared = [method(pool, f"m{n % 256}", f"(LT{n // 256};)V") for n in range(MANY - 1)]
    return [], [main_of(pool, INVOKESTATIC, last, 20000)] + declared


def with_main(pool):
    return [], [method(pool, *MAIN)]


def chain(top, members=with_main):
    """60,001 classes, each the superclass of the one before it; the last one extends the one named."""
    for n in range(CLASSES):
        above = f"A{n + 1}" if n + 1 < CLASSES else top
        yield class_file(f"A{n}", above, members=members if n == 0 else lambda pool: ([], []))


def chain_of_members():
    """60,001 classes, each the superclass of the one before it, and each with a field and a method of its own."""
    def own(n):
        def members(pool):
            main = [method(pool, *MAIN)] if n == 0 else []
            return [field(pool, f"f{n}", "I", PUBLIC)], main + [abstract_method(pool, f"m{n}", "()V")]
        return members

    for n in range(CLASSES):
        above = f"A{n + 1}" if n + 1 < CLASSES else "java/lang/Object"
        yield class_file(f"A{n}", above, flags=ABSTRACT_CLASS, members=own(n))


def call_along(pool):
    """main invokes a method that no class of the chain has."""
    return [], [main_of(pool, INVOKESTATIC, pool.member(10, "A0", "m", "()V"))]


def diamonds(first_above):
    """41 pairs of interfaces, each of which extends both of the pair above; the field is in none."""
    def use(pool):
        return [], [main_of(pool, GETSTATIC, pool.member(9, "A", "f", "I"))]

    yield class_file("A", interfaces=("L0", "R0"), members=use)
    for level in range(41):
        above = (f"L{level + 1}", f"R{level + 1}") if level < 40 else first_above
        for side in "LR":
            yield class_file(f"{side}{level}", interfaces=above, flags=INTERFACE)


def literals():
    """60,000 string literals in three classes, each pushed twice."""
    for file in range(3):
        def members(pool):
            texts = [f"literal {n}" for n in range(20000 * file, 20000 * (file + 1))]
            pushes = [struct.pack(">BHB", LDC_W, pool.string(text), POP) for text in texts + texts]
            codes = [b"".join(pushes[n:n + 16000]) + RETURN for n in range(0, len(pushes), 16000)]
            return [], [method(pool, *MAIN)] + [method(pool, f"m{n}", "()V", code) for n, code in enumerate(codes)]

        yield class_file("ABC"[file], members=members)


def inherited_fields():
    """A class that inherits 10,000 fields, of each of which there is a use."""
    def all_used(pool):
        places = [pool.member(9, "C", f"f{n}", "I") for n in range(10000)]
        return [], [method(pool, *MAIN, b"".join(struct.pack(">BH", GETFIELD, place) for place in places) + RETURN)]

    yield class_file("A", members=all_used)
    yield class_file("B", members=lambda pool: ([field(pool, f"f{n}", "I", PUBLIC) for n in range(10000)], []))
    yield class_file("C", above="B")


def many_interfaces():
    """2,000 interfaces of one method each, and a class that implements them all; each method is invoked on it."""
    count = 2000

    def all_invoked(pool):
        places = [pool.member(10, "B", f"m{n}", "()V") for n in range(count)]
        return [], [method(pool, *MAIN, b"".join(struct.pack(">BH", INVOKEVIRTUAL, place) for place in places) + RETURN)]

    yield class_file("A", members=all_invoked)
    yield class_file("B", interfaces=[f"I{n}" for n in range(count)], flags=ABSTRACT_CLASS)
    for n in range(count):
        yield class_file(f"I{n}", flags=INTERFACE, members=lambda pool, n=n: ([], [abstract_method(pool, f"m{n}", "()V")]))


def interfaces_above_interfaces():
    """1,000 interfaces, each of which extends half of 1,000 others, no two of them the same half."""
    yield class_file("A", members=with_main)
    for n in range(1000):
        halves = random.Random(n)
        above = [f"U{k}" for k in range(1000) if halves.random() < 0.5]
        yield class_file(f"L{n}", interfaces=above, flags=INTERFACE)
    for k in range(1000):
        yield class_file(f"U{k}", flags=INTERFACE)


SHAPES = {
    "literals": literals,
    "inherited fields": inherited_fields,
    "many interfaces": many_interfaces,
    "many calls": lambda: [class_file("A", members=many_calls)],
    "many fields": lambda: [class_file("A", members=many_fields)],
    "many methods": lambda: [class_file("A", members=many_methods)],
    "chain of members": chain_of_members,
    "interfaces above interfaces": interfaces_above_interfaces,
    "chain": lambda: chain("java/lang/Object"),
    "call along a chain": lambda: chain("java/lang/Object", call_along),
    "cycle": lambda: chain("A0"),
    "chain into a cycle": lambda: chain(f"A{CLASSES // 2}"),
    "diamonds": lambda: diamonds(()),
    "diamonds in a cycle": lambda: diamonds(("L0",)),
}


def main():
    folder = pathlib.Path(sys.argv[1])
    for shape, files in SHAPES.items():
        (folder / shape).mkdir()
        for number, written in enumerate(files()):
            (folder / shape / f"{number:05x}").write_bytes(written)


if __name__ == "__main__":
    main()
