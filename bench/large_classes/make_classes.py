#!/usr/bin/env python3
"""make_classes.py FOLDER: writes class files of about 1 MB (JVMS 4), one a shape, and Large.java,
a program of about that size for javac."""
import pathlib
import struct
import sys


class Pool:
    """A constant pool, each entry once."""

    def __init__(self):
        self.places, self.written, self.next = {}, bytearray(), 1

    def put(self, entry):
        if entry not in self.places:
            self.places[entry] = self.next
            self.written += entry
            self.next += 1
        return self.places[entry]

    def text(self, text):
        return self.put(struct.pack(">BH", 1, len(text)) + text.encode())

    def class_(self, name):
        return self.put(struct.pack(">BH", 7, self.text(name)))

    def string(self, text):
        return self.put(struct.pack(">BH", 8, self.text(text)))

    def member(self, tag, owner, name, descriptor):
        named = self.put(struct.pack(">BHH", 12, self.text(name), self.text(descriptor)))
        return self.put(struct.pack(">BHH", tag, self.class_(owner), named))


def method(pool, name, code):
    body = struct.pack(">HHI", 8, 8, len(code)) + code + struct.pack(">HH", 0, 0)
    head = struct.pack(">HHHH", 9, pool.text(name), pool.text("()V"), 1)
    return head + struct.pack(">HI", pool.text("Code"), len(body)) + body


def full_methods(instruction):
    """16 methods of up to 65,535 bytes, of one instruction again and again, and a return."""

    def members(pool):
        code = instruction(pool)
        code = code * (65534 // len(code)) + b"\xb1"
        return [], [method(pool, f"m{n}", code) for n in range(16)]

    return members


def indexed(opcode, index):
    return full_methods(lambda pool: struct.pack(">BH", opcode, index(pool)))


def small_methods(pool):
    out = pool.member(9, "java/lang/System", "out", "Ljava/io/PrintStream;")
    println = pool.member(10, "java/io/PrintStream", "println", "(I)V")
    code = struct.pack(">BHBBBBHB", 0xB2, out, 5, 6, 0x60, 0xB6, println, 0xB1)
    return [], [method(pool, "m", code)] * 27000


def fields(pool):
    return [struct.pack(">HHHH", 1, pool.text("f"), pool.text("I"), 0)] * 65535, []


def fields_of_long_names(pool):
    name, descriptor = pool.text("f" * 60000), pool.text("L" + "c" * 60000 + ";")
    return [struct.pack(">HHHH", 1, name, descriptor, 0)] * 65535, []


def members_of_a_long_class(pool):
    """20,000 methods of a class of a long name, each invoked once."""
    owner = "c" * 60000
    code = b"".join(struct.pack(">BH", 0xB6, pool.member(10, owner, f"m{n}", "()V")) for n in range(20000))
    return [], [method(pool, "m", code + b"\xb1")]


SHAPES = {
    "nop": full_methods(lambda pool: b"\x00"),
    "bipush": full_methods(lambda pool: b"\x10\x01"),
    "goto": full_methods(lambda pool: b"\xa7\x00\x00"),
    "ldc of a string": full_methods(lambda pool: struct.pack(">BB", 0x12, pool.string("hello"))),
    "new": indexed(0xBB, lambda pool: pool.class_("Main")),
    "getfield": indexed(0xB4, lambda pool: pool.member(9, "Main", "f", "I")),
    "invokevirtual": indexed(0xB6, lambda pool: pool.member(10, "java/io/PrintStream", "println", "(I)V")),
    "small methods": small_methods,
    "fields": fields,
    "long names": indexed(0xB6, lambda pool: pool.member(10, "c" * 60000, "m" * 60000, "(L" + "d" * 60000 + ";)V")),
    "fields of long names": fields_of_long_names,
    "a long class": members_of_a_long_class,
}

JAVA_METHOD = """    static int method{n}(int count, int[] values) {{
        int sum = {n};
        long product = 1L;
        for (int index = 0; index < count; index++) {{
            if (values[index] > sum) {{ sum += values[index] * 3; }} else {{ sum -= index; }}
            product = product * 31 + sum;
            switch (sum & 7) {{ case 0: sum++; break; case 3: sum ^= 5; break; default: sum--; }}
        }}
        System.out.println(sum);
        System.out.println(product);
        return helper(sum, (int) product);
    }}
"""


def java():
    methods = "".join(JAVA_METHOD.format(n=n) for n in range(3600))
    helper = "    static int helper(int one, int other) { return one + other; }\n"
    return "public class Large {\n" + methods + helper + "}\n"


def main():
    folder = pathlib.Path(sys.argv[1])
    for name, members in SHAPES.items():
        pool = Pool()
        declared, methods = members(pool)
        this, above = pool.class_("Main"), pool.class_("java/lang/Object")
        (folder / f"{name}.class").write_bytes(
            struct.pack(">IHHH", 0xCAFEBABE, 0, 52, pool.next) + pool.written
            + struct.pack(">HHHH", 0x21, this, above, 0)
            + struct.pack(">H", len(declared)) + b"".join(declared)
            + struct.pack(">H", len(methods)) + b"".join(methods) + struct.pack(">H", 0))
    (folder / "Large.java").write_text(java())


if __name__ == "__main__":
    main()
