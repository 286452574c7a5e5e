#!/usr/bin/env python3
"""make_class.py TURNS FILE: writes a class file whose main makes so many turns of a loop of eleven
instructions (constants, arithmetic, local variables, branches) and prints a sum, and beside it
FILE.schedule with one event for each stage and instruction of its run."""

import struct
import sys


def u2(n):
    return struct.pack(">H", n)


def u4(n):
    return struct.pack(">I", n)


class Pool:
    def __init__(self):
        self.entries = []

    def add(self, entry):
        if entry not in self.entries:
            self.entries.append(entry)
        return self.entries.index(entry) + 1

    def utf8(self, text):
        return self.add(b"\x01" + u2(len(text)) + text.encode())

    def integer(self, n):
        return self.add(b"\x03" + struct.pack(">i", n))

    def class_of(self, name):
        return self.add(b"\x07" + u2(self.utf8(name)))

    def member(self, tag, owner, name, descriptor):
        pair = self.add(b"\x0c" + u2(self.utf8(name)) + u2(self.utf8(descriptor)))
        return self.add(tag + u2(self.class_of(owner)) + u2(pair))

    def bytes(self):
        return u2(len(self.entries) + 1) + b"".join(self.entries)


def main():
    turns, path = int(sys.argv[1]), sys.argv[2]
    pool = Pool()
    this, above = pool.class_of("Main"), pool.class_of("java/lang/Object")
    out = pool.member(b"\x09", "java/lang/System", "out", "Ljava/io/PrintStream;")
    println = pool.member(b"\x0a", "java/io/PrintStream", "println", "(I)V")
    count = pool.integer(turns)
    before = bytes([0x03, 0x3C, 0x03, 0x3D])  # iconst_0 istore_1 iconst_0 istore_2
    head = bytes([0x1C, 0x13]) + u2(count)  # iload_2 ldc_w
    body = bytes([0x1B, 0x10, 31, 0x68, 0x1C, 0x82, 0x3C, 0x84, 2, 1])
    # iload_1 bipush 31 imul iload_2 ixor istore_1 iinc 2 1
    leave = bytes([0xA2]) + u2(3 + len(body) + 3)  # if_icmpge, past the goto
    back = bytes([0xA7]) + u2((-(len(head) + len(leave) + len(body))) & 0xFFFF)  # goto the head
    after = b"\xb2" + u2(out) + b"\x1b" + b"\xb6" + u2(println) + b"\xb1"
    code = before + head + leave + body + back + after
    attribute = u2(4) + u2(3) + u4(len(code)) + code + u2(0) + u2(0)
    method = u2(9) + u2(pool.utf8("main")) + u2(pool.utf8("([Ljava/lang/String;)V")) + u2(1)
    method += u2(pool.utf8("Code")) + u4(len(attribute)) + attribute
    parts = u2(0x21) + u2(this) + u2(above) + u2(0) + u2(0) + u2(1) + method + u2(0)
    with open(path, "wb") as file:
        file.write(b"\xca\xfe\xba\xbe" + u2(0) + u2(49) + pool.bytes() + parts)
    # three stages, four instructions before the loop, eleven a turn, three at its end, four after it
    events = 3 + 4 + 11 * turns + 3 + 4
    with open(path + ".schedule", "w") as file:
        whole, rest = divmod(events, 1_000_000)
        file.write("t 1 x 1000000\n" * whole + (f"t 1 x {rest}\n" if rest else ""))
    print(events)


main()
