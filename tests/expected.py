#!/usr/bin/env python3
"""Prints a table of class files, made from what `javap -v -p` prints of each.

A line is: FILE fields methods max_stack max_locals instructions handlers lines.
The first two numbers count the members of the class; the others are sums over
its methods: of max_stack and max_locals, and of the rows of the code, of the
exception table and of the line number table. Lines are sorted by file name.
"""

import os
import re
import subprocess
import sys

FILE = re.compile(r"^Classfile (.*)$")
MEMBERS = re.compile(r"^  interfaces: \d+, fields: (\d+), methods: (\d+), attributes: \d+$")
LIMITS = re.compile(r"^      stack=(\d+), locals=(\d+), args_size=\d+$")
INSTRUCTION = re.compile(r"^ *\d+: [a-z]")
HANDLER = re.compile(r"^ +\d+ +\d+ +\d+ +(Class .*|any)$")
LINE = re.compile(r"^ +line \d+: \d+$")
ATTRIBUTE = re.compile(r"^ {4,6}[A-Z][A-Za-z ]*:")


def rows(paths):
    """The file name of each class file and its seven numbers."""
    printed = subprocess.run(
        ["javap", "-v", "-p", *paths], check=True, capture_output=True, text=True
    ).stdout
    table = {}
    part = None
    for text in printed.splitlines():
        if found := FILE.match(text):
            row = table[os.path.basename(found[1])] = [0] * 7
        elif found := MEMBERS.match(text):
            row[0:2] = int(found[1]), int(found[2])
        elif found := LIMITS.match(text):
            row[2] += int(found[1])
            row[3] += int(found[2])
        elif ATTRIBUTE.match(text):
            part = text.strip().split(":")[0]
        elif part == "Code" and INSTRUCTION.match(text):
            row[4] += 1
        elif part == "Exception table" and HANDLER.match(text):
            row[5] += 1
        elif part == "LineNumberTable" and LINE.match(text):
            row[6] += 1
    return sorted(table.items())


def main():
    """Prints a line for each class file named on the command line."""
    for name, row in rows(sys.argv[1:]):
        print(name, *row)


main()
