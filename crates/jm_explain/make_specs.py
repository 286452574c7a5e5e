#!/usr/bin/env python3
"""Writes specs/Table.antt, the entries of the groups in src/ as definitions, so that the contracts can say which text
each number has. make_specs.py --check writes nothing, and says whether the file is as it would be written.
No check reads it: where the two differ, `entries` of that group is not proved."""

import os
import re
import sys

os.chdir(os.path.dirname(os.path.abspath(__file__)))
GROUPS = ("statuses", "instructions", "pools", "class_files", "assembler_texts", "links", "runs", "sessions")
FIELDS = ("name", "names", "meaning", "example", "advice")
TEXT = r'"[^"\\]*"'
ENTRY = re.compile(r"Entry \{\s+number: (\d+),\s+" + r"\s+".join(rf"{it}:\s+(&\[[^\]]*\]|{TEXT})," for it in FIELDS))
HEAD = """-- What is said of each number, by number.
use Rattle.std.specs.Prelude.{List, [], ◌∷◌, ◌++◌, Option, Some, None, codes}
use Rattle.jm_explain.specs.Items.{Item, Text, item_text, list_of}
"""
FOOT = """
-- what is said of a number, or where none is asked for the list
unfoldable pub explained : Option Item → Text
explained (Some i) = item_text i
explained None = list_of items
"""


def value_of(text):
    """Returns the definition of a text, or of a list of them."""
    return "".join(f"codes {it} ∷ " for it in re.findall(TEXT, text)) + "[]" if text.startswith("&[") else f"codes {text}"


def row_of(number, *texts):
    """Returns the line of an entry."""
    fields = "; ".join(f"{field} = {value_of(text)}" for field, text in zip(FIELDS, texts))
    return f"    record {{ number = {number}; {fields} }} ∷\n"


def group_of(name):
    """Returns the definition of a group."""
    with open(f"src/{name}.rt", encoding="utf-8") as file:
        rows = "".join(row_of(*row) for row in ENTRY.findall(file.read()))
    return f"\nunfoldable pub {name} : List Item\n{name} =\n{rows}    []\n"


items = "(" * (len(GROUPS) - 2) + ") ++ ".join(GROUPS).replace(") ++ ", " ++ ", 1)
made = HEAD + "".join(map(group_of, GROUPS)) + f"\nunfoldable pub items : List Item\nitems = {items}\n" + FOOT
if "--check" in sys.argv[1:]:
    with open("specs/Table.antt", encoding="utf-8") as file:
        sys.exit(0 if file.read() == made else "specs/Table.antt is another table than that of src/")
with open("specs/Table.antt", "w", encoding="utf-8") as file:
    file.write(made)
