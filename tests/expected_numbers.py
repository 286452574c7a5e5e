#!/usr/bin/env python3
"""Writes what the list of `jm explain` has to have by docs/LIMITS.md: data/answers/explanations.txt, a row for each number
of a refusal or an exit status with its name, and one with all numbers; and data/jobs/explanations.list, the list itself,
whose numbers and names are those of docs/LIMITS.md and whose meanings are those of the definition
(jm_explain/specs/Table.antt). expected_numbers.py --check writes nothing, and says which of the two is another.
Not read by any check: what stands in data/ is committed."""

import os
import re
import sys

os.chdir(os.path.dirname(os.path.abspath(__file__)))
HEAD = """# Numbers, and the names that `jm explain` has beside them; `all` are the numbers of which it tells.
# Each refusal and each status of docs/LIMITS.md (expected_numbers.py)
"""
NONE = """# and some that are neither
"""


def section(text, title):
    """Returns the first two cells of the rows of a section's table that begin with a number."""
    part = text.split(f"\n## {title}\n")[1].split("\n## ")[0]
    return {int(number): name for number, name in re.findall(r"(?m)^\| (\d+) \| ([^|]*) \|", part)}


with open("../docs/LIMITS.md", encoding="utf-8") as file:
    limits = file.read()
refusals, statuses = section(limits, "Refusals"), section(limits, "Exit statuses of the program `jm`")
names = {number: "status" for number in statuses}
for number, name in refusals.items():
    names[number] = name.partition(";")[0] + (f"; status {number}" if number in statuses else "")
numbers = sorted(names)
with open("../crates/jm_explain/specs/Table.antt", encoding="utf-8") as file:
    meanings = {int(number): meaning for number, meaning in re.findall(r'number = (\d+); .*?meaning = codes "([^"]*)"', file.read())}
none = [it for it in (16, 17, 44, 47, 48, 58, 91, 99, 4294967295) if it not in names]
made = {
    "data/answers/explanations.txt": HEAD + "".join(f"{it} => {names[it]}\n" for it in numbers)
    + "all => " + " ".join(map(str, numbers)) + "\n" + NONE + "".join(f"{it} => none\n" for it in none),
    "data/jobs/explanations.list": "".join(f"{it} {names[it]}: {meanings.get(it)}\n" for it in numbers),
}
others = []
for path, text in made.items():
    if "--check" in sys.argv[1:]:
        with open(path, encoding="utf-8") as file:
            others += [path] if file.read() != text else []
    else:
        with open(path, "w", encoding="utf-8") as file:
            file.write(text)
sys.exit(f"another than docs/LIMITS.md says: {', '.join(others)}" if others else 0)
