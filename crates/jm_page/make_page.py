#!/usr/bin/env python3
"""Writes src/page.rt, the text of bench/film/page.html above the data and below, as two constants: a program is one file, and
the language has no means to take another file's text into one. make_page.py --check writes nothing, and says whether the
file is as it would be written. The mark of the data stands once in the template, behind what opens the element of the data."""

import os
import sys

os.chdir(os.path.dirname(os.path.abspath(__file__)))
MARK = "/*DATA*/"
HEAD = "// The page's own text, above the data and below: bench/film/page.html, which make_page.py writes here.\n"


def constant(name, said, text):
    """Returns a text as a constant, a line for each of its lines."""
    lines = [it.replace("\\", "\\\\").replace('"', '\\"').replace("\n", "\\n") for it in text.splitlines(keepends=True)]
    return f"\n/// {said}\npub static {name}: &str = concat!(\n" + "".join(f'    "{it}",\n' for it in lines) + ");\n"


def module():
    """Returns the text of src/page.rt."""
    with open("../../bench/film/page.html", encoding="ascii") as page:
        above, below = page.read().split(MARK)
    made = constant("ABOVE", "The page's text above the data; its last line goes on with the data's first one.", above)
    return HEAD + made + constant("BELOW", "The page's text below the data; it begins with the end of the data's element.", below)


def main():
    text = module()
    if sys.argv[1:] == ["--check"]:
        with open("src/page.rt", encoding="ascii") as page:
            if page.read() != text:
                sys.exit("make_page.py: src/page.rt is not what bench/film/page.html makes: make_page.py writes it anew")
    else:
        with open("src/page.rt", "w", encoding="ascii") as page:
            page.write(text)


main()
