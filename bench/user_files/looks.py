"""As what each word of a text is shown, by the syntax in TextMate's form and by vim, and what it has to be shown as."""
import json
import os
import re
import subprocess
import tempfile

from user_files.syntax import LOOKS, MORE, NAME

# Vim's words: as what each word of a file is shown, a line each, behind the numbers of its line and its first column.
TELLS = r"""
let told = []
for number in range(1, line('$'))
  let at = match(getline(number), '\S')
  while at >= 0
    call add(told, number . ' ' . at . ' ' . synIDattr(synID(number, at + 1, 1), 'name'))
    let at = match(getline(number), '\s\@<=\S', at + 1)
  endwhile
endfor
call writefile(told, $TOLD)
qall!
"""


def flat(grammar, patterns):
    """Returns patterns of a grammar, with what they include in the place of its name."""
    for it in patterns:
        named = grammar["repository"][it["include"][1:]] if "include" in it else it
        yield from flat(grammar, named["patterns"]) if "patterns" in named and "begin" not in named else [named]


def marked(scopes, found, rule, captures):
    """Marks the signs of what was found with a rule's scope and those of its parts."""
    parts = [(0, rule["name"])] if "name" in rule else []
    for part, name in [*parts, *((int(part), it["name"]) for part, it in rule.get(captures, {}).items())]:
        first, last = found.span(part)
        scopes[first:last] = [name] * (last - first)


def scopes_of(grammar, text):
    """Returns the scope of each sign of a line, as TextMate's form has it: at each place the first pattern of those that begin first."""
    scopes, at, stack = [None] * len(text), 0, [{"patterns": grammar["patterns"]}]
    while True:
        rules = [{"match": stack[-1]["end"]}] if "end" in stack[-1] else []
        rules += flat(grammar, stack[-1]["patterns"])
        tried = [(re.compile(it.get("match") or it["begin"]).search(text, at), it) for it in rules]
        tried = [(found, rule) for found, rule in tried if found]
        if not tried:
            return scopes
        found, rule = min(tried, key=lambda it: it[0].start())
        scopes[at:found.end()] = [stack[-1].get("name")] * (found.end() - at)
        at = found.end()
        if "begin" in rule:
            stack.append(rule)
            marked(scopes, found, rule, "beginCaptures")
        elif rule["match"] == stack[-1].get("end"):
            stack.pop()
        else:
            marked(scopes, found, rule, "captures")


def by_textmate(grammar, text):
    """Returns the group as which each word of a text is shown, by the number of its line and its first column."""
    groups = {f"{scope}.{NAME}": group for group, scope, _ in LOOKS}
    shown = {}
    for number, line in enumerate(text.split("\n"), 1):
        scopes = scopes_of(grammar, line)
        shown |= {(number, it.start()): groups.get(scopes[it.start()], "") for it in re.finditer(r"(?<!\S)\S", line)}
    return shown


def by_vim(folder, text):
    """Returns the same by vim, whose syntax lies in a folder."""
    with tempfile.TemporaryDirectory() as room:
        for name, content in (("text.j", text), ("tells.vim", TELLS)):
            with open(f"{room}/{name}", "w", encoding="utf-8") as file:
                file.write(content)
        words = ["vim", "-es", "-u", "NONE", "-i", "NONE", "--cmd", "set encoding=utf-8", "-c", f"set runtimepath^={folder}", "-c", "filetype on",
                 "-c", "syntax on", "-c", "edit text.j", "-S", "tells.vim"]
        subprocess.run(words, cwd=room, env={**os.environ, "TOLD": f"{room}/told"}, check=True, stdin=subprocess.DEVNULL, timeout=60)
        with open(f"{room}/told", encoding="utf-8") as file:
            told = [line.rstrip("\n").split(" ") for line in file]
    groups = [(int(number), int(at), group.removeprefix(NAME)) for number, at, group in told]
    return {(number, at): MORE.get(group, "" if group in ("First", "Flagged", "Line", "Array") else group) for number, at, group in groups}


def wanted_first(words, word):
    """Returns the group as which the first word of a line has to be shown."""
    if word in words.mnemonics:
        return "Instruction"
    if word in words.directives:
        return "Directive"
    if word in words.no_mnemonics + words.no_directives:
        return "LeftOut"
    if word.startswith(";"):
        return "Comment"
    if word == "default":
        return "Word"
    if re.fullmatch("-?[0-9]+|0x[0-9A-Fa-f]+", word):
        return "Number"
    return "Label" if word.endswith(":") and word != ":" else ""


def faults(words, text, shown):
    """Returns the lines of a text whose first word is shown as what it is not, and those whose other words are shown as instructions or
    directives."""
    found = []
    for number, line in enumerate(text.split("\n"), 1):
        first, *others = [(it[0], shown[number, it.start()]) for it in re.finditer(r"\S+", line)] or [("", "")]
        if first[1] != (wanted_first(words, first[0]) if first[0] else ""):
            found.append(f"line {number}: {first[0]} is shown as {first[1] or 'nothing'}")
        found += [f"line {number}: {it} is shown as {group}" for it, group in others if group in ("Instruction", "Directive")]
    return found


def every_word(words):
    """Returns a text in which each mnemonic and directive begins a line, and stands at other places."""
    parts = []
    for word in words.mnemonics + words.no_mnemonics + words.directives + words.no_directives:
        parts += [word, f"  {word} 1 ; {word}", f"{word}:", f"goto {word}", f'ldc "{word}"', f"getfield Main/{word} I", f"  1 : {word}"]
    return "\n".join(parts) + "\n"


def grammar_of(text):
    """Returns the syntax that a text in TextMate's form has."""
    return json.loads(text)
