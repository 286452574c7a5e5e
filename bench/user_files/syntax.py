"""The syntax of the texts that `jm asm` reads, for vim and in TextMate's form."""
import json
import re

NAME = "jasmin"
# A group of words in vim's syntax, the scope of the same in TextMate's form, and what vim shows it as.
LOOKS = (
    ("Comment", "comment.line.semicolon", "Comment"),
    ("String", "string.quoted.double", "String"),
    ("Escape", "constant.character.escape", "SpecialChar"),
    ("BadEscape", "invalid.illegal.escape", "Error"),
    ("Directive", "keyword.control.directive", "PreProc"),
    ("Flag", "storage.modifier", "StorageClass"),
    ("Word", "keyword.other", "Keyword"),
    ("Instruction", "keyword.operator.instruction", "Statement"),
    ("Label", "entity.name.label", "Label"),
    ("Type", "storage.type", "Type"),
    ("Number", "constant.numeric", "Number"),
    ("LeftOut", "invalid.deprecated", "Error"),
)
# Groups of vim's alone, and that as which each is shown.
MORE = {"LeftOutFlag": "LeftOut", "LeftOutElement": "LeftOut", "Element": "Type", "Default": "Word"}
# Directives behind which flags stand.
FLAGGED = (".class", ".interface", ".field", ".method")
# Words are parted by blanks and tabs, and whatever else stands in a word belongs to it (docs/ASSEMBLER.md, "Lines and words").
BEGIN, END = r"(?<!\S)", r"(?!\S)"
# A field's type, or the types and the result of a method: a word, or the end of one.
FIELD = r"\[*(?:[BCIJSZ]|L[^\s;]+;)"
TYPE = rf"{BEGIN}{FIELD}{END}|\((?:{FIELD})*\)(?:V|{FIELD}){END}"
NUMBER = rf"{BEGIN}(?:-?[0-9]+|0x[0-9A-Fa-f]+){END}"
LABEL = rf"^\s*([^\s:]+:){END}"
ESCAPE, BAD_ESCAPE = r'\\(?:[nt"\\]|u[0-9A-Fa-f]{4})', r"\\."


def one_of(words):
    """Returns the pattern of one of some words."""
    return rf"{BEGIN}(?:{'|'.join(map(re.escape, words))}){END}"


def scope(group):
    """Returns the scope of a group."""
    return f"{next(it for name, it, _ in LOOKS if name == group)}.{NAME}"


def matched(group, pattern):
    """Returns what TextMate's form has for a pattern of a group; of a pattern with a part in brackets the part is shown."""
    if re.compile(pattern).groups:
        return {"match": pattern, "captures": {"1": {"name": scope(group)}}}
    return {"match": pattern, "name": scope(group)}


def first(words):
    """Returns the pattern of one of some words at the start of a line."""
    return rf"^\s*({'|'.join(map(re.escape, words))}){END}"


def line(directives, groups):
    """Returns what TextMate's form has for the lines that begin with one of some directives, with these groups behind it."""
    parts = [{"include": f"#{it}"} for it in ("comment", "string", *groups)]
    return {"begin": first(directives), "end": "$", "beginCaptures": {"1": {"name": scope("Directive")}}, "patterns": parts}


def parted(directives):
    """Returns the directives behind which flags stand, and the others."""
    return [it for it in directives if it in FLAGGED], [it for it in directives if it not in FLAGGED]


def repository(words):
    """Returns the parts of TextMate's form, by name."""
    flagged, others = parted(words.directives)
    escapes = [matched("Escape", ESCAPE), matched("BadEscape", BAD_ESCAPE)]
    return {
        "comment": matched("Comment", rf"{BEGIN};.*$"),
        "string": {"begin": rf'{BEGIN}"', "end": '"|$', "name": scope("String"), "patterns": escapes},
        "flagged": line(flagged, ("flag", "type", "number")),
        "directive": line(others, ("word", "number")),
        "flag": {"patterns": [matched("Flag", one_of(words.flags)), matched("LeftOut", one_of(words.no_flags))]},
        "word": matched("Word", one_of(words.operands)),
        "leftOut": matched("LeftOut", first(words.no_mnemonics + words.no_directives)),
        "element": {"match": rf"^\s*(newarray)\s+(?:({'|'.join(words.elements)})|({'|'.join(words.no_elements)})){END}",
                    "captures": {str(at): {"name": scope(it)} for at, it in enumerate(("Instruction", "Type", "LeftOut"), 1)}},
        "instruction": matched("Instruction", first(words.mnemonics)),
        "default": matched("Word", rf"^\s*(default){END}"),
        "label": matched("Label", LABEL),
        "type": matched("Type", TYPE),
        "number": matched("Number", NUMBER),
    }


def textmate(words):
    """Returns the syntax in TextMate's form."""
    parts = ("comment", "string", "flagged", "directive", "leftOut", "element", "instruction", "default", "label", "type", "number")
    grammar = {
        "name": "Jasmin", "scopeName": f"source.{NAME}", "fileTypes": ["j"],
        "comment": "Made by bench/user-files of the definitions in crates/.",
        "patterns": [{"include": f"#{it}"} for it in parts], "repository": repository(words),
    }
    return json.dumps(grammar, indent=2) + "\n"


def keywords(group, words):
    """Returns vim's lines for the words of a group, which stand at their places alone."""
    return [f"syn keyword {NAME}{group} contained {it}" for it in words]


def region(group, directives, groups):
    """Returns vim's lines for the lines that begin with one of some directives, with these groups behind it."""
    named = "|".join(it[1:] for it in directives)
    contained = ",".join(f"{NAME}{it}" for it in (*groups, "Number", "String", "Comment"))
    return [rf"syn region {NAME}{group} matchgroup={NAME}Directive start=/\v^\s*\zs\.%({named})\S@!/ end=/$/ oneline contains={contained}"]


def vim_words(words):
    """Returns vim's lines for all words."""
    return [
        *keywords("Instruction", words.mnemonics), *keywords("LeftOut", words.no_mnemonics + words.no_directives),
        *keywords("Flag", words.flags), *keywords("LeftOutFlag", words.no_flags), *keywords("Word", words.operands),
        *keywords("Default", ["default"]), *keywords("Element", words.elements), *keywords("LeftOutElement", words.no_elements),
    ]


def vim(words):
    """Returns the syntax for vim: of two that begin at one place the later one is taken."""
    flagged, others = parted(words.directives)
    lines = [
        '" Vim syntax file of the texts that `jm asm` reads, for ~/.vim/syntax. Made by bench/user-files of the definitions in crates/.',
        'if exists("b:current_syntax")', "  finish", "endif", "syn case match",
        '" (a word is whatever stands between blanks)', "syn iskeyword 33-126,128-255", *vim_words(words),
        r"syn match jasminLabel contained /\S\+:\S\@!/",
        r"syn match jasminFirst /^\s*\zs\S\+/ contains=jasminInstruction,jasminLeftOut,jasminLabel,jasminDefault,jasminNumber",
        r"syn match jasminNumber /\S\@<!\%(-\=\d\+\|0x\x\+\)\S\@!/",
        r"syn match jasminType /\S\@<!\[*\%([BCIJSZ]\|L[^; \t]\+;\)\S\@!/",
        r"syn match jasminType /(\%(\[*\%([BCIJSZ]\|L[^; \t]\+;\)\)*)\%(V\|\[*\%([BCIJSZ]\|L[^; \t]\+;\)\)\S\@!/",
        *region("Flagged", flagged, ("Flag", "LeftOutFlag", "Type")), *region("Line", others, ("Word",)),
        r"syn match jasminArray /^\s*newarray\s\+\S\+/ contains=jasminInstruction,jasminElement,jasminLeftOutElement,jasminNumber",
        r'syn region jasminString start=/\S\@<!"/ skip=/\\./ end=/"/ oneline contains=jasminBadEscape,jasminEscape',
        r"syn match jasminBadEscape contained /\\./",
        r'syn match jasminEscape contained /\\[nt"\\]\|\\u\x\{4}/',
        r"syn match jasminComment /\S\@<!;.*/ contains=@Spell",
        *(f"hi def link {NAME}{group} {shown}" for group, _, shown in LOOKS),
        *(f"hi def link {NAME}{group} {NAME}{shown}" for group, shown in MORE.items()),
        f'let b:current_syntax = "{NAME}"',
    ]
    return "\n".join(lines) + "\n"


def filetype(_words):
    """Returns vim's words on which files are such texts."""
    return '" Which files are texts that `jm asm` reads, for ~/.vim/ftdetect. Made by bench/user-files.\nau BufRead,BufNewFile *.j setfiletype jasmin\n'
