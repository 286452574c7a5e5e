"""The words of the texts that `jm asm` reads, as the definitions of the assembler have them."""
import collections
import os
import re

TOP = os.path.dirname(os.path.dirname(os.path.dirname(os.path.abspath(__file__))))
# The opcode that an assembler writes where it is needed, and that no text names.
NEVER_READ = "Wide"
# Of mnemonics, directives, flags and element types those that are read, and those that are refused by name (46); and the words that
# stand behind a directive.
Words = collections.namedtuple("Words", "mnemonics no_mnemonics directives no_directives flags no_flags elements no_elements operands")


def text_of(path):
    """Returns what stands in a file below crates/."""
    with open(f"{TOP}/crates/{path}", encoding="utf-8") as file:
        return file.read()


def codes(path, before="", behind=""):
    """Returns the texts that a file of definitions writes as codes, between two others, each once."""
    return list(dict.fromkeys(re.findall(rf'{before}\(?codes "([^"]+)"\)?{behind}', text_of(path))))


def forms():
    """Returns the words of the forms of lines, but for those of instructions."""
    files = ("HeaderForms", "FieldForms", "MethodForms")
    return list(dict.fromkeys(it for name in files for it in codes(f"jm_jasmin/specs/{name}.antt")))


def words():
    """Returns the words of the definitions."""
    rows = re.findall(r'\(\s*"(\w+)",\s*Opcode::(\w+)', text_of("jm_class_format/src/opcode_table.rt"))
    fixed = forms()
    elements = "jm_jasmin_ops/specs/Operands.antt"
    return Words(
        mnemonics=[name for name, kind in rows if kind not in ("LeftOut", NEVER_READ)] + codes("jm_jasmin_ops/specs/Mnemonics.antt"),
        no_mnemonics=[name for name, kind in rows if kind == "LeftOut"],
        directives=[it for it in fixed if it.startswith(".")],
        no_directives=codes("jm_jasmin_ops/specs/FaultTexts.antt", r"directive\.\w+ = "),
        flags=codes("jm_jasmin/specs/Words.antt", behind=" then Some 0x"),
        no_flags=codes("jm_jasmin/specs/Words.antt", behind=" then fault.LeftOut"),
        elements=codes(elements, behind=r" then Ok primitive"),
        no_elements=codes(elements, behind=r" then Err \(fault.LeftOut"),
        operands=[it for it in fixed if it.isalpha()],
    )
