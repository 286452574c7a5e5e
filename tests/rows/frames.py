"""answers/plain.txt: what a plain instruction does to a frame, as a session of the debugger shows it. Local variables are arguments."""
import re

from rows.calls import Missed, NotAsked
from rows.columns import data, rows


def pushed(word):
    """Returns the instruction that puts the value of a word on the stack, and its type."""
    if word == "null":
        return "aconst_null", "Ljava/lang/Object;"
    if word.startswith("#"):
        return f"getstatic Main/r{word[1:]} Ljava/lang/Object;", "Ljava/lang/Object;"
    return (f"ldc2_w {word[:-1]}", "J") if word.endswith("L") else (f"ldc {word}", "I")


def arguments_of(words):
    """Returns the words of local variables that are a call's arguments: the others are not set."""
    given, at = [], 0
    while at < len(words) and words[at] != "-":
        given.append(words[at])
        wide = words[at].endswith("L")
        if wide and words[at + 1:at + 2] != ["-"]:
            raise NotAsked("half a long among the local variables")
        at += 2 if wide else 1
    if any(it != "-" for it in words[at:]):
        raise NotAsked("a local variable that is not set before one that is")
    return given


def main_lines(given, references, descriptor):
    """Returns the lines of a main that makes objects, keeps those that are named, and calls f."""
    lines = [".class public Main", ".super java/lang/Object"]
    lines += [f".field static r{it} Ljava/lang/Object;" for it in references]
    lines += [".method public static main([Ljava/lang/String;)V", f".limit stack {2 * len(given) + 2}", ".limit locals 1"]
    for number in range(1, max(references, default=0) + 1):
        lines += ["new java/lang/Object", f"putstatic Main/r{number} Ljava/lang/Object;" if number in references else "pop"]
    return lines + [pushed(it)[0] for it in given] + [f"invokestatic Main/f{descriptor}", "return", ".end method"]


def frame_program(instruction, max_stack, operands, local_words):
    """Returns the text of a program whose method f makes an instruction on a frame, f's place, and the number of the instruction."""
    given = arguments_of(local_words)
    references = sorted({int(it[1:]) for it in operands + given if it.startswith("#")})
    descriptor = f"({''.join(pushed(it)[1] for it in given)})V"
    lines = main_lines(given, references, descriptor)
    lines += [f".method static f{descriptor}", f".limit stack {max_stack}", f".limit locals {len(local_words)}"]
    lines += [pushed(it)[0] for it in operands]
    behind = data("answers/plain.j").decode().split("; here\n")[1]
    return "\n".join([*lines, *instruction.split(" / "), behind]).encode(), f"Main.f{descriptor}", len(operands)


def value_word(shown_value):
    """Returns how a row writes a value that the debugger shows. (The first object that a program makes is #2.)"""
    kind, _, number = shown_value.partition(" ")
    if kind.startswith("#"):
        return f"#{int(kind[1:]) - 1}"
    return f"{number}L" if kind == "long" else number if kind == "int" else kind


def values_of(lines):
    """Returns the values of the lines `N = VALUE`, by number, as a row writes them."""
    return {int(it.split(" = ")[0]): value_word(it.split(" = ")[1]) for it in lines if it != "none"}


def debugged(jm, text, commands):
    """Returns the answers to commands of the debugger, each a list of lines. (`-` is no command: its refusal parts the answers.)"""
    said = "".join(f"{it}\n-\n" for it in commands).encode()
    told = jm.made(["debug", "Main.j"], {"Main.j": text}, input=said, output=None).output.decode()
    return [it.split("\n")[:-1] for it in told.split("? 80 BadCommand\n")][:-1]


def outcome_of(jm, text, to_event, reply, pending, moved):
    """Returns what came of an instruction: a stop's kind, the class that it threw, or how far it went."""
    if reply == ["stopped"]:
        lines = jm.made(["run", "Main.j"], {"Main.j": text}, output=b"", lines=None, status=5).lines.decode()
        return re.fullmatch(r"jm: 60 TagFault\((\w+)\)\n", lines)[1]
    if pending:
        return debugged(jm, text, [*to_event, f"object {pending}"])[3][0].split()[1]
    return "on" if moved == 1 else f"to {moved}"


def ask_plain(jm, asked, _wanted):
    """Tells what an instruction does to a frame."""
    instruction, max_stack, values = re.fullmatch(r"(.*?) \| (\d+) \|(.*)", asked).groups()
    operands, _, local_words = values.partition(";")
    operands, local_words = operands.split(), local_words.split()
    text, method, number = frame_program(instruction, int(max_stack), operands, local_words)
    to_event = [f"break {method}:{number}", "continue", "step 1"]
    answers = debugged(jm, text, [*to_event, "where 1", "locals 1 0", "stack 1 0"])
    _, reached, reply, where, variables, stack = answers
    if reached != [f"break t1 {method}:{number}"]:
        raise Missed(f"came {answers}")
    pending = where.pop(0).split()[1] if where[0].startswith("pending ") else None
    moved = int(re.fullmatch(rf"0 {re.escape(method)}:(\d+)", where[0])[1]) - number
    outcome = outcome_of(jm, text, to_event, reply, pending, moved)
    variables, stack = values_of(variables), values_of(stack)
    shown_locals = [";", *(variables.get(it, "-") for it in range(len(local_words)))] if local_words else []
    return " ".join([outcome, "|", *(stack[it] for it in sorted(stack)), *shown_locals])


def ask_plain_count(_jm, asked, _wanted):
    """Tells how many rows of plain.txt are of an instruction."""
    return str(sum(1 for _, line in rows("answers/plain.txt") if line.split(" | ")[0] == asked))
