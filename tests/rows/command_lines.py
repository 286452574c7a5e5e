"""Command lines that are refused, and those at the least and the greatest value of each option and one past each."""
import re

from rows.calls import Missed, shown
from rows.columns import bytes_of, data, rows


def ask_refused(jm, line):
    """Asks a command line that is refused for its status and the first line of what is said."""
    words, wanted = line.split(" => ", 1)
    came = jm.made(words.split(" ")[1:], {}, output=b"", lines=None, status=None)
    told = f"{came.status} {came.lines.decode().splitlines()[0]}"
    if told != wanted:
        raise Missed(f"{words}: wanted {wanted}, came {told}")


def ask_part(jm, line):
    """Asks a command line that is refused for a part of what is said."""
    words, part = line.split(" => ", 1)
    came = jm.made(words.split(" ")[1:], {}, output=b"", lines=None, status=1)
    if part.replace("/", "\n") not in came.lines.decode():
        raise Missed(f"{words}: wanted {part}, came {shown(came.lines)}")


def ask_value(jm, command, option, value, status, output):
    """Asks a command with an option at a value that it takes: for the status, and the output where one is wanted."""
    words = [command, f"{option}={value}", *(["record"] if command == "replay" else []), "Main.class"]
    files = {"Main.class": data("sum.class"), "record": b"t 1 @0 done\n" * 9}
    jm.made(words, files, input=b"", output=bytes_of(output) if output else None, lines=None, status=int(status))


def ask_past(jm, command, option, value, least, greatest):
    """Asks a command with an option at a value past those that it takes: it is named."""
    came = jm.made([command, f"{option}={value}", "Main.class"], {"Main.class": data("sum.class")}, output=b"", lines=None, status=1)
    first = came.lines.decode().splitlines()[0]
    if not re.fullmatch(rf"error: invalid value '{value}' for '{option} <\w+>': {value} is not in {least}\.\.={greatest}", first):
        raise Missed(f"{command} {option}={value}: came {first}")


def ask_limits(jm, line):
    """Asks a command with an option at its two limits and one past each."""
    asked, wanted = line.split(" => ")
    command, option, least, greatest = asked.split()
    at_least, at_greatest, *output = wanted.split(" ", 2)
    ask_value(jm, command, option, least, at_least, None)
    ask_value(jm, command, option, greatest, at_greatest, output and output[0])
    ask_past(jm, command, option, int(least) - 1, least, greatest)
    ask_past(jm, command, option, int(greatest) + 1, least, greatest)


TABLES = {"command_lines/refused.txt": ask_refused, "command_lines/parts.txt": ask_part, "command_lines/limits.txt": ask_limits}


def tables(_long):
    """Yields the command lines."""
    for table, ask in TABLES.items():
        yield table, [(f"{table}:{at}", lambda jm, line=line, ask=ask: ask(jm, line)) for at, line in rows(table)]
