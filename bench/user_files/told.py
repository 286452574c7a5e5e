"""What the program says of itself: its commands with their arguments and options, as its help has them, and its numbers."""
import collections
import os
import re
import subprocess
import tempfile

Jm = collections.namedtuple("Jm", "version about more options commands numbers")
Command = collections.namedtuple("Command", "name about usage arguments options more")
# An argument has no names. `values` are the words that stand for the value, and `is_list` says that it may stand several times.
Option = collections.namedtuple("Option", "names value help values is_list")
HEADS = ("Commands:", "Arguments:", "Options:")


def said(jm, *words):
    """Returns what jm says to words, on either stream."""
    with tempfile.TemporaryDirectory() as room:
        os.symlink(os.path.realpath(jm), f"{room}/jm")
        return subprocess.run([f"{room}/jm", *words], cwd=room, stdout=subprocess.PIPE, stderr=subprocess.STDOUT, text=True).stdout


def entries(lines):
    """Returns the entries of a section of the help: what is told of, and what is told."""
    found = []
    for line in lines:
        head = re.fullmatch(r" {2,6}((?:[-<[]|\w).*?)(?:  +(.*))?", line)
        if head:
            found.append([head[1], (head[2] or "").strip()])
        elif line.strip():
            found[-1][1] = f"{found[-1][1]} {line.strip()}".strip()
    return found


def sections(text):
    """Returns the entries of the sections of a help by their heads, the first paragraph, the usage, and the last paragraphs."""
    parts = {head: [] for head in HEADS}
    about, usage, more, at = [], "", [], None
    for line in text.splitlines():
        if line in HEADS:
            at = line
        elif line.startswith("Usage: "):
            usage = line.removeprefix("Usage: ")
        elif at and (not line or line.startswith(" ")) and not more:
            parts[at].append(line)
        else:
            (more if at else about).append(line)
    return {head: entries(lines) for head, lines in parts.items()}, " ".join(about).strip(), usage, "\n".join(more).strip()


def is_list(jm, command, name, value):
    """Says whether an option may stand several times: whether jm says that it cannot."""
    words = [command] if command else []
    return bool(value) and "multiple times" not in said(jm, *words, f"{name}={value}", f"{name}={value}")


def option_of(jm, command, names, text):
    """Returns the option or the argument of an entry of the help."""
    spelled = re.fullmatch(r"((?:-\w, )?--[\w-]+|-\w|)(?: ?[<[]([\w|]+)[>\]](\.\.\.)?)?", names)
    values = re.search(r"\[possible values: (.*?)\]", text) or re.search(r"being (`\w+`(?:, `\w+`)*(?: or `\w+`))", text)
    words = re.findall(r"\w+", values[1].replace(" or ", " ")) if values else []
    given = re.search(r"\[default: (\w+)\]", text)
    spellings = spelled[1].split(", ") if spelled[1] else []
    value = spelled[2] or ""
    several = bool(spelled[3]) or bool(spellings) and is_list(jm, command, spellings[-1], value and (given[1] if given else [*words, "1"][0]))
    return Option(spellings, value, text, words, several)


def command_of(jm, name):
    """Returns a command, as its help tells of it."""
    parts, about, usage, more = sections(said(jm, name, "--help"))
    arguments, options = ([option_of(jm, name, *it) for it in parts[head]] for head in HEADS[1:])
    return Command(name, about, usage, arguments, options, more)


def numbers_of(jm):
    """Returns the numbers that `jm explain` lists, each with what is said of it."""
    return [line.split(" ", 1) for line in said(jm, "explain").splitlines() if re.match(r"\d+ ", line)]


def told(jm):
    """Returns what a program says of itself."""
    parts, about, _, more = sections(said(jm, "--help"))
    options = [option_of(jm, "", *it) for it in parts["Options:"]]
    commands = [command_of(jm, name) for name, _ in parts["Commands:"] if name != "help"]
    return Jm(said(jm, "version").strip(), about, more, options, commands, numbers_of(jm))
