"""The page of the manual, in the macros of man(7)."""
import re


def plain(text):
    """Returns a text as roff shows it: signs that roff reads are written otherwise, and what stands between ` is bold."""
    text = text.replace("\\", "\\e").replace("-", "\\-").replace("'", "\\(aq")
    text = re.sub(r"`([^`]*)`", r"\\fB\1\\fR", text)
    return re.sub(r"(?m)^\.", r"\\&.", text)


def name_of(option):
    """Returns how an option or an argument is written."""
    value = f"\\fI{plain(option.value)}\\fR" if option.value else ""
    names = ", ".join(f"\\fB{plain(it)}\\fR" for it in option.names)
    return " ".join(it for it in (names, value + ("..." if option.is_list and not option.names else "")) if it)


def usage(text):
    """Returns how a command is called: names are bold, values italic."""
    words = [f"\\fB{plain(it)}\\fR" if re.fullmatch(r"[\w-]+", it) else re.sub(r"<?(\b[A-Z]+\b)>?", r"\\fI\1\\fR", plain(it)) for it in text.split()]
    return " ".join(words)


def listed(entries):
    """Yields the lines of a list: what is told of, and what is told."""
    for head, text in entries:
        yield from (".TP", head, plain(text) or "\\&")


def paragraphs(text):
    """Yields the lines of paragraphs."""
    for part in text.split("\n\n"):
        yield from (".PP", plain(" ".join(part.split())))


def command(it):
    """Yields the lines of a command."""
    yield from (f".SS {usage(it.usage)}", f"{plain(it.about)}.")
    yield from listed([(name_of(option), f"{option.help}.") for option in it.arguments + it.options if "--help" not in option.names])
    yield from paragraphs(it.more)


def page(jm):
    """Returns the page."""
    lines = [
        ".\\\" Made by bench/user-files of what jm says of itself.", f'.TH JM 1 "" "{jm.version.split(",")[0]}" "User Commands"',
        ".SH NAME", f"jm \\- {plain(jm.about[0].lower() + jm.about[1:])}",
        ".SH SYNOPSIS", *(part for it in jm.commands for part in (usage(it.usage), ".br")),
        ".SH DESCRIPTION", f"{plain(jm.about)}.", *paragraphs(jm.more),
        ".SH OPTIONS", *listed([(name_of(it), f"{it.help}.") for it in jm.options]),
        ".SH COMMANDS", *(line for it in jm.commands for line in command(it)),
        ".SH NUMBERS", "What the numbers of refusals, of stops and of exit statuses mean:",
        *listed([(f"\\fB{number}\\fR {plain(text.partition(': ')[0])}", f"{text.partition(': ')[2]}.") for number, text in jm.numbers]),
        ".SH SEE ALSO", "\\fBjava\\fR(1), \\fBjavac\\fR(1), \\fBjavap\\fR(1)",
    ]
    return "\n".join(lines) + "\n"
