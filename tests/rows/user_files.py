"""The page of the manual, the completions and the syntax of texts: whether they are what bench/user-files makes, whether bash completes
words by them, and as what each word of a text is shown in TextMate's form."""
import functools
import sys

from rows.calls import TESTS, Missed

sys.path.insert(0, f"{TESTS}/../bench")

from user_files import definitions, files, looks, tries


@functools.lru_cache(None)
def made(path):
    """Returns what is to stand in each file, by its name."""
    return files.made(path)


def ask_file(jm, name):
    """Asks whether a file is what is made for it."""
    if files.standing(name) != made(jm.path)[name]:
        raise Missed("the file is not what jm and the definitions say: bench/user-files --write makes it again")


@functools.lru_cache(None)
def offered():
    """Returns what bash offers behind each line."""
    return tries.offered("bash", tries.BASH)


def ask_line(at):
    """Asks what bash offers behind a line."""
    missed = tries.misfit("bash", tries.LINES[at], offered()[at])
    if missed:
        raise Missed(missed)


def ask_text(name, text):
    """Asks whether each first word of a text is shown as what it is, and no other word as such."""
    grammar = looks.grammar_of(files.standing("editors/textmate/jasmin.tmLanguage.json"))
    missed = looks.faults(definitions.words(), text, looks.by_textmate(grammar, text))
    if missed:
        raise Missed("; ".join(missed[:9]))


def tables(_long):
    """Yields the files, the lines that bash completes, and the texts."""
    yield "files of a user", [(name, lambda jm, name=name: ask_file(jm, name)) for name in files.NAMES]
    yield "completions by bash", [(line, lambda _, at=at: ask_line(at)) for at, (line, _, _) in enumerate(tries.LINES)]
    yield "words of texts", [(name, lambda _, it=(name, text): ask_text(*it)) for name, text in tries.texts().items()]
