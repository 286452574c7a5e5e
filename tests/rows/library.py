"""What only a call of a library shows: tests/library, a program that is built without a proof. A row is a line of what it prints."""
import functools
import subprocess
import threading

from rows.calls import DATA, TESTS, Missed
from rows.columns import rows

# The tests of gates wait for one another.
SECONDS = 600


def names():
    """Returns the names of the library's tests, in their order."""
    with open(f"{TESTS}/library/tests.txt", encoding="utf-8") as file:
        return [line.rstrip("\n") for line in file if line.strip() and not line.startswith("#")]


@functools.lru_cache(None)
def told_by(program):
    """Returns what the library's program tells: a line a test, by its name, and how it ended. It is called once."""
    ran = subprocess.run([program, "all", DATA], capture_output=True, text=True, timeout=SECONDS)
    lines = [line.partition(": ") for line in ran.stdout.splitlines()]
    return {name: told for name, _, told in lines}, f"status {ran.returncode}, {ran.stderr.strip()}"


CALLED = threading.Lock()


def told_of(jm):
    """Returns what the library's program tells."""
    with CALLED:
        return told_by(jm.library)


def wanted_of(name):
    """Returns what a test is to tell: of a table that all its rows are as wanted."""
    count = len(rows(name)) if name.endswith(".txt") else None
    return f"{count} of {count} rows are as wanted" if count else "as wanted"


def ask_test(jm, name):
    """Asks for the line of a test."""
    told, end = told_of(jm)
    if told.get(name) != wanted_of(name):
        raise Missed(f"{told.get(name, 'no line, ' + end)}\n    again: {jm.library} {name} {DATA}")


def tables(_long):
    """Yields the tests of the library."""
    yield "library", [(name, lambda jm, name=name: ask_test(jm, name)) for name in names()]
