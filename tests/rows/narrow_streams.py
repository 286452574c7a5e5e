"""Streams of which each call to write takes one byte, so many in all, and then none, or fails: the outputs and the lines of the jobs of
streams.py, for each number of bytes (narrow_writes.c)."""
import os
import subprocess
import tempfile

from rows.calls import SECONDS, Missed, found, laid
from rows.streams import FIVE, WHOLES

OUTPUT, LINES, FILE = 1, 2, 3


def came_over(jm, words, files, stream, room, broken):
    """Returns what comes of a job over a narrow stream: the output, which of `asm` is its file, the lines, the status and the record."""
    with tempfile.TemporaryDirectory(dir=jm.room) as folder:
        laid(folder, files)
        narrow = {"LD_PRELOAD": jm.preloaded("narrow_writes"), "NARROW": str(stream), "ROOM": str(room), **({"BROKEN": "1"} if broken else {})}
        ran = subprocess.run([jm.path, *words], cwd=folder, input=b"unread", capture_output=True, timeout=SECONDS, env={**os.environ, **narrow})
        files = found(folder)
        return files["A.class"] if words[0] == "asm" else ran.stdout, ran.stderr, ran.returncode, files.get("record", b"")


def ask_output(jm, whole, room, broken):
    """Asks a job whose output takes so many bytes, each by itself."""
    words, files, output, lines, status, failed = whole
    wanted = (output[:room], failed, 2, b"") if room < len(output) else (output, lines, status, b"")
    came = came_over(jm, words, files, FILE if words[0] == "asm" else OUTPUT, room, broken)
    if came != wanted:
        raise Missed(f"wanted {wanted}, came {came}")


def ask_lines(jm, whole, room, broken):
    """Asks a job whose standard error takes so many bytes, each by itself: nothing else is another."""
    words, files, output, lines, status, _ = whole
    came, wanted = came_over(jm, words, files, LINES, room, broken), (output, lines[:room], status, b"")
    if came != wanted:
        raise Missed(f"wanted {wanted}, came {came}")


def ask_record(jm, room, broken):
    """Asks for the record of a run whose output takes so many bytes: it is made before anything is written."""
    words = ["run", "--schedule", "e", "--record", "record", "A.j"]
    came = came_over(jm, words, {"e": b"t 1 x 7", "A.j": FIVE}, OUTPUT, room, broken)
    wanted = (b"5\n"[:room], b"jm: write failed\n" if room < 2 else b"", 2 if room < 2 else 0, b"t 1 @0 done\n" * 7)
    if came != wanted:
        raise Missed(f"wanted {wanted}, came {came}")


def rooms(ask, part):
    """Returns the rows that ask each job at each number of bytes, in both ways to take no more."""
    return [(f"{' '.join(whole[0])} with room for {room}, then {'an error' if broken else 'none'}",
             lambda jm, it=(whole, room, broken): ask(jm, *it))
            for whole in WHOLES for room in range(len(whole[part]) + 1) for broken in (False, True)]


def tables(_long):
    """Yields the jobs over narrow streams."""
    yield "outputs of one byte a call", rooms(ask_output, 2)
    yield "standard errors of one byte a call", rooms(ask_lines, 3)
    yield "a record beside an output of one byte a call", [(f"room for {room}", lambda jm, it=(room, broken): ask_record(jm, *it))
                                                          for room in (0, 1, 2) for broken in (False, True)]
