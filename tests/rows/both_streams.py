"""Streams that fail both at once, that fail where nothing is written to them, and an input that comes byte by byte. The outputs, lines and
statuses are by hand, from docs/LIMITS.md."""
import fcntl
import socket
import struct
import subprocess
import tempfile
import termios
import time

from rows.calls import SECONDS, Missed, laid
from rows.columns import data
from rows.streams import EMPTY_CLASS, FIVE, LENGTH, SESSION, WHOLES, streams_of

# Jobs that write nothing to their output: a record that is none, and a text that is refused.
REFUSED = b"jm: A.j: 41 Syntax(1)\n"
QUIET = [
    (["replay", "r", "A.j"], {"r": b"t 1\n", "A.j": FIVE}, b"jm: 70 BadSchedule(1)\n", 9),
    *((words, {"A.j": b""}, REFUSED, 4) for words in (["run", "A.j"], ["trace", "A.j"], ["film", "A.j"], ["why", "A.j"], ["debug", "A.j"],
                                                     ["dis", "A.j"], ["asm", "A.j", "A.class"])),
]


def ask_both_full(jm, whole):
    """Asks a job whose output and standard error are full devices: the output's failure is its status."""
    words, files, _, _, status, _ = whole
    with open("/dev/full", "wb") as full:
        came = streams_of(jm, words, files, stdout=full, stderr=full)
    wanted = (None, None, 2 if words[0] not in ("asm", "debug") else status)
    if came != wanted:
        raise Missed(f"wanted {wanted}, came {came}")


def ask_no_place(jm):
    """Asks for a class file whose place is a folder, without a standard error that takes the line."""
    files = {"A.j": EMPTY_CLASS, "A.class/x": b""}
    with open("/dev/full", "wb") as full:
        came = streams_of(jm, ["asm", "A.j", "A.class"], files, stderr=full)
    told = streams_of(jm, ["asm", "A.j", "A.class"], files)
    if came != (b"", None, 2) or told != (b"", b"jm: A.class: not written\n", 2):
        raise Missed(f"came {came}, {told}")


def ask_quiet(jm, quiet):
    """Asks a job that writes nothing to an output that fails: it is not noticed, and neither is a standard error that fails too."""
    words, files, lines, status = quiet
    with open("/dev/full", "wb") as full:
        came = streams_of(jm, words, files, stdout=full)
        came_of_both = streams_of(jm, words, files, stdout=full, stderr=full)
    if came != (None, lines, status) or came_of_both != (None, None, status):
        raise Missed(f"wanted {lines}, {status}, came {came}, {came_of_both}")


def ask_record(jm, streams, status):
    """Asks for the record of a run of which streams fail: it is made before anything is written."""
    with tempfile.TemporaryDirectory(dir=jm.room) as folder, open("/dev/full", "wb") as full:
        laid(folder, {"e": b"t 1 x 7", "A.j": FIVE})
        given = {"stdout": subprocess.PIPE, "stderr": subprocess.PIPE} | {it: full for it in streams}
        words = [jm.path, "run", "--schedule", "e", "--record", "r", "A.j"]
        code = subprocess.run(words, cwd=folder, stdin=subprocess.DEVNULL, timeout=SECONDS, **given).returncode
        with open(f"{folder}/r", "rb") as file:
            record = file.read()
    if (record, code) != (b"t 1 @0 done\n" * 7, status):
        raise Missed(f"wanted the record and {status}, came {record}, {code}")


def is_read(stream):
    """Says whether all that was written to a socket was read at its other end."""
    return struct.unpack("i", fcntl.ioctl(stream, termios.TIOCOUTQ, b"\0" * 4))[0] == 0


def ask_dripping(jm, length, fails):
    """Asks a session whose input comes byte by byte, each given when the one before was read, and after so many bytes ends or fails."""
    given = b"".join(line + b"\n" for line, _ in SESSION)[:length]
    near, far = socket.socketpair()
    with tempfile.TemporaryDirectory(dir=jm.room) as folder, near, far:
        laid(folder, {"Main.j": data("sum.j")})
        talk = subprocess.Popen([jm.path, "debug", "Main.j"], cwd=folder, stdin=far, stdout=subprocess.PIPE, stderr=subprocess.PIPE)
        last = time.monotonic() + SECONDS
        for at in range(length):
            near.sendall(given[at:at + 1])
            while not is_read(near) and talk.poll() is None and time.monotonic() < last:
                time.sleep(0)
        if fails:
            far.sendall(b"x")  # which nobody reads, so that the end below is an error to whoever reads at the other side
            near.close()
        else:
            near.shutdown(socket.SHUT_WR)
        came = *talk.communicate(timeout=SECONDS), talk.returncode
    wanted = (b"".join(answer + b"\n" for _, answer in SESSION[:given.count(b"\n")]), b"", 2 if fails else 0)
    if came != wanted:
        raise Missed(f"wanted {wanted}, came {came}")


def ends_of_lines():
    """Returns how many bytes of the session stand before each of its lines, before its last byte, and in all."""
    before = 0
    for line, _ in SESSION:
        yield from (before, before + len(line))
        before += len(line) + 1
    yield before


def tables(_long):
    """Yields the jobs over such streams."""
    yield "both streams full", [(" ".join(it[0]), lambda jm, it=it: ask_both_full(jm, it)) for it in WHOLES] + [("no place", ask_no_place)]
    yield "an output that is not used", [(" ".join(it[0]), lambda jm, it=it: ask_quiet(jm, it)) for it in QUIET]
    failing = ((), 0), (("stdout",), 2), (("stderr",), 0), (("stdout", "stderr"), 2)
    yield "a record beside streams that fail", [(" and ".join(it) or "none", lambda jm, it=it, code=code: ask_record(jm, it, code))
                                                for it, code in failing]
    dripping = [(LENGTH, False), *((length, True) for length in ends_of_lines())]
    yield "an input byte by byte", [(f"{length} bytes and {'an error' if fails else 'the end'}", lambda jm, it=(length, fails): ask_dripping(jm, *it))
                                    for length, fails in dripping]
