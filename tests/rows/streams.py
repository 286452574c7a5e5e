"""Streams that fail: an output, a standard error, an input that fail at each byte in turn, a full device, a stream that is closed. A file
that may grow to so many bytes takes these and no more; a socket whose other end is closed over unread data gives so many and then fails."""
import os
import resource
import socket
import subprocess
import tempfile

from rows.calls import SECONDS, Missed, laid
from rows.columns import data

FIVE = b""".class A
.super java/lang/Object
.method static main([Ljava/lang/String;)V
.limit stack 2
getstatic java/lang/System/out Ljava/io/PrintStream;
iconst_5
invokevirtual java/io/PrintStream/println(I)V
return
.end method
"""
EMPTY_CLASS = b".class A\n.super java/lang/Object\n"
SEVEN = b"t 1 @0 done\nt 1 @0 done\nt 1 @1 done\nt 1 @0 done\nt 1 @2 done\nt 1 @0 done\nt 1 @0 done\n"
OTHER_SIXTH = b"t 1 @0 done\n" * 5 + b"t 1 @0 none\nt 1 @0 done\n"
CLASS_FILE = b"\xCA\xFE\xBA\xBE\0\0\0\x31\0\x05\x01\0\x01A\x07\0\x01\x01\0\x10java/lang/Object\x07\0\x03\0\x20\0\x02\0\x04" + b"\0" * 8

# A job, its files, what it writes where no write fails, the lines, the status, and the line where a write to the output fails. By hand,
# from docs/LIMITS.md.
FAILED = b"jm: write failed\n"
TEXT = b".bytecode 49.0\n.class A\n.super java/lang/Object\n"
TWO_EVENTS = b"1 t1 init A begin -> done\n2 t1 init A super -> done\n"
WHOLES = [
    (["run", "--schedule", "e", "A.j"], {"e": b"t 1 x 7", "A.j": FIVE}, b"5\n", b"", 0, FAILED),
    (["run", "--schedule", "e", "A.j"], {"e": b"t 1 x 6", "A.j": FIVE}, b"5\n", b"jm: 1 threads not ended\n", 8, FAILED),
    (["run", "--workers", "3", "--steps", "7", "A.j"], {"A.j": FIVE}, b"5\n", b"", 0, FAILED),
    (["replay", "r", "A.j"], {"r": SEVEN, "A.j": FIVE}, b"5\n", b"", 0, FAILED),
    (["replay", "r", "A.j"], {"r": OTHER_SIXTH, "A.j": FIVE}, b"5\n", b"jm: 71 ReplayDiffers(6)\n", 9, FAILED),
    (["asm", "A.j", "A.class"], {"A.j": EMPTY_CLASS}, CLASS_FILE, b"", 0, b"jm: A.class: not written\n"),
    (["dis", "A.j"], {"A.j": EMPTY_CLASS}, TEXT, b"", 0, FAILED),
    (["debug", "A.j"], {"A.j": FIVE}, b"? 80 BadCommand\n", b"", 0, FAILED),
    (["trace", "--most", "2", "A.j"], {"A.j": FIVE}, TWO_EVENTS, b"", 0, FAILED),
    (["check", "--list", "A.j"], {"A.j": EMPTY_CLASS}, b"A.j\n", b"", 0, FAILED),
]


def written_with_room(jm, whole, room, failing):
    """Returns what comes of a job of which one stream is a file that takes so many bytes, and then no more."""
    words, files, *_ = whole
    with tempfile.TemporaryDirectory(dir=jm.room) as folder:
        laid(folder, files)
        place = f"{folder}/A.class" if words[0] == "asm" and failing == "output" else f"{folder}/taken"
        limit = lambda: resource.setrlimit(resource.RLIMIT_FSIZE, (room, room))
        with open(place, "wb") as taken:
            streams = {"stdout": subprocess.PIPE, "stderr": subprocess.PIPE}
            if failing == "lines":
                streams["stderr"] = taken
            elif words[0] != "asm":
                streams["stdout"] = taken
            # (the child ignores the signal of a file that is too long, as this interpreter does)
            ran = subprocess.run([jm.path, *words], cwd=folder, input=b"unread", preexec_fn=limit, restore_signals=False, timeout=SECONDS, **streams)
        with open(place, "rb") as taken:
            return taken.read(), ran.stdout, ran.stderr, ran.returncode


def ask_output(jm, whole, room):
    """Asks a job whose output takes so many bytes."""
    _, _, output, lines, status, failed = whole
    wanted = (output[:room], failed, 2) if room < len(output) else (output, lines, status)
    taken, _, told, code = written_with_room(jm, whole, room, "output")
    if (taken, told, code) != wanted:
        raise Missed(f"wanted {wanted}, came {(taken, told, code)}")


def ask_lines(jm, whole, room):
    """Asks a job whose standard error takes so many bytes: nothing else is another."""
    _, _, output, lines, status, _ = whole
    taken, out, _, code = written_with_room(jm, whole, room, "lines")
    if (taken, out, code) != (lines[:room], output, status):
        raise Missed(f"wanted {(lines[:room], output, status)}, came {(taken, out, code)}")


SESSION = [(b"break Main.main([Ljava/lang/String;)V:3", b"ok"), (b"continue", b"break t1 Main.main([Ljava/lang/String;)V:3"),
           (b"stack 1 0", b"0 = #0\n1 = int 2\n2 = int 3"), (b"clear Main.main([Ljava/lang/String;)V:3", b"ok"), (b"continue", b"ended"),
           (b"object #99", b"? 81 NoSuch"), (b"foo", b"? 80 BadCommand")]
LENGTH = sum(len(line) + 1 for line, _ in SESSION)


def ask_reader(jm, length, fails):
    """Asks a session whose input gives so many bytes, and then an error or its end: no more than the whole lines is answered."""
    given = b"".join(line + b"\n" for line, _ in SESSION)[:length]
    answers = b"".join(answer + b"\n" for _, answer in SESSION[:given.count(b"\n")])
    near, far = socket.socketpair()
    with tempfile.TemporaryDirectory(dir=jm.room) as folder, near, far:
        laid(folder, {"Main.j": data("sum.j")})
        near.sendall(given)
        if fails:
            far.sendall(b"x")  # which nobody reads, so that the end below is an error to whoever reads at the other side
            near.close()
        else:
            near.shutdown(socket.SHUT_WR)
        ran = subprocess.run([jm.path, "debug", "Main.j"], cwd=folder, stdin=far, capture_output=True, timeout=SECONDS)
    wanted = (answers, b"", 2 if fails else 0)
    if (ran.stdout, ran.stderr, ran.returncode) != wanted:
        raise Missed(f"wanted {wanted}, came {(ran.stdout, ran.stderr, ran.returncode)}")


def streams_of(jm, words, files, **streams):
    """Returns the output, the lines and the status of a job over streams of its own."""
    with tempfile.TemporaryDirectory(dir=jm.room) as folder:
        laid(folder, files)
        given = {"stdin": subprocess.DEVNULL, "stdout": subprocess.PIPE, "stderr": subprocess.PIPE} | streams
        ran = subprocess.run([jm.path, *words], cwd=folder, timeout=SECONDS, **given)
        return ran.stdout, ran.stderr, ran.returncode


def ask_full(jm, whole):
    """Asks a job whose output is a full device."""
    words, files, _, _, _, failed = whole
    with open("/dev/full", "wb") as full:
        came = streams_of(jm, words, files, stdout=full)
    if came != (None, failed, 2):
        raise Missed(f"wanted {failed} and status 2, came {came}")


def ask_full_lines(jm, whole):
    """Asks a job whose standard error is a full device: nothing else is another."""
    words, files, output, _, status, _ = whole
    with open("/dev/full", "wb") as full:
        came = streams_of(jm, words, files, stderr=full)
    wanted = (output if words[0] not in ("asm", "debug") else b"", None, status)
    if came != wanted:
        raise Missed(f"wanted {wanted}, came {came}")


def ask_closed(jm, whole, stream):
    """Asks a job that begins with a standard stream closed (0 input, 1 output, 2 standard error)."""
    words, files, output, lines, status, failed = whole
    came = streams_of(jm, words, files, preexec_fn=lambda: os.close(stream))
    writes_out = words[0] not in ("asm", "debug")
    wanted = {0: (output if writes_out else b"", lines, status if words[0] != "debug" else 2),
              1: (b"", failed, 2) if writes_out else (b"", lines, status),
              2: (output if writes_out else b"", b"", status)}[stream]
    if came != wanted:
        raise Missed(f"wanted {wanted}, came {came}")


def ask_broken(jm, whole):
    """Asks a job whose output is a pipe that nobody reads."""
    words, files, _, _, _, failed = whole
    read, write = os.pipe()
    os.close(read)
    with os.fdopen(write, "wb") as pipe:
        came = streams_of(jm, words, files, stdout=pipe)
    if came != (None, failed, 2):
        raise Missed(f"wanted {failed} and status 2, came {came}")


def of_wholes(ask, wholes, *more):
    """Returns the rows that ask something of jobs."""
    return [(" ".join(whole[0]), lambda jm, whole=whole: ask(jm, whole, *more)) for whole in wholes]


def tables(_long):
    """Yields jobs whose streams fail at each byte in turn, or from the start."""
    for name, ask, part in (("outputs that fail", ask_output, 2), ("standard errors that fail", ask_lines, 3)):
        yield name, [(f"{' '.join(whole[0])} with room for {room}", lambda jm, whole=whole, room=room, ask=ask: ask(jm, whole, room))
                     for whole in WHOLES if whole[0][0] != "asm" or part == 2 for room in range(len(whole[part]) + 1)]
    yield "inputs that fail", [(f"an input that fails at {at}", lambda jm, at=at: ask_reader(jm, at, True)) for at in range(LENGTH + 1)]
    yield "inputs that end", [(f"an input that ends at {at}", lambda jm, at=at: ask_reader(jm, at, False)) for at in (0, LENGTH)]
    writing = [it for it in WHOLES if it[0][0] not in ("asm", "debug")]
    yield "a full device", of_wholes(ask_full, writing) + of_wholes(ask_full_lines, WHOLES)
    yield "a broken pipe", of_wholes(ask_broken, writing)
    for stream, name in enumerate(("standard input closed", "standard output closed", "standard error closed")):
        yield name, of_wholes(ask_closed, WHOLES, stream)
