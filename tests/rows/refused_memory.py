"""Refuses each request for memory of a program in turn, and asks what comes of it.

refuse.c is built by cc and preloaded. It refuses the request of one number, and counts all that are made. So a job is run once for
each number, until one is not reached any more: several in a row where threads make the requests, in another order each time.

- A command of jm that prints once all is known (`whole`) ends with status 7 and the line `jm: 61 OutOfMemory`, and has printed
  nothing, or does without and comes to the very answer.
- One that tells how a run ended (`told`) has printed nothing, or all that it prints otherwise, where the lines of the run's end were refused.
- One that prints as it goes (`beginning`) may have printed a beginning of what it prints otherwise, in whole lines. A session of the
  debugger (`session`) tells of it by the answer `? 61 OutOfMemory`, the last.
- With status 7 the file OUT is as it was before, and the record NEW is not there. Else the file is that of a run without refusals.
- The library program (`collection`) makes a minor collection and a full one. Where one is refused a growth, it compares the stores and
  the roots, place by place, with what was there before, makes the collection again, and compares what it leaves.
- It makes runs (`event`) in which a load that is refused is made again. Where an event is refused, it compares the journal and all views
  with those of a second machine that has made the events before, and makes the event again. It prints the same at the end.
- Of these two, what the program takes for itself ends it with an error, `beside` what is tried.

By hand: cc -O2 -shared -fPIC -o /tmp/refuse.so tests/rows/refuse.c -ldl; cd tests/data; REFUSED=17 LD_PRELOAD=/tmp/refuse.so jm .."""
import collections
import os
import re
import shlex
import struct
import subprocess
import tempfile

from rows.calls import Missed

SECONDS = 120
# No job asks for memory so often.
MOST = 100_000
REFUSAL = b"jm: 61 OutOfMemory\n"
ANSWER = b"? 61 OutOfMemory\n"
AS_IT_WAS = b"as it was\n"
BESIDE = re.compile(rb"^Error: (out of memory|memory allocation failed|the collection was refused a growth|61 OutOfMemory)$", re.MULTILINE)
# What a run says of what it made again, and the name of the outcome.
AGAIN = {b"refused: load\n": "load", b"refused: step\n": "step",
         b"refused: minor collection\n": "minor", b"refused: full collection\n": "full"}

# A job: its words; the rule of what may come of a refusal; how many refusals come to each outcome at least, in each of its rows (today a
# tenth more do, and a quarter more where threads ask for memory); into how many rows it is split (the second of three has the requests 2,
# 5, 8 and so on; a short run asks the first); its status without a refusal; how many numbers that are not reached end it.
Job = collections.namedtuple("Job", "words rule least parts status ends", defaults=(1, 0, 1))
Came = collections.namedtuple("Came", "output lines status file")
BY_THREADS = 20

COMMANDS = (
    Job("run --schedule memory/sum.schedule sum.class", "whole", {"early": 560}),
    Job("run --schedule memory/sum.schedule sum.j", "whole", {"early": 545}),
    Job("asm sum.j OUT", "whole", {"early": 190}),
    Job("asm memory/sum.schedule OUT", "whole", {"early": 112}, status=4),
    Job("dis sum.class", "whole", {"early": 165}),
    Job("dis sum.j", "whole", {"early": 150}),
    Job("dis --bare sum.class", "whole", {"early": 167}),
    Job("explain", "whole", {"early": 100}),
    Job("explain 51", "whole", {"early": 106}),
    Job("version", "whole", {"early": 92}),
    Job("check sum.class", "whole", {"early": 420}),
    Job("check jobs/Concat.class", "whole", {"early": 500}, status=4),
    Job("check --list --path jobs --main Outer jobs/Outer.class", "whole", {"early": 545}),
    Job("why --steps 8 sum.class", "told", {"early": 550, "late": 1}, status=8),
    Job("why jobs/ByZero.class", "told", {"early": 530, "late": 1}, status=3),
    Job("run --heap 111 memory/collects.j", "beginning", {"early": 185, "same": 150}, 3),
    Job("debug --heap 111 memory/collects.j", "session", {"early": 179, "late": 25, "same": 20}, 3),
    Job("trace --heap 111 memory/collects.j", "beginning", {"early": 110, "late": 365}, 5),
    Job("film --heap 111 memory/collects.j", "beginning", {"early": 13, "late": 400, "same": 1}, 41),
    Job("run --heap 95 memory/rows.j", "beginning", {"early": 186, "same": 220}, 3),
    Job("debug --heap 95 memory/rows.j", "session", {"early": 179, "late": 28, "same": 34}, 3),
    Job("run --heap 111 --record NEW memory/collects.j", "beginning", {"early": 188, "late": 1, "same": 150}, 3),
    Job("replay --heap 111 memory/collects.record memory/collects.j", "beginning", {"early": 185, "same": 150}, 3),
    Job("run --heap 111 --workers 3 memory/collects.j", "beginning", {"early": 187, "late": 120}, 3, ends=BY_THREADS),
    Job("run --heap 111 --copiers 2 memory/collects.j", "beginning", {"early": 112, "same": 90}, 5, ends=BY_THREADS),
    Job("run --heap 95 --copiers 2 memory/rows.j", "beginning", {"early": 112, "same": 135}, 5, ends=BY_THREADS),
    Job("debug --heap 111 --copiers 2 memory/collects.j", "session", {"early": 179, "late": 28, "same": 22}, 3, ends=BY_THREADS),
    Job("run --heap 262144 --copiers 2 --schedule memory/large.schedule memory/large.j", "whole", {"early": 225, "same": 65}, 3, ends=BY_THREADS),
)

COLLECTIONS = (
    Job("refused 40", "collection", {"minor": 16, "full": 23, "beside": 960}),
    Job("refused-2 40", "collection", {"minor": 28, "full": 30, "beside": 960}, ends=BY_THREADS),
)

# Two threads and a monitor, a list, a ring that is cut, two threads that print, rows made at once, arrays without end; most of them with
# a collection between every two events.
WAITING = "65536 memory/waiting.schedule 'sessions/TwoThreads.j sessions/W.j sessions/K.j'"
LIST = "65536 memory/cut.schedule 'sessions/List.j sessions/N.j'"
RING = "18 memory/alone.schedule 'worked/RingThatIsCut.j worked/N.j'"
PRINTING = "65536 memory/printing.schedule 'workers/Main.j workers/W.j'"
ROWS = "20 memory/alone.schedule worked/RowsMadeAtOnce.j"
ENDLESS = "111 memory/endless.schedule memory/endless.j"
EVENTS = (
    Job(f"retried 0 {WAITING}", "event", {"load": 165, "step": 8, "minor": 41, "full": 70}, 3),
    Job(f"retried 0 {LIST}", "event", {"load": 150, "step": 2, "minor": 18, "full": 3}, 3),
    Job(f"retried 0 {RING}", "event", {"load": 150, "step": 5, "minor": 27, "full": 48}, 3),
    Job(f"retried 0 {PRINTING}", "event", {"load": 160, "step": 3, "minor": 34, "full": 64}, 3),
    Job(f"retried 0 {ROWS}", "event", {"load": 135, "step": 5, "minor": 25, "full": 47}, 3),
    Job(f"retried 0 {ENDLESS}", "event", {"load": 15, "step": 330}, 23),
    Job(f"retried 2 {WAITING}", "event", {"load": 99, "step": 1, "minor": 64, "full": 72}, 5, ends=BY_THREADS),
    Job(f"retried 2 {LIST}", "event", {"load": 150, "step": 1, "minor": 35, "full": 6}, 3, ends=BY_THREADS),
    Job(f"retried 2 {RING}", "event", {"load": 155, "step": 6, "minor": 75, "full": 83}, 3, ends=BY_THREADS),
    Job(f"retried 2 {PRINTING}", "event", {"load": 95, "step": 1, "minor": 59, "full": 65}, 5, ends=BY_THREADS),
    Job(f"retried 2 {ROWS}", "event", {"load": 135, "step": 7, "minor": 71, "full": 79}, 3, ends=BY_THREADS),
    Job(f"retried 2 {ENDLESS}", "event", {"load": 2, "step": 130}, 97, ends=BY_THREADS),
)


# ---- what may come of a refusal

def outcome_of_command(job, whole, came):
    """Returns what came of a command that was refused memory, or None where that may not be."""
    if came == whole:
        return "same"
    if came.status != 7 or came.file != file_before(job):
        return None
    if came.lines == REFUSAL and not came.output:
        return "early"
    if job.rule == "told":
        return "late" if came.lines == REFUSAL and came.output == whole.output else None
    is_told = {"beginning": came.lines == REFUSAL, "session": not came.lines and came.output.endswith(ANSWER)}
    if not is_told.get(job.rule):
        return None
    beginning = came.output.removesuffix(ANSWER) if job.rule == "session" else came.output
    is_whole_lines = not beginning or beginning.endswith(b"\n")
    return "late" if is_whole_lines and whole.output.startswith(beginning) else None


def outcome_of_collection(job, _, came):
    """Returns which collection was refused a growth, and was as it should be before and behind it."""
    if came.status == 1 and not came.output and BESIDE.search(came.lines):
        return "beside"
    told = {f"{job.words} minor {minor} full {full}\n".encode(): outcome
            for minor, full, outcome in (("false", "false", "same"), ("true", "false", "minor"), ("false", "true", "full"))}
    return told.get(came.output) if came.status == 0 and not came.lines else None


def outcome_of_event(_, whole, came):
    """Returns what was refused, was made again, and came to the same."""
    if came == whole:
        return "same"
    if came.status == 1 and whole.output.startswith(came.output) and BESIDE.search(came.lines):
        return "beside"
    return AGAIN.get(came.lines) if came.status == 0 and came.output == whole.output else None


COMMAND_RULES = ("whole", "told", "beginning", "session")
OUTCOMES = {**dict.fromkeys(COMMAND_RULES, outcome_of_command), "collection": outcome_of_collection, "event": outcome_of_event}


# ---- calls

def program_of(jm, job):
    """Returns the program of a job."""
    return jm.path if job.rule in COMMAND_RULES else jm.library


def file_before(job):
    """Returns what the file that a job writes has before: nothing where there is none."""
    return AS_IT_WAS if "OUT" in job.words.split() else None


def lay_before(job, path):
    """Lays the file that a job writes, as it is before."""
    if os.path.exists(path):
        os.remove(path)
    if file_before(job) is not None:
        with open(path, "wb") as file:
            file.write(file_before(job))


def bytes_of(path):
    """Returns the bytes of a file, or None where there is none."""
    if not os.path.exists(path):
        return None
    with open(path, "rb") as file:
        return file.read()


def came_of(jm, job, folder, number):
    """Returns what comes of a job whose request of this number is refused, and how many requests it makes."""
    written, counted = f"{folder}/written", f"{folder}/counted"
    lay_before(job, written)
    words = [written if word in ("OUT", "NEW") else word for word in shlex.split(job.words)]
    more = {"REFUSED": str(number), "COUNTED": counted, "LD_PRELOAD": jm.preloaded("refuse")}
    try:
        with open(f"{jm.data}/memory/commands", "rb") as given:
            ran = subprocess.run([program_of(jm, job), *words], cwd=jm.data, env=more, stdin=given, capture_output=True, timeout=SECONDS)
    except subprocess.TimeoutExpired:
        raise Missed(f"request {number} is refused: no answer in {SECONDS} s{by_hand(jm, job, number)}") from None
    return Came(ran.stdout, ran.stderr, ran.returncode, bytes_of(written)), struct.unpack("=Q", bytes_of(counted) or bytes(8))[0]


def told(came):
    """Returns what came of a call, as a person reads it."""
    text = {what: getattr(came, what)[-2000:].decode(errors="backslashreplace") for what in ("output", "lines")}
    file = "" if came.file is None else f", a file of {len(came.file)} bytes" + (", as it was" if came.file == AS_IT_WAS else "")
    return f"status {came.status}, output [{text['output']}], lines [{text['lines']}]{file}"


def by_hand(jm, job, number):
    """Returns how a call is made by hand. What is called by another name than jm makes other requests, since a usage text has the name."""
    program = "/tmp/jm" if job.rule in COMMAND_RULES else jm.library
    named = f"ln -sf {jm.build} /tmp/jm && " if job.rule in COMMAND_RULES else ""
    words = re.sub(r"\b(OUT|NEW)\b", r"/tmp/\1", job.words)
    given = " < memory/commands" if job.rule == "session" else ""
    return (f"\n    again (head of refused_memory.py): cd {jm.data} && {named}"
            f"REFUSED={number} LD_PRELOAD=/tmp/refuse.so {program} {words}{given}")


# ---- rows

def outcome_of(jm, job, whole, came, number):
    """Returns what came of a job whose request of this number was refused, where that may be."""
    outcome = OUTCOMES[job.rule](job, whole, came)
    if outcome is None:
        raise Missed(f"request {number} is refused: wanted what the rule `{job.rule}` says (head of refused_memory.py), "
                     f"came {told(came)}; without a refusal {told(whole)}{by_hand(jm, job, number)}")
    return outcome


def whole_of(jm, job, folder):
    """Returns what comes of a job of which nothing is refused."""
    whole, _ = came_of(jm, job, folder, 0)
    is_quiet = job.rule in ("whole", "told") or not whole.lines
    if whole.status != job.status or not is_quiet or outcome_of(jm, job, whole, whole, 0) != "same":
        raise Missed(f"without a refusal: wanted status {job.status}, came {told(whole)}{by_hand(jm, job, 0)}")
    return whole


def refuse_each(jm, job, part, folder):
    """Refuses the requests of a part of a job one by one, and returns how many refusals came to each outcome."""
    whole, counts, beyond = whole_of(jm, job, folder), collections.Counter(), 0
    for number in range(part, MOST, job.parts):
        came, requests = came_of(jm, job, folder, number)
        outcome = outcome_of(jm, job, whole, came, number)
        if number <= requests:
            counts[outcome] += 1
            beyond = 0
        elif outcome != "same":
            raise Missed(f"{requests} requests and no refusal: wanted {told(whole)}, came {told(came)}{by_hand(jm, job, number)}")
        else:
            beyond += 1
        if beyond == job.ends:
            return counts
    raise Missed(f"memory is still asked for at request {MOST}{by_hand(jm, job, MOST)}")


def ask(jm, job, part):
    """Asks whether each refusal of a part of a job comes to what may come, and whether so many were refused as there are at least."""
    with tempfile.TemporaryDirectory(dir=jm.room) as folder:
        counts = refuse_each(jm, job, part, folder)
    if any(counts[outcome] < least for outcome, least in job.least.items()):
        raise Missed(f"wanted at least {job.least} refusals, came {dict(counts)}{by_hand(jm, job, part)}")


def row(job, part):
    """Returns the row of a part of a job."""
    each = "each request" if job.parts == 1 else f"each request of {job.parts} from request {part} on"
    return f"{job.words}, {each}", lambda jm: ask(jm, job, part)


def tables(is_long):
    """Yields the tables of what is refused memory."""
    for name, jobs in (("commands", COMMANDS), ("collections", COLLECTIONS), ("events", EVENTS)):
        yield f"refused memory, {name}", [row(job, part) for job in jobs for part in range(1, job.parts + 1 if is_long else 2)]
