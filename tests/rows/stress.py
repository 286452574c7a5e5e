"""A collection between every two events changes nothing that can be seen.

1. Each worked program and each other program of the tables runs by `jm run --stress minor` and `full` with 1, 2, 3 and 8 copiers: the
   output, the lines with --show-heap and the status are those of the run without, and the record has the collections besides. A short
   run makes each program under one of these eight, which take turns, and 2,000 events at most.
2. Each worked program is run beside itself by the library program (`moments`), without collections and with one between every two
   events, of both kinds, by the serial collector and by 1, 2, 3 and 8 copiers. All views, of threads, frames, classes, objects and
   monitors, are the same after every tenth event and at the end. A short run leaves out those that take longest."""
import collections
import functools
import itertools
import os
import shlex
import subprocess
import tempfile

from rows.calls import DATA, Missed

KINDS = ("minor", "full")
COPIERS = (1, 2, 3, 8)
EACH = [(kind, copiers) for copiers in COPIERS for kind in KINDS]
# How many events of a run are made at most where the table does not say it, and how many in a short run.
STEPS = 20_000
FEW_STEPS = 2_000
SECONDS = 600
# The heap of the fewest cells that jm takes, and that of a run which says none.
LEAST = 16
CELLS = 65_536
# The events between two comparisons of the library program, and the collectors that it tries with each kind.
BETWEEN = 10
COLLECTORS = (0, 1, 2, 3, 8)
# The worked programs that stand in no list of runs.
OTHERS = ("sum.class", "jobs/WrongTag.class", "jobs/ByZero.class", "sessions/TwoThreads.j sessions/W.j sessions/K.j",
          "sessions/BothEnds.j sessions/Waits.j sessions/A.j sessions/B.j", "sessions/List.j sessions/N.j",
          "sessions/Turns.j sessions/Steps.j", "sessions/Lines.j", "workers/Main.j workers/W.j",
          "sessions/Bank.class sessions/Account.class sessions/Customer.class")
# The worked programs that take a second and more beside themselves, which a short run leaves out.
LONGEST = ("memory/endless.j", "worked/PrintSpecially.j", "worked/LiteralOfEight.j", "worked/FullAtOverflow.j", "worked/EndlessRecursion.j")

# The cells of its heap, how many events of its first thread are made (None: those of all threads in turn), its files.
Run = collections.namedtuple("Run", "heap events files")
Done = collections.namedtuple("Done", "output lines status")


# ---- the runs

def lines_of(name):
    """Returns the lines of a file of the data."""
    with open(f"{DATA}/{name}", encoding="utf-8") as text:
        return text.read().splitlines()


def listed(name):
    """Returns the runs of a list: `HEAP EVENTS FILE ..`, where EVENTS is how many of the first thread, or `turns`."""
    rows = [line.split() for line in lines_of(name)]
    return [Run(int(heap), None if events == "turns" else int(events), files) for heap, events, *files in rows]


def worked():
    """Returns the worked programs."""
    arrays = [Run(heap, 2003, ["memory/endless.j"]) for heap in (110, 111)]
    return [*listed("worked.txt"), *[Run(CELLS, None, files.split()) for files in OTHERS], *arrays]


def others():
    """Returns the other programs."""
    return [*[Run(CELLS, None, line.split()) for line in lines_of("programs.txt")], *listed("runs.txt")]


# ---- calls

def by_hand(jm, program, words, before=""):
    """Returns how a call is made by hand, behind what is made before it. Its schedule is /tmp/events."""
    words = ["/tmp/events" if word.endswith("/events") else word for word in [jm.build if program == jm.path else program, *words]]
    return f"\n    again: cd {jm.data} && {before}{shlex.join(words)}"


def done(jm, program, words):
    """Returns what a call comes to."""
    try:
        ran = subprocess.run([program, *words], cwd=jm.data, stdin=subprocess.DEVNULL, capture_output=True, timeout=SECONDS)
    except subprocess.TimeoutExpired:
        raise Missed(f"no answer in {SECONDS} s{by_hand(jm, program, words)}") from None
    return Done(ran.stdout, ran.stderr, ran.returncode)


def recorded(jm, folder, words):
    """Returns what a run comes to, and the lines of its record."""
    path = f"{folder}/record"
    came = done(jm, jm.path, ["run", "--record", path, *words])
    if not os.path.exists(path):
        return came, []
    with open(path, encoding="utf-8") as file:
        lines = file.read().splitlines()
    os.remove(path)
    return came, lines


def told(came):
    """Returns what came of a call, as a person reads it."""
    output, lines = (text[-2000:].decode(errors="backslashreplace") for text in (came.output, came.lines))
    return f"status {came.status}, output [{output}], lines [{lines}]"


def schedule_of(jm, run, heap, folder):
    """Lays the schedule of all events of a run, and returns its path and how many they are."""
    path = f"{folder}/events"
    if run.events is None:
        done(jm, jm.path, ["run", "--heap", heap, "--steps", str(STEPS), "--record", path, *run.files])
        with open(path, "rb") as record:
            return path, record.read().count(b"\n")
    with open(path, "w", encoding="utf-8") as text:
        text.write(f"t 1 x {run.events}\n")
    return path, run.events


def schedule_by_hand(jm, run, heap):
    """Returns how the schedule of all events of a run is made by hand."""
    if run.events is None:
        return shlex.join([jm.build, "run", "--heap", heap, "--steps", str(STEPS), "--record", "/tmp/events", *run.files]) + "; "
    return f"echo 't 1 x {run.events}' > /tmp/events && "


# ---- rows

def stressed_record(record, kind):
    """Returns a record with a collection of a kind, by seat 0, before each event and one behind the last. Behind a stop each is stopped."""
    told, lines = "done", []
    for event in record:
        lines += [f"{kind} @0 {told}", event.replace(" @0 ", " @1 ")]
        told = "stopped" if event.endswith(" stopped") else told
    return [*lines, f"{kind} @0 {told}"]


def ask_run(jm, run, collecting, steps):
    """Asks whether a run with collections between its events, of a kind and by so many copiers, comes to the same as one without."""
    kind, copiers = collecting
    heap = str(max(run.heap, LEAST))
    with tempfile.TemporaryDirectory(dir=jm.room) as folder:
        events = ["--steps", str(steps)] if run.events is None else ["--schedule", schedule_of(jm, run, heap, folder)[0]]
        words = ["--heap", heap, "--show-heap", *events, *run.files]
        stress = ["--stress", kind, "--copiers", str(copiers)]
        (wanted, record), (came, stressed) = recorded(jm, folder, words), recorded(jm, folder, [*stress, *words])
    again = by_hand(jm, jm.path, ["run", *stress, *words], "" if run.events is None else schedule_by_hand(jm, run, heap))
    if came != wanted:
        raise Missed(f"wanted, as without --stress, {told(wanted)}, came {told(came)}{again}")
    for number, lines in enumerate(itertools.zip_longest(stressed_record(record, kind), stressed), 1):
        if lines[0] != lines[1]:
            raise Missed(f"the record has collections between the events: wanted in line {number} {lines[0]}, came {lines[1]}{again}")


def ask_moments(jm, run):
    """Asks whether all views of a run are the same with collections between its events, of each kind and by each collector."""
    heap = str(max(run.heap, LEAST))
    with tempfile.TemporaryDirectory(dir=jm.room) as folder:
        schedule, count = schedule_of(jm, run, heap, folder)
        words = ["moments", heap, schedule, " ".join(run.files)]
        came = done(jm, jm.library, words)
    moments = -(-count // BETWEEN) + 1
    lines = [f"{kind}, {copiers} copiers: {moments} moments alike\n" for kind in KINDS for copiers in COLLECTORS]
    wanted = Done("".join(lines).encode(), b"", 0)
    if came != wanted:
        raise Missed(f"wanted {told(wanted)}, came {told(came)}{by_hand(jm, jm.library, words, schedule_by_hand(jm, run, heap))}")


def run_rows(runs, long):
    """Returns the rows of runs with collections between their events: each under all eight, or under one by turns."""
    found = []
    for at, run in enumerate(runs):
        for kind, copiers in EACH if long else [EACH[at % len(EACH)]]:
            ask = functools.partial(ask_run, run=run, collecting=(kind, copiers), steps=STEPS if long else FEW_STEPS)
            found.append((f"{where(run)}: {kind} collections by {copiers} copiers", ask))
    return found


def where(run):
    """Returns the name of a run."""
    return f"{' '.join(run.files)}, {run.heap} cells, {run.events or 'all'} events"


def tables(long):
    """Yields the tables of runs with collections between every two events."""
    yield "stress, worked programs", run_rows(worked(), long)
    yield "stress, other programs", run_rows(others(), long)
    asked = [run for run in worked() if long or run.files[0] not in LONGEST]
    yield "stress, moments", [(where(run), functools.partial(ask_moments, run=run)) for run in asked]
