"""Programs of several files, as lists have them: what each prints, told by a real Java or by hand, what it comes to with collections
between its events, and whether the record of a run by workers, replayed, comes to what the run came to."""
import functools
import os
import re

from rows.calls import DATA, Missed, shown
from rows.columns import data, rows
from rows.jobs import HEAP, job_words

ENDED = re.compile(rb"jm: thread \d+ ended by ")
# The counts of workers by which the programs of recorded.txt are run.
WORKERS = ("2", "5")
MOST = "16"


@functools.lru_cache(None)
def printed(name):
    """Returns the parts of a file, by what stands behind `== ` at the head of each."""
    parts = re.split(rb"^== (.*)\n", data(name), flags=re.MULTILINE)
    return {head.decode(): text for head, text in zip(parts[1::2], parts[2::2])}


def with_status(text):
    """Returns what is printed by a run that comes to its end, with its status."""
    return text + (b"status 3\n" if ENDED.search(text) else b"status 0\n")


def printed_by_java(_heap, _events, names):
    """Returns what a program has to come to: what a real Java printed (printed.txt in its folder), and how its threads end."""
    folder, name = os.path.split(names[0])
    return with_status(printed(os.path.join(folder, "printed.txt"))[os.path.splitext(name)[0]])


def printed_by_hand(heap, events, names):
    """Returns what the run of a worked program has to come to."""
    return printed("worked/printed.txt")[f"{os.path.basename(names[0])}, heap {heap}, events {events}"]


def closed_run(_heap, _events, names):
    """Returns what a closed run has to come to: what it proves stands in its folder."""
    folder = os.path.dirname(names[0])
    there = [f"{folder}/{it}" for it in ("stdout", "stderr") if os.path.exists(f"{DATA}/{folder}/{it}")]
    return with_status(b"".join(map(data, there)))


# The lists of runs, and what says what each run has to come to.
LISTS = {"programs.txt": printed_by_java, "worked.txt": printed_by_hand, "runs.txt": closed_run}


def listed(table):
    """Returns the runs of a list: where each stands, the limit of its heap, its events, and its files."""
    lines = [(at, line.split(" ")) for at, line in rows(table)]
    if table == "programs.txt":
        return [(f"{table}:{at}", str(HEAP), "turns", names) for at, names in lines]
    return [(f"{table}:{at}", heap, events, names) for at, (heap, events, *names) in lines]


def listed_call(heap, events, names, collecting=(1, None), shows_heap=False):
    """Returns the words and the files of a run of a list."""
    files = {name: data(name) for name in names}
    column = "@turns 1000000 1" if events == "turns" else f"t 1 x {events}"
    return job_words(f"{'show' if shows_heap else 'run'} {heap}", list(names), files, column, collecting), files


def ask_listed(jm, run, wanted):
    """Asks a run of a list: its output with the lines behind it, and its status."""
    words, files = listed_call(*run)
    came = jm.made(words, files, output=None, lines=None, status=None)
    told = came.output + came.lines + f"status {came.status}\n".encode()
    if told != wanted:
        raise Missed(f"{' '.join(words)}: wanted {shown(wanted)}, came {shown(told)}")


def ask_stressed(jm, run, collecting):
    """Asks whether a run of a list comes to the same, with the same heap, where it is collected so."""
    words, files = listed_call(*run, shows_heap=True)
    came = jm.made(words, files, output=None, lines=None, status=None)
    words, files = listed_call(*run, collecting, shows_heap=True)
    jm.made(words, files, output=came.output, lines=came.lines, status=came.status)


def check_seats(record, workers):
    """Says what is wrong with a record by workers: each seat has lines (a worker ends by one of its own replies), and goes round the
    threads from the first one on (docs/WORKERS.md)."""
    lines = [line.split() for line in record.decode().splitlines()]
    turns = {seat: [int(it[1]) for it in lines if it[2] == f"@{seat}"] for seat in range(workers)}
    if sum(map(len, turns.values())) != len(lines) or not all(turns.values()):
        raise Missed(f"of {workers} workers the record has the seats {sorted({it[2] for it in lines})}")
    for seat, threads in turns.items():
        if threads[0] != 1 or any(later not in (1, earlier + 1) for earlier, later in zip(threads, threads[1:])):
            raise Missed(f"the worker of seat {seat} steps the threads {threads[:40]}")


def ask_recorded(jm, names, workers):
    """Asks whether the record of a run by workers, replayed and as a schedule, comes to what the run came to."""
    files = {name: data(name) for name in names}
    words = ["run", "--workers", workers, "--steps", "100000", "--show-heap", "--record", "record", *names]
    came = jm.made(words, files, output=None, lines=None, status=None, left=None)
    recorded = files | {"record": came.files["record"]}
    if came.files != recorded:
        raise Missed(f"{' '.join(words)}: other files")
    check_seats(came.files["record"], int(workers))
    same = {"output": came.output, "lines": came.lines, "status": came.status}
    jm.made(["replay", "--show-heap", "record", *names], recorded, **same)
    jm.made(["run", "--show-heap", "--schedule", "record", *names], recorded, **same)


def tables(_long):
    """Yields the lists of runs, those with collections between events, and the programs with threads by several workers."""
    for table, expected in LISTS.items():
        yield table, [(where, lambda jm, run=run, wanted=expected(*run): ask_listed(jm, run, wanted)) for where, *run in listed(table)]
    for _, line in rows("stressed_runs.txt"):
        kind, copiers, table = line.split()
        yield (f"{table} with {kind} collections by {copiers}",
               [(where, lambda jm, run=run, how=(int(copiers), kind): ask_stressed(jm, run, how)) for where, *run in listed(table)])
    yield "recorded.txt", [(f"recorded.txt:{at} by {workers}", lambda jm, names=line.split(" "), workers=workers: ask_recorded(jm, names, workers))
                           for at, line in rows("recorded.txt") for workers in WORKERS]
    at, line = rows("recorded.txt")[0]
    yield "a run by 16 workers", [(f"recorded.txt:{at}", lambda jm: ask_recorded(jm, line.split(" "), MOST))]
