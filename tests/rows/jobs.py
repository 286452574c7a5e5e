"""Tables of jobs (tests/data/jobs/README.md): a row is a command over a program's files and what is to come of it."""
import re

from rows.calls import MEMORY, Call, Large
from rows.columns import bytes_of, file_of, files_of, name_of, rows

# The heap of a run that says no other, in cells, and the least that an option takes.
HEAP = 65_536
LEAST = 16


def ballast(more):
    """Returns the text of a class whose one literal takes so many cells, from 7 on: 3 and one for four letters, and 3."""
    code = f".limit stack 1\n.limit locals 0\nldc \"{'x' * 4 * (more - 6)}\"\npop\nreturn\n"
    return f".class Ballast\n.super java/lang/Object\n.method static f()V\n{code}.end method\n".encode()


def heap_words(rest, names, files):
    """Returns the words for a heap of so many cells. Below the least that the option takes a class is added that takes the cells more,
    so that as many are left; the names gain its file."""
    cells = int(rest or HEAP)
    if cells < LEAST:
        more = max(7, LEAST - cells)
        files["Ballast.j"] = ballast(more)
        names.append("Ballast.j")
        cells += more
    return ["--heap", str(cells)]


def event_words(files, column):
    """Returns the words for the events that a column says, and lays a schedule among the files."""
    if column.startswith("@turns "):
        steps, quantum = column.split()[1:]
        return ["--steps", steps, "--quantum", quantum]
    if column.startswith("@workers "):
        count, steps = column.split()[1:]
        return ["--workers", count, "--steps", steps]
    file_of(files, "events", column)
    return ["--schedule", "events"]


def option_words(options, values):
    """Returns the words of options, as many as there are values."""
    return [it for pair in zip(options, values.split()) for it in pair]


def run_words(word, rest, names, files, events, collecting):
    """Returns the words of a run, a replay, or of how a run ends."""
    copiers, stress = collecting
    copied = ["--copiers", str(copiers)] if copiers > 1 else []
    heap = heap_words(rest, names, files)
    if word in ("replay", "again"):
        file_of(files, "record", events)
        return ["replay", *heap, *copied, *(["--show-heap"] if word == "again" else []), "record", *names]
    shown = ["--show-heap"] if word == "show" else []
    stressed = ["--stress", stress] if stress else []
    return ["why" if word == "why" else "run", *heap, *copied, *stressed, *shown, *event_words(files, events), *names]


def trace_words(rest, names, files, events, copiers):
    """Returns the words of a trace."""
    copied = ["--copiers", str(copiers)] if copiers > 1 else []
    return ["trace", *copied, *option_words(("--from", "--most", "--thread"), rest), *event_words(files, events), *names]


def job_words(job, names, files, events, collecting=(1, None)):
    """Returns the words behind `jm` for a job over files, and lays what else it reads among them."""
    word, _, rest = job.partition(" ")
    if word in ("run", "show", "replay", "again", "why"):
        return run_words(word, rest, names, files, events, collecting)
    if word == "debug":
        copied = ["--copiers", str(collecting[0])] if collecting[0] > 1 else []
        return ["debug", *heap_words(rest, names, files), *copied, *names]
    if word == "trace":
        return trace_words(rest, names, files, events, collecting[0])
    if word == "explore":
        outcome = [] if events == "-" else ["--outcome", events]
        return ["explore", *option_words(("--switches", "--steps", "--runs", "--slice"), rest), *outcome, *names]
    if word == "asm":
        return ["asm", *names, "Sum.class"]
    if word == "dis":
        return ["dis", *(["--bare"] if rest == "bare" else []), *names]
    if word == "check":
        return ["check", *names]
    if word == "words":
        return [name_of(it) for it in re.findall(r"(?:\{[^}]*\}|[^ ])+", rest)]
    if word in ("explain", "version"):
        return [word, *rest.split()]
    raise ValueError(f"there is no job {word}")


def link_call(names, files, output, lines, status):
    """Returns a run without an event: it links, and its one thread has not ended, or it tells why it does not link."""
    files["events"] = b""
    words = ["run", "--schedule", "events", *names]
    if status == "0":
        return Call(words, files, lines=b"jm: 1 threads not ended\n", status=8)
    return Call(words, files, output=bytes_of(output), lines=bytes_of(lines), status=int(status))


def job_call(line, collecting=(1, None)):
    """Returns the call of a row of a table of jobs."""
    job, names, contents, events, output, lines, status, *written = line.split(" | ")
    word = job.split()[0]
    names, files = files_of(names, contents)
    if job == "link":
        return link_call(names, files, output, lines, status)
    words = job_words(job, names, files, events, collecting)
    output, lines = bytes_of(output), bytes_of(lines)
    call = Call(words, files, status=int(status), output=output, lines=lines, memory=MEMORY if Large in files.values() else None)
    if word in ("debug", "words"):
        call = call._replace(input=bytes_of(events))
    if word == "asm":
        call = call._replace(output=b"", left={"Sum.class": output} if status == "0" else {})
    return call._replace(left=files_of(*written)[1]) if written else call


def table_rows(table, collecting=(1, None)):
    """Returns the rows of a table of jobs."""
    return [(f"{table}:{at}", lambda jm, line=line: jm.ask(job_call(line, collecting))) for at, line in rows(table)]


def tables(_long):
    """Yields the tables of jobs, plain, with copiers, and with collections between events."""
    for _, table in rows("tables.txt"):
        yield table, table_rows(table)
    for _, line in rows("copied.txt"):
        copiers, table = line.split()
        yield f"{table} by {copiers} copiers", table_rows(table, (int(copiers), None))
    for _, line in rows("stressed.txt"):
        kind, copiers, table = line.split()
        yield f"{table} with {kind} collections by {copiers}", table_rows(table, (int(copiers), kind))
