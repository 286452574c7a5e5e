"""first_year/programs.txt: small programs as they are written in a first year, what a real Java printed, and what comes of them here;
first_year/told.txt: what is told of each beside."""
from rows.columns import bytes_of, data, rows
from rows.programs import printed

TABLE = "first_year/programs.txt"
TOLD = "first_year/told.txt"


def program(words):
    """Returns the files of a program by the words of a run."""
    return {it: data(f"first_year/{it}") for it in words if it.endswith((".class", ".j"))}


def ask_program(jm, line):
    """Asks a program for its output, its lines and its status."""
    words, output, lines, status, _ = line.split(" | ")
    files = program(words.split())
    wanted = printed("first_year/printed.txt")[next(iter(files)).partition(".")[0]] if output == "@java" else bytes_of(output)
    jm.made(["run", *words.split()], files, output=wanted, lines=bytes_of(lines), status=int(status))


def ask_told(jm, line, known):
    """Asks a program for what is told behind its lines: lines that begin so stand there in their order, and the last says what to ask."""
    words, told, asked = line.split(" | ")
    first, status = known[words]
    answer = jm.made(["run", "--tell", *words.split()], program(words.split()), output=None, lines=None, status=int(status))
    lines = answer.lines.decode()
    if not lines.startswith(first):
        raise AssertionError(f"--tell changes the lines: {lines!r}")
    there = iter(lines[len(first):].splitlines())
    for begun in [it for it in told.split("~") if it not in ("", "-")]:
        if not any(it.startswith(begun) for it in there):
            raise AssertionError(f"no line {begun!r} at its place in {lines!r}")
    last = "" if asked == "-" else f"see: jm explain {asked}\n"
    if not lines.endswith(last) or (not last and lines != first):
        raise AssertionError(f"it ends otherwise: {lines[-200:]!r}")


def tables(_long):
    """Yields the list of programs, and what is told of them."""
    yield TABLE, [(f"{TABLE}:{at}", lambda jm, line=line: ask_program(jm, line)) for at, line in rows(TABLE)]
    known = {line.split(" | ")[0]: (bytes_of(line.split(" | ")[2]).decode(), line.split(" | ")[3]) for _, line in rows(TABLE)}
    yield TOLD, [(f"{TOLD}:{at}", lambda jm, line=line: ask_told(jm, line, known)) for at, line in rows(TOLD)]
