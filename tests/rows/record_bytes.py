"""A record that is cut at each length, and one of whose bytes is another. By its format (docs/SCHEDULE.md) an entry is `t N @S KIND` and
a line feed, which the last line may lack; a line may be empty or a comment. The record is that of a main that only returns."""
from rows.calls import Missed, shown
from rows.columns import data

LINE = b"t 1 @0 done\n"
# Three stages of the initialization, and the return, which ends the thread.
LINES = 4
# Values that a byte gets: those that say something in a line, those beside a digit, and the ends of the range.
SAYING = b"\n\r #/029:n\x00\x7f\xff"

# What a record comes to, as lines and a status: where all its entries are those of the run, and where the run is left earlier.
WHOLE, LEFT = (b"", 0), (b"jm: 1 threads not ended\n", 8)


def bad(line):
    """Returns what comes of a record whose first bad line is this."""
    return b"jm: 70 BadSchedule(%d)\n" % line, 9


def differs(line):
    """Returns what comes of a record whose reply differs at this line."""
    return b"jm: 71 ReplayDiffers(%d)\n" % line, 9


def of_front(length):
    """Returns what the first so many bytes come to: whole lines, and a beginning of one, which is no entry without its last letter."""
    lines, rest = divmod(length, len(LINE))
    if rest not in (0, len(LINE) - 1):
        return bad(lines + 1)
    return WHOLE if lines + (rest > 0) == LINES else LEFT


def of_change(line, column, byte):
    """Returns what comes of the record with this byte in a column of a line. A comment is one entry less, and a line feed in the first
    column leaves a line that begins with a blank. Thread 1 alone is there, any seat of one digit may be, and `none` is no `done`."""
    if column == 0 and byte == b"#":
        return LEFT
    if column == 0 and byte == b"\n":
        return bad(line + 1)
    if column == 5 and byte.isdigit():
        return WHOLE
    if column == 2 and byte.isdigit() or column == 7 and byte == b"n":
        return differs(line)
    return bad(line)


def ask_record(jm, record, wanted):
    """Asks for what comes of a record."""
    came = jm.made(["replay", "r", "Main.j"], {"r": record, "Main.j": data("jobs/main.j")}, output=b"", lines=None, status=None)
    if (came.lines, came.status) != wanted:
        raise Missed(f"of {shown(record)} wanted {wanted}, came {came.lines, came.status}")


def ask_place(jm, at, values):
    """Asks for what comes of the record with each of these values in a place, but for the one that is there."""
    whole = LINE * LINES
    line, column = at // len(LINE) + 1, at % len(LINE)
    for value in values:
        byte = bytes([value])
        if byte != whole[at:at + 1]:
            ask_record(jm, whole[:at] + byte + whole[at + 1:], of_change(line, column, byte))


def tables(is_long):
    """Yields the record cut at each length, and with other bytes: in each place with --long, else in those of the first and last line."""
    size = len(LINE) * LINES
    cut = [(f"{length} bytes", lambda jm, length=length: ask_record(jm, (LINE * LINES)[:length], of_front(length))) for length in range(size + 1)]
    yield "a record cut at each length", cut
    places = range(size) if is_long else [*range(len(LINE)), *range(size - len(LINE), size)]
    values = range(256) if is_long else SAYING
    yield "a record with another byte", [(f"byte {at}", lambda jm, at=at: ask_place(jm, at, values)) for at in places]
