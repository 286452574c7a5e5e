"""Pages of `jm film`: how many of a page's lines are which (tests/data/films.txt), and a page that is not written."""
import collections

from rows.calls import Missed, shown
from rows.columns import bytes_of, data, files_of, rows, text_bytes
from rows.streams import FAILED, written_with_room


def ask_film(jm, line):
    """Asks for the lines of a page."""
    words, names, contents, numbers, lines, status = line.split(" | ")
    _, files = files_of(names, contents)
    output = b"" if numbers == "-" else None
    came = jm.made(["film", *words.split()], files, output=output, lines=bytes_of(lines), status=int(status))
    counts = collections.Counter(came.output.split(b"\n"))
    for part in numbers.split(" / ") if output is None else []:
        number, wanted = part.split(" ", 1)
        if counts[text_bytes(wanted)] != int(number):
            raise Missed(f"wanted {part}, came {counts[text_bytes(wanted)]}")


def ask_cut(jm, room):
    """Asks for a page of which so many bytes are taken."""
    came = written_with_room(jm, (["film", "A.j"], {"A.j": data("films/Five.j")}), room, "output")
    if came != (b"<!DOCTYPE html>"[:room], None, FAILED, 2):
        raise Missed(f"with room for {room} came {shown(came[0])}, {shown(came[2])}, {came[3]}")


def tables(_long):
    """Yields the pages."""
    yield "films.txt", [(f"films.txt:{at}", lambda jm, line=line: ask_film(jm, line)) for at, line in rows("films.txt")]
    yield "pages that fail", [(f"a page with room for {room}", lambda jm, room=room: ask_cut(jm, room)) for room in (0, 1, 9, 15)]
