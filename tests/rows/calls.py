"""One call of the program, or a few, in a folder of its own, and what came of it."""
import collections
import os
import shlex
import subprocess
import tempfile
import threading

TESTS = os.path.dirname(os.path.dirname(os.path.abspath(__file__)))
DATA = f"{TESTS}/data"
# A call that takes longer has failed.
SECONDS = 120
# A call for which memory is refused may take so many KB, and the file that it reads has so many bytes, without taking room.
MEMORY = 256 << 10
LARGE = 512 << 20

# What a call is to come to: its words behind `jm`, the files that lie in its folder, what it reads, and what is to come of it, where
# None is whatever comes. In `left` stand the files that are to be there afterwards beside `files`. With `memory` it may take so many KB.
Call = collections.namedtuple("Call", "words files input output lines status left memory", defaults=({}, b"unread", b"", b"", 0, {}, None))
Came = collections.namedtuple("Came", "output lines status files")


class Large:
    """A file too large for the memory that a call may take."""


class Folder:
    """A folder in the place of a file."""


# A name of another file, which lies there: a symbolic link, or a hard one.
Link = collections.namedtuple("Link", "name is_hard")


class Missed(Exception):
    """What is not as it should be, with what was wanted and what came."""


class NotAsked(Exception):
    """A row that no command line asks, with why."""


def shown(value):
    """Returns how a value is shown."""
    return f"[{value[:4000].decode(errors='backslashreplace')}]" if isinstance(value, bytes) else str(value)


def behind(files, content):
    """Returns what stands in a file: of a link, what stands in the file to which it leads."""
    return behind(files, files[content.name]) if isinstance(content, Link) else content


def laid(folder, files):
    """Lays files into a folder. Each has its bytes, or is of a kind of its own; links come last."""
    for name, content in files.items():
        path = f"{folder}/{name}"
        if "/" in name:
            os.makedirs(os.path.dirname(path), exist_ok=True)
        if content is Folder:
            os.makedirs(path)
            continue
        if isinstance(content, Link):
            continue
        with open(path, "wb") as file:
            if content is Large:
                file.truncate(LARGE)
            else:
                file.write(content)
    for name, content in files.items():
        if isinstance(content, Link) and content.is_hard:
            os.link(f"{folder}/{content.name}", f"{folder}/{name}")
        elif isinstance(content, Link):
            os.symlink(content.name, f"{folder}/{name}")


def found(folder):
    """Returns the files of a folder, but for large ones."""
    files = {}
    for at, _, names in os.walk(folder):
        for name in names:
            path = f"{at}/{name}"
            if os.path.isfile(path) and os.path.getsize(path) < LARGE:
                with open(path, "rb") as file:
                    files[os.path.relpath(path, folder)] = file.read()
    return files


class Program:
    """A build of jm that is tested: its path, a folder for the folders of its calls, and the program of library calls beside it."""

    def __init__(self, path, room, library):
        self.build, self.room, self.build_library, self.data = path, room, library, DATA
        # (help names the program as it was called)
        os.mkdir(f"{room}/bin")
        self.path = f"{room}/bin/jm"
        os.symlink(path, self.path)
        self.building, self.built, self.calls = threading.Lock(), None, threading.local()

    @property
    def library(self):
        """The program that calls the libraries, built where it is not there yet."""
        with self.building:
            if self.built is None:
                self.built = self.build_library()
            return self.built

    def preloaded(self, name):
        """Returns the library of rows/NAME.c, which a program is started with (LD_PRELOAD), built once."""
        path = f"{self.room}/bin/{name}.so"
        with self.building:
            if not os.path.exists(path):
                subprocess.run(["cc", "-O2", "-shared", "-fPIC", "-o", path, f"{TESTS}/rows/{name}.c", "-ldl"], check=True)
        return path

    def came_of(self, call, **more):
        """Returns what comes of a call."""
        self.calls.last = call
        with tempfile.TemporaryDirectory(dir=self.room) as folder:
            laid(folder, call.files)
            words = [self.path, *call.words]
            if call.memory:
                words = ["sh", "-c", f'ulimit -v {call.memory}; exec "$0" "$@"', *words]
            try:
                ran = subprocess.run(words, cwd=folder, input=call.input, capture_output=True, timeout=SECONDS, **more)
            except subprocess.TimeoutExpired:
                raise Missed(f"no answer in {SECONDS} s") from None
            return Came(ran.stdout, ran.stderr, ran.returncode, found(folder))

    def ask(self, call):
        """Makes a call and returns what came of it, where it is as it should be."""
        came = self.came_of(call)
        for what in ("output", "lines", "status"):
            wanted = getattr(call, what)
            if wanted is not None and wanted != getattr(came, what):
                told = f" ({shown(came.lines)})" if what == "status" else ""
                raise Missed(f"wanted {what} {shown(wanted)}, came {shown(getattr(came, what))}{told}")
        if call.left is not None:
            there = {name: behind(call.files, it) for name, it in call.files.items()}
            whole = {name: it for name, it in there.items() if isinstance(it, bytes)} | call.left
            others = sorted(it for it in {*whole, *came.files} if whole.get(it) != came.files.get(it))
            if others:
                raise Missed(f"other files than wanted: {', '.join(others)}")
        return came

    def made(self, words, files, **wanted):
        """Makes a call of these words over these files: see ask."""
        return self.ask(Call(words, files, **wanted))


def again(jm):
    """Returns the command by which the last call of a row is made again by hand, over its files, which are kept for it."""
    call = getattr(jm.calls, "last", None)
    if call is None:
        return ""
    kept = tempfile.mkdtemp(prefix="jm-row-")
    laid(kept, {name: it for name, it in call.files.items() if it is not Large})
    with open(f"{kept}/.input", "wb") as file:
        file.write(call.input or b"")
    words = " ".join(map(shlex.quote, [jm.build, *call.words]))
    return f"\n    again: cd {kept} && {words} < .input"
