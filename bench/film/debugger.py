"""What the scripts of this folder share: a conversation with `jm debug`."""
import subprocess
import sys


class Debugger:
    """A conversation with `jm debug` through two pipes."""

    def __init__(self, jm, words, files):
        self.process = subprocess.Popen([jm, "debug", *words, *files], stdin=subprocess.PIPE, stdout=subprocess.PIPE, text=True, encoding="utf-8")

    def ask(self, *commands):
        """Returns the lines of the answer to each command; an empty line, which is refused, parts them."""
        self.process.stdin.write("".join(f"{it}\n\n" for it in commands))
        self.process.stdin.flush()
        return [self.answer() for _ in commands]

    def answer(self):
        lines = []
        for line in self.process.stdout:
            if line == "? 80 BadCommand\n":
                return [] if lines == ["none"] else lines
            lines.append(line[:-1])
        sys.exit("bench/film: jm debug has ended")
