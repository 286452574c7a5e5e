"""A session of the debugger, held command by command: each answer has to come before the next command is given."""
import os
import select
import subprocess
import tempfile

from rows.calls import SECONDS, Missed, laid, shown
from rows.columns import rows
from rows.jobs import job_call

TABLE = "jobs/sessions.txt"
# Seconds in which a command has to be answered.
WAIT = 20


def talk_of(jm, call, folder):
    """Holds a session in a folder, and returns what was answered, the lines on standard error and the status."""
    talk = subprocess.Popen([jm.path, *call.words], cwd=folder, stdin=subprocess.PIPE, stdout=subprocess.PIPE, stderr=subprocess.PIPE)
    with talk:
        told = b""
        for command in call.input.splitlines(keepends=True):
            talk.stdin.write(command)
            talk.stdin.flush()
            if not select.select([talk.stdout], [], [], WAIT)[0]:
                talk.kill()
                raise Missed(f"no answer to {shown(command)} in {WAIT} s, before another command is given")
            answer = os.read(talk.stdout.fileno(), 1 << 20)
            told += answer
            if not answer:
                break
        talk.stdin.close()
        return told + talk.stdout.read(), talk.stderr.read(), talk.wait(SECONDS)


def ask_conversation(jm, line):
    """Holds the session of a row."""
    call = job_call(line)
    with tempfile.TemporaryDirectory(dir=jm.room) as folder:
        laid(folder, call.files)
        came = talk_of(jm, call, folder)
    if came != (call.output, call.lines, call.status):
        raise Missed(f"wanted {call.status}, {shown(call.output)}, {shown(call.lines)}, came {came[2]}, {shown(came[0])}, {shown(came[1])}")


def tables(_long):
    """Yields the first session of the debugger."""
    yield "a conversation", [(f"{TABLE}:{at}", lambda jm, line=line: ask_conversation(jm, line)) for at, line in rows(TABLE)[:1]]
