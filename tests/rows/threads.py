"""How many threads a command starts: `--workers W` starts all but one of its workers. A collection by several copiers starts at least all
but one of these where there is much to copy, and none where there is little (docs/WORKERS.md, docs/PARALLEL_COPYING.md). What is printed
does not tell it."""
import os
import subprocess
import tempfile

from rows.calls import SECONDS, Missed, laid

# 2,000 arrays of so many longs, which one array refers to, and then a collection of all.
ARRAYS = """.class public Main
.super java/lang/Object
.method public static main([Ljava/lang/String;)V
    .limit stack 4
    .limit locals 3
    sipush 2000
    anewarray java/lang/Object
    astore_1
    iconst_0
    istore_2
L:
    aload_1
    iload_2
    bipush LENGTH
    newarray long
    aastore
    iinc 2 1
    iload_2
    sipush 2000
    if_icmplt L
    return
.end method
"""
# 3 stages of initialization, 5 instructions, and 9 for each array
EVENTS = 3 + 5 + 9 * 2000
# 128,003 cells are well above the bound of 65,536 below which one copier collects, 28,003 are below it. The heap has room for the first.
MUCH, LITTLE = 60, 10
HEAP = "262144"
SESSION = f"step 1 {EVENTS}\nfull\n".encode()
# The commands that collect by several copiers, with what stands before their file.
COLLECTING = {"run": ["--schedule", "s"], "replay": ["r"], "why": ["--schedule", "s"], "trace": ["--most", "1", "--schedule", "s"],
              "film": ["--from", str(EVENTS), "--schedule", "s"], "debug": []}
COPIERS = (1, 2, 3, 8, 16)
WORKERS = (1, 2, 4, 16)


def files(length):
    """Returns the program with arrays of so many longs, its schedule and its record."""
    program = ARRAYS.replace("LENGTH", str(length)).encode()
    return {"Main.j": program, "s": f"t 1 x {EVENTS}\nfull\n".encode(), "r": b"t 1 @0 done\n" * EVENTS + b"full @0 done\n"}


def started(jm, length, words):
    """Returns how many threads a call starts over the program with arrays of so many longs."""
    with tempfile.TemporaryDirectory(dir=jm.room) as folder:
        laid(folder, files(length))
        counted = {"LD_PRELOAD": jm.preloaded("count_threads"), "COUNTED": f"{folder}/counted"}
        subprocess.run([jm.path, *words], cwd=folder, input=SESSION, capture_output=True, timeout=SECONDS, env={**os.environ, **counted})
        return os.path.getsize(f"{folder}/counted") if os.path.exists(f"{folder}/counted") else 0


def ask_workers(jm, workers):
    """Asks how many threads a run by workers starts."""
    count = started(jm, LITTLE, ["run", "--workers", str(workers), "--steps", "1000", "Main.j"])
    if count != workers - 1:
        raise Missed(f"{workers} workers: {count} threads were started, wanted {workers - 1}")


def started_by_copiers(jm, length, command, copiers):
    """Returns how many threads a command starts that collects by copiers."""
    return started(jm, length, [command, "--copiers", str(copiers), "--heap", HEAP, *COLLECTING[command], "Main.j"])


def ask_copiers(jm, command, copiers):
    """Asks how many threads are started where there is much to copy."""
    count = started_by_copiers(jm, MUCH, command, copiers)
    if count < copiers - 1 or copiers == 1 and count:
        raise Missed(f"{command} by {copiers} copiers: {count} threads were started, wanted {'none' if copiers == 1 else copiers - 1} or more")


def ask_small(jm, command):
    """Asks that no thread is started where there is little to copy."""
    count = started_by_copiers(jm, LITTLE, command, COPIERS[-1])
    if count:
        raise Missed(f"{command} by {COPIERS[-1]} copiers, of a small heap: {count} threads were started, wanted none")


def tables(_long):
    """Yields the commands that start threads."""
    yield "threads of workers", [(f"{it} workers", lambda jm, it=it: ask_workers(jm, it)) for it in WORKERS]
    yield "threads of copiers", [(f"{command} by {it} copiers", lambda jm, command=command, it=it: ask_copiers(jm, command, it))
                                 for command in COLLECTING for it in COPIERS]
    yield "threads of copiers in a small heap", [(f"{command} in a small heap", lambda jm, command=command: ask_small(jm, command))
                                                 for command in COLLECTING]
