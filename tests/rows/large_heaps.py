"""What a run comes to where its collections have so much to copy that several copiers make them: the output, the lines with --show-heap and
the status are those of the run by one copier. The other tables have small heaps, which one copier collects however many there are
(docs/PARALLEL_COPYING.md, "When one copier collects"), so here the threads are counted too."""
import os
import tempfile

from rows.calls import Call, Missed
from rows.threads import ARRAYS, EVENTS, MUCH

# Nodes without end. Each names the one before and what was in its slot of an array, and is put there.
NODES = """.class public Main
.super java/lang/Object
.field public next LMain;
.field public other LMain;
.method public static main([Ljava/lang/String;)V
    .limit stack 4
    .limit locals 5
    ldc 20000
    anewarray Main
    astore_1
    aconst_null
    astore_3
Round:
    iconst_0
    istore_2
Node:
    new Main
    astore 4
    aload 4
    aload_3
    putfield Main/next LMain;
    aload 4
    aload_1
    iload_2
    aaload
    putfield Main/other LMain;
    aload_1
    iload_2
    aload 4
    aastore
    aload 4
    astore_3
    iinc 2 1
    iload_2
    ldc 20000
    if_icmplt Node
    goto Round
.end method
"""
# Each program with its schedule: at the first collection there are 128,003 cells of arrays, and of nodes some 120,000.
PROGRAMS = {
    "arrays": (ARRAYS.replace("LENGTH", str(MUCH)), ["t 1 x %d" % EVENTS, "minor", "minor", "full", "full"]),
    "nodes": (NODES, ["t 1 x 500000", "minor", "minor", "t 1 x 100000", "full", "t 1 x 100000", "minor", "full", "full"]),
}
HEAP = "1048576"
COPIERS = (2, 3, 8, 16)


def come_to(jm, name, copiers):
    """Returns what a program comes to by so many copiers, and how many threads were started."""
    text, schedule = PROGRAMS[name]
    words = ["run", "--copiers", str(copiers), "--heap", HEAP, "--show-heap", "--schedule", "s", "Main.j"]
    with tempfile.TemporaryDirectory(dir=jm.room) as folder:
        counted = {"LD_PRELOAD": jm.preloaded("count_threads"), "COUNTED": f"{folder}/counted"}
        files = {"Main.j": text.encode(), "s": "".join(f"{line}\n" for line in schedule).encode()}
        came = jm.came_of(Call(words, files), env={**os.environ, **counted})
        return (came.output, came.lines, came.status), os.path.getsize(f"{folder}/counted") if os.path.exists(f"{folder}/counted") else 0


def ask(jm, name, copiers):
    """Asks whether a program comes to the same by so many copiers as by one, and whether they copied."""
    wanted, _ = come_to(jm, name, 1)
    came, threads = come_to(jm, name, copiers)
    if wanted[2] not in (0, 8) or came != wanted:
        raise Missed(f"{name} by {copiers} copiers: status {came[2]} and {len(came[1])} bytes of lines, by one {wanted[2]} and {len(wanted[1])}")
    if threads < copiers - 1:
        raise Missed(f"{name} by {copiers} copiers: {threads} threads were started, wanted {copiers - 1} or more")


def tables(_long):
    """Yields the programs with each number of copiers."""
    yield "large heaps by copiers", [(f"{name} by {it} copiers", lambda jm, name=name, it=it: ask(jm, name, it)) for name in PROGRAMS for it in COPIERS]
