"""measure.py OURS TWIN: see bench/collect."""
import resource
import statistics
import subprocess
import sys

OURS, TWIN = sys.argv[1:]
NODES, CELLS = 4_000_000, 16_000_000


def run(program, which, size):
    """Runs a program, and returns its processor seconds and what it printed."""
    before = resource.getrusage(resource.RUSAGE_CHILDREN)
    printed = subprocess.run([program, which, str(size)], check=True, stdout=subprocess.PIPE).stdout
    after = resource.getrusage(resource.RUSAGE_CHILDREN)
    return after.ru_utime + after.ru_stime - before.ru_utime - before.ru_stime, printed


def difference(program, which, small, large):
    """The processor nanoseconds that one more takes, between two sizes."""
    less, more = run(program, which, small)[0], run(program, which, large)[0]
    return (more - less) / (large - small) * 1e9


def both(which, small, large):
    """Five pairs of what one more takes, ours and the twin's."""
    for size in (small, large):
        ours, twin = run(OURS, which, size)[1], run(TWIN, which, size)[1]
        if ours != twin:
            sys.exit(f"bench/collect: the two print different results: {ours} {twin}")
    return [(difference(OURS, which, small, large), difference(TWIN, which, small, large)) for _ in range(5)]


def said(pairs, unit=1):
    """The median ratio, and the median of each side in that unit."""
    ratio = statistics.median(ours / twin for ours, twin in pairs)
    ours = statistics.median(ours for ours, _ in pairs) / unit
    twin = statistics.median(twin for _, twin in pairs) / unit
    return ratio, ours, twin


def resident(program, which, size):
    """The greatest resident size of a program, in bytes."""
    script = "import resource, subprocess, sys; subprocess.run(sys.argv[1:], check=True, stdout=subprocess.DEVNULL); " \
        "print(resource.getrusage(resource.RUSAGE_CHILDREN).ru_maxrss)"
    done = subprocess.run([sys.executable, "-c", script, program, which, str(size)], check=True, stdout=subprocess.PIPE)
    return int(done.stdout) * 1024


ratio, ours, twin = said(both("collect", 1, 4), NODES)
memcpy = statistics.median(difference(TWIN, "memcpy", 1, 4) for _ in range(5)) / NODES
print(f"a full collection of {CELLS:,} cells: ratio to plain Rust {ratio:.2f}; {ours:.0f} ns an object beside {twin:.0f} ns; "
      f"the blocks copied alone {memcpy:.0f} ns")
for old in ("1", "10", "100"):
    ratio, ours, twin = said(both(f"minor-{old}", 20, 220), 1e6)
    print(f"a minor collection beside {int(old) * 10_000:,} old nodes: {ours:.2f} ms beside {twin:.2f} ms, ratio {ratio:.2f}")
ratio, ours, twin = said(both("barrier", 40_000, 440_000), 256)
print(f"to set a value of an object and note it: {ours:.1f} ns beside {twin:.1f} ns, ratio {ratio:.2f}")
ratio, ours, twin = said(both("allocate", 1_000_000, 21_000_000))
print(f"to make an object of two fields, its collections included: {ours:.1f} ns beside {twin:.1f} ns, ratio {ratio:.2f}")
built = resident(OURS, "collect", 0)
collected = resident(OURS, "collect", 1)
print(f"memory: {built / CELLS:.1f} bytes a cell; with a full collection {collected / CELLS:.1f}, "
      f"where at most {(2 * built + 8 * NODES) / CELLS:.1f} may be")
