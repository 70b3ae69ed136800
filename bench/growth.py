#!/usr/bin/env python3
"""How many times longer ten times the work takes. It is no part of the gate.

    python3 bench/growth.py PROGRAM [--pairs N] [NAME ...]

PROGRAM is the built program (crates/soar_app/out/soar_app). Machines are shared, and a run takes half as long again a
moment later, so small and large runs alternate: six small ones around each large one. Printed are the seconds of
processor, in the middle of all runs, and of the quotients of the pairs the one in the middle and the quartiles. The
names: those of steps.py.
"""
import resource
import statistics
import subprocess
import sys
import tempfile

sys.dont_write_bytecode = True
from steps import WORK

SIZES = {
    "generator": (2000, 20000),
    "counter": (10000, 100000),
    "idle": (10000, 100000),
    "added": (1000, 10000),
    "chunks": (1000, 10000),
}


def seconds(program, name, count):
    """Seconds of processor of one run."""
    words, script = WORK[name][0](count)
    with tempfile.TemporaryFile() as text:
        text.write(script.encode())
        text.seek(0)
        before = resource.getrusage(resource.RUSAGE_CHILDREN)
        subprocess.run([program, *words], stdin=text, stdout=subprocess.DEVNULL, check=False)
    after = resource.getrusage(resource.RUSAGE_CHILDREN)
    return after.ru_utime + after.ru_stime - before.ru_utime - before.ru_stime


def pair(program, name):
    """A small run, as the mean of six, and a large one between them."""
    few, many = SIZES[name]
    small = [seconds(program, name, few) for _ in range(3)]
    large = seconds(program, name, many)
    small += [seconds(program, name, few) for _ in range(3)]
    return statistics.mean(small), large


def line(program, name, pairs):
    runs = [pair(program, name) for _ in range(pairs)]
    low, middle, high = statistics.quantiles([large / small for small, large in runs], n=4)
    few, many = SIZES[name]
    small = statistics.median(small for small, _ in runs)
    large = statistics.median(large for _, large in runs)
    print(f"{name}: {few} in {small:.2f} s, {many} in {large:.2f} s; {middle:.1f} times ({low:.1f} to {high:.1f})")


def main():
    words = sys.argv[1:]
    pairs = 9
    if "--pairs" in words:
        at = words.index("--pairs")
        pairs = int(words[at + 1])
        del words[at:at + 2]
    if not words or pairs < 2 or any(name not in SIZES for name in words[1:]):
        sys.exit(__doc__)
    for name in words[1:] or SIZES:
        line(words[0], name, pairs)


if __name__ == "__main__":
    main()
