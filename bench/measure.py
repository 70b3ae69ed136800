#!/usr/bin/env python3
"""What a change costs, by the number of productions and of elements. It is no part of the gate.

    python3 bench/measure.py PROGRAM [--big]

PROGRAM is the built program (crates/soar_app/out/soar_app). The cost of a change is the difference of two runs, with
a block of changes and without; each run is the least of three, as processor time of the program. With --big there are
also 100,000 productions and 200,000 elements, and the blocks are larger, so that less of a figure is noise.
"""
import os
import resource
import subprocess
import sys

CHANGES = 40_000 if "--big" in sys.argv else 1000


def rules(count):
    """Productions that share a first condition; each waits for a code of its own below it."""
    return "".join(
        f"sp {{wait*{n} (state <s> ^superstate nil ^task <t>) (<t> ^code {n} ^item <i>) (<i> ^of <t>) --> (<s> ^seen {n})}}\n"
        for n in range(count)
    )


def elements(count):
    """Elements that no production names."""
    return "".join(f"add-wme S1 ^other {n}\n" for n in range(count))


def come_and_go(triple, tag):
    """Elements that come and go again, one after the other; the first has this tag."""
    return "".join(f"add-wme {triple} {n % 100}\nremove-wme {tag + n}\n" for n in range(CHANGES))


def run(program, words, script):
    before = resource.getrusage(resource.RUSAGE_CHILDREN)
    subprocess.run([program, *words], input=script.encode(), stdout=subprocess.DEVNULL, check=False)
    after = resource.getrusage(resource.RUSAGE_CHILDREN)
    return after.ru_utime + after.ru_stime - before.ru_utime - before.ru_stime


def least(program, script):
    return min(run(program, [], script) for _ in range(3))


def row(program, name, first, tag):
    """A line: the first run, and microseconds of a change of each kind behind it."""
    alone = least(program, first)
    costs = [least(program, first + come_and_go(triple, tag)) - alone for triple in ["S1 ^quiet", "<t> ^code"]]
    print(f"| {name} | {alone:.2f} | " + " | ".join(f"{1e6 * cost / CHANGES / 2:.0f}" for cost in costs) + " |", flush=True)


def main():
    if len(sys.argv) < 2:
        sys.exit(__doc__)
    program, big = os.path.abspath(sys.argv[1]), "--big" in sys.argv
    task = "add-wme S1 ^task <t>\n"
    print("| productions, elements | first run, s | a change that no production names, us | one that a waiting row takes, us |")
    print("|---|---|---|---|")
    for count in [100, 1000, 10000] + ([100000] if big else []):
        row(program, f"{count}, 1,000", rules(count) + task + elements(1000), 7 + 1000)
    for count in [5000] + ([200000] if big else []):
        row(program, f"100, {count}", rules(100) + task + elements(count), 7 + count)
    print(f"`--generate 2000`: {run(program, ['--generate', '2000'], ''):.2f} s")


if __name__ == "__main__":
    main()
