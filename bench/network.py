#!/usr/bin/env python3
"""What the network alone does for a change, in instructions, by the number of productions and of elements.

    python3 bench/network.py PROGRAM [--big]

PROGRAM is the built program (crates/soar_app/out/soar_app). Needed is valgrind. Counted is what runs within
`rete_beta::changing::react`, which takes an element in or lets it go; the figure is the difference of two runs, one with
a block of changes and one with as many blanks in its place, so that memory lies the same until then.
"""
import os
import subprocess
import sys
import tempfile

import measure

measure.CHANGES = 20
REACT = "rete_beta::changing::react"


def made(side):
    """As many elements as this number by itself, made in one wave, each of them held by a firing."""
    rule = "sp {many (state <s> ^superstate nil ^one <x> ^two <y>) --> (<s> ^of (+ (* <x> 1000) <y>))}\n"
    return rule + "".join(f"add-wme S1 ^one {n}\nadd-wme S1 ^two {n}\n" for n in range(side)) + "run 1\n"


def next_tag(program, first):
    """The tag of the next element: none has gone so far."""
    told = subprocess.run([program], input=(first + "stats\n").encode(), capture_output=True, check=True).stdout
    return int(told.split(b"elements ")[1].split()[0]) + 1


def instructions(program, script):
    """Of the whole run, those within the network's reaction to changes."""
    with tempfile.TemporaryDirectory() as room:
        told = f"{room}/told"
        words = ["valgrind", "--tool=callgrind", f"--callgrind-out-file={told}", program]
        subprocess.run(words, input=script.encode(), stdout=subprocess.DEVNULL, stderr=subprocess.DEVNULL, check=True)
        words = ["callgrind_annotate", "--inclusive=yes", "--threshold=100", told]
        lines = subprocess.run(words, capture_output=True, text=True, check=True).stdout.splitlines()
    return sum(int(line.split()[0].replace(",", "")) for line in lines if REACT in line)


def cost(program, first, block):
    """Of one change of the block, behind what comes first."""
    blank = "".join("\n" if at == "\n" else " " for at in block)
    return (instructions(program, first + block) - instructions(program, first + blank)) // (2 * measure.CHANGES)


def main():
    if len(sys.argv) < 2:
        sys.exit(__doc__)
    program, big = os.path.abspath(sys.argv[1]), "--big" in sys.argv
    print("| productions, elements | a change that no production names | one that a waiting row takes |")
    print("|---|---|---|")
    for rules, side in [(100, 10), (1000, 10), (10000, 10), (100, 32), (100, 100)] + [(100000, 10), (100, 200)] * big:
        first = measure.rules(rules) + "add-wme S1 ^task <t>\n" + made(side)
        tag = next_tag(program, first)
        blocks = [measure.come_and_go(triple, tag) for triple in ["S1 ^quiet", "<t> ^code"]]
        costs = [cost(program, first, block) for block in blocks]
        print(f"| {rules:,}, {side * side:,} | {costs[0]:,} | {costs[1]:,} |", flush=True)


if __name__ == "__main__":
    main()
