#!/usr/bin/env python3
"""What steps cost as their number grows, and beside how much that is idle. It is no part of the gate.

    python3 bench/steps.py PROGRAM [--big] [NAME ...]

PROGRAM is the built program (crates/soar_app/out/soar_app). Each line is one run: seconds of processor, and the most
memory that it had. A run that takes longer than ten minutes is given up. The names: generator, counter, idle, added,
chunks.
"""
import os
import resource
import subprocess
import sys
import tempfile

LONGEST = 600

COUNTER = """watch 0
sp {init :o-support (state <s> ^superstate nil) --> (<s> ^n 0)}
sp {count*propose (state <s> ^superstate nil ^n <x>) --> (<s> ^operator <o> +) (<o> ^name count ^from <x>)}
sp {count*apply (state <s> ^operator <o> ^n <x>) (<o> ^name count ^from <x>) --> (<s> ^n <x> - (+ <x> 1))}
"""

IDLE = "sp {idle (state <s> ^superstate nil ^item <i>) --> (<s> ^seen <i>)}\n"

SAME = "sp {same (state <s> ^item <i>) (<i> ^next <j>) --> (<i> ^same <j>)}\n"

CHUNKS = """watch 0
chunk always
sp {init :o-support (state <s> ^superstate nil) --> (<s> ^n 0)}
sp {next*propose (state <s> ^superstate nil ^n <x> ^done <x>) --> (<s> ^operator <o> +) (<o> ^name next ^from <x>)}
sp {next*apply (state <s> ^operator <o> ^n <x>) (<o> ^name next ^from <x>) --> (<s> ^n <x> - (+ <x> 1))}
sp {work (state <s> ^impasse no-change ^attribute state ^superstate <above>) (<above> ^n <x>) --> (<above> ^done <x>)}
"""


def generator(count):
    return ["--generate", str(count)], ""


def counter(count):
    return [], COUNTER + f"run {count}\n"


def idle(count):
    """A counter beside a thousand firings that stay live."""
    items = "".join(f"input add S1 ^item {n}\n" for n in range(1000))
    return [], COUNTER + IDLE + items + f"run {count}\n"


def added(count):
    """Single additions, a query after each."""
    return [], "watch 0\n" + SAME + "".join(f"add-wme S1 ^tick {n}\nmatches same\n" for n in range(count))


def chunks(count):
    """Each impasse teaches a rule of its own."""
    return [], CHUNKS + f"run {2 * count}\nstats\n"


WORK = {
    "generator": (generator, [2000, 20000], [200000]),
    "counter": (counter, [10000, 100000], []),
    "idle": (idle, [1000, 10000], [100000]),
    "added": (added, [100, 1000], [10000]),
    "chunks": (chunks, [100, 1000], [16000]),
}


def run(program, words, script):
    """Seconds of processor and MiB, or None where it took too long."""
    with tempfile.TemporaryFile() as text:
        text.write(script.encode())
        text.seek(0)
        child = subprocess.Popen([program, *words], stdin=text, stdout=subprocess.DEVNULL)
        try:
            child.wait(LONGEST)
        except subprocess.TimeoutExpired:
            child.kill()
            child.wait()
            return None
    used = resource.getrusage(resource.RUSAGE_CHILDREN)
    return used.ru_utime + used.ru_stime, used.ru_maxrss / 1024


def line(program, name, count):
    """In a process of its own, whose children are this run alone."""
    words, script = WORK[name][0](count)
    reader, writer = os.pipe()
    if os.fork() == 0:
        found = run(program, words, script)
        text = f"| {name} | {count:,} | more than {LONGEST} s | |" if found is None else f"| {name} | {count:,} | {found[0]:.2f} | {found[1]:.0f} |"
        os.write(writer, text.encode())
        os._exit(0)
    os.close(writer)
    with os.fdopen(reader) as told:
        print(told.read(), flush=True)
    os.wait()


def main():
    if len(sys.argv) < 2:
        sys.exit(__doc__)
    program, big = os.path.abspath(sys.argv[1]), "--big" in sys.argv
    names = [name for name in sys.argv[2:] if name in WORK] or list(WORK)
    print("| work | how many | CPU s | MiB |")
    print("|---|---|---|---|")
    for name in names:
        for count in WORK[name][1] + (WORK[name][2] if big else []):
            line(program, name, count)


if __name__ == "__main__":
    main()
