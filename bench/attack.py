#!/usr/bin/env python3
"""What the worst inputs cost. It is no part of the gate.

    python3 bench/attack.py PROGRAM [--seconds N] [--big] [NAME ..]

PROGRAM is the built program (crates/soar_app/out/soar_app). Each line is one run: how large its input is, how it ended,
seconds of the processor and the most memory that it had. A run that takes longer than N seconds (600) is given up.
With --big the sizes are those that the limits allow; without it some are smaller. The stack has 8 MiB, as is usual: a
run that goes down it with the depth of its input would end by a signal.
"""
import argparse
import os
import resource
import subprocess
import sys
import tempfile
import threading

MIB = 1 << 20
INPUT = 64 * MIB
COMMAND = MIB

CHAIN = "sp {chain (state <s> ^superstate nil ^first <a>) --> (<s> ^seen <a>)}\n"
LINKS = "sp {links (state <s> ^superstate nil ^first <a>) (<a> ^next <b>) --> (<s> ^seen <b>)}\n"


def repeated(piece, size):
    return piece * (size // len(piece))


def conditions(count, piece, front="(state <s> ^a 1)", actions=""):
    return "sp {p " + front + piece * count + " --> " + actions + "}\n"


def one_byte_commands(big):
    """Each is refused: a byte and a newline."""
    return repeated("x\n", INPUT if big else 4 * MIB)


def newlines_in_braces(big):
    """The longest command: newlines between braces."""
    return "sp {" + "\n" * (COMMAND - 6) + "}\n"


def braces_nested(big):
    return "sp {p " + "{" * 1000 + "(state <s> ^a 1)" + "}" * 1000 + " --> }\n"


def braces_alone(big):
    """A command that never ends, of braces alone: too long after 1 MiB."""
    return repeated("{", INPUT)


def closing_braces(big):
    """Braces that close nothing, on a line each."""
    return repeated("}\n", INPUT if big else 4 * MIB)


def longest_productions(big):
    """Productions of 1 MiB, of one long word each."""
    one = "sp {p (state <s> ^a " + "x" * (COMMAND - 60) + ") --> }\n"
    return one * (64 if big else 8)


def joined_conditions(big):
    """1,000 conditions, each joined with the first, and two elements for each."""
    return conditions(999, " (<s> ^a 1)") + "add-wme S1 ^a 1\n" + "matches\n"


def crossed_conditions(big):
    """Conditions that share nothing but the state: as many rows as there are ways to choose."""
    count = 6 if big else 4
    return "".join(f"add-wme S1 ^a {n}\n" for n in range(16)) + conditions(count - 1, " (<s> ^a <x>)", "(state <s> ^a <y>)") + "stats\n"


def negated_conditions(big):
    return conditions(998, " -(<s> ^b 1)") + "".join(f"add-wme S1 ^a {n}\n" for n in range(200)) + "matches\n"


def deep_negations(big):
    return conditions(120, " -{(<s> ^b 1) -{(<s> ^c 1) -{(<s> ^d 1) -(<s> ^e 1)}}}") + "add-wme S1 ^a 1\nmatches\n"


def many_variables(big):
    inside = "".join(f" (<s> ^a <v{n}>)" for n in range(999))
    return "sp {p (state <s> ^b 1)" + inside + " --> }\nadd-wme S1 ^a 1\nadd-wme S1 ^b 1\nmatches\n"


def long_path(big):
    return "sp {p (state <s> ^" + ".".join("a" for _ in range(999)) + " 1) --> }\nprint p\n"


def linked(production, count):
    lines = ["watch 0", production.strip(), "input add S1 ^first <n0>"]
    lines += [f"input add <n{n}> ^next <n{n + 1}>" for n in range(count)]
    return "\n".join(lines + ["run 1", "stats", "input remove S1 ^first <n0>", "run 1", "stats"]) + "\n"


def chain_of_identifiers(big):
    """Identifiers, each the value of the one before, and then the first link goes."""
    return linked(CHAIN, 1_000_000 if big else 100_000)


def short_name(number):
    digits = ""
    while number or not digits:
        digits = "0123456789abcdefghijklmnopqrstuvwxyz"[number % 36] + digits
        number //= 36
    return "n" + digits


def longest_chain(big):
    """As many identifiers as there may be elements, with labels so short that two files hold the commands."""
    count = 3_999_900 if big else 200_000
    half = count // 2
    links = [f"input add <{short_name(n)}> ^n <{short_name(n + 1)}>\n" for n in range(count)]
    front = "watch 0\n" + CHAIN + "input add S1 ^first <n0>\n"
    back = "run 1\nstats\ninput remove S1 ^first <n0>\nrun 1\nstats\n"
    return [front + "".join(links[:half]), "".join(links[half:]), back]


def chain_that_a_pattern_takes(big):
    """The same where a condition asks for each link, so that all of them leave the members of one pattern in one step."""
    return linked(LINKS, 1_000_000 if big else 100_000)


def deep_chain(big):
    """A chain of so many links that lasts, without any shorter way along it, and then its first link goes.

    Each firing makes a piece of 1,996 identifiers between two that are given from outside; what was given then goes.
    """
    pieces = 2000 if big else 50
    inner = " ".join(f"(<v{n}> ^c <v{n + 1}>)" for n in range(1, 1996))
    piece = (
        "sp {piece :o-support (state <s> ^superstate nil ^piece <p>) (<p> ^from <l> ^to <m>) --> "
        + f"(<l> ^c <v1>) {inner} (<v1996> ^c <m>)}}"
    )
    start = "sp {start :o-support (state <s> ^superstate nil ^start <l>) --> (<s> ^c <l>)}"
    lines = ["watch 0", start, piece, "input add S1 ^start <l0>"]
    for n in range(pieces):
        lines += [f"input add S1 ^piece <p{n}>", f"input add <p{n}> ^from <l{n}>", f"input add <p{n}> ^to <l{n + 1}>"]
    lines += ["run 1", "stats"]
    lines += [f"input remove S1 ^piece <p{n}>" for n in range(pieces)]
    lines += ["run 1", "stats", "excise start", "input remove S1 ^start <l0>"]
    lines += ["sp {cut :o-support (state <s> ^superstate nil ^c <l>) --> (<s> ^c <l> -)}", "run 1", "stats"]
    return "\n".join(lines) + "\n"


def many_elements(big):
    """Elements of one slot, up to their limit."""
    count = 4_000_100 if big else 200_000
    return "watch 0\n" + "".join(f"input add S1 ^a {n}\n" for n in range(count)) + "run 1\nstats\n"


def folded(a, b):
    product = a * b
    return (product & (1 << 64) - 1) ^ (product >> 64)


def values_that_undo_attributes(big):
    """For each attribute the value at which the hasher of the tables forgets what it was given before, as their seed is known."""
    count = 1_000_000 if big else 100_000
    seed, multiplier = 0x243F6A8885A308D3, 0x9E3779B97F4A7C15 ^ 16
    top = folded(seed ^ ((ord("S") << 32) + 1), multiplier)
    lines = ["watch 0"]
    for attribute in range(1, count + 1):
        value = folded(top ^ attribute, multiplier)
        lines.append(f"input add S1 ^{attribute} {value - (1 << 64) if value >> 63 else value}")
    return "\n".join(lines + ["run 1", "stats"]) + "\n"


def many_goals(big):
    return "watch 0\nrun 1000\nstats\n"


def ties(big):
    """An operator for each of so many elements, none better than another."""
    count = 300 if big else 100
    return (
        "watch 0\nsp {p (state <s> ^superstate nil ^a <x>) --> (<s> ^operator <o> +) (<o> ^a <x>)}\n"
        + "".join(f"input add S1 ^a {n}\n" for n in range(count))
        + "run 3\nstats\n"
    )


ATTACKS = [
    one_byte_commands,
    newlines_in_braces,
    braces_nested,
    braces_alone,
    closing_braces,
    longest_productions,
    joined_conditions,
    crossed_conditions,
    negated_conditions,
    deep_negations,
    many_variables,
    long_path,
    chain_of_identifiers,
    longest_chain,
    chain_that_a_pattern_takes,
    deep_chain,
    many_elements,
    values_that_undo_attributes,
    many_goals,
    ties,
]


def peak(pid, found, done):
    """The most memory that the process had, as the system tells it."""
    while not done.is_set():
        try:
            with open(f"/proc/{pid}/status", encoding="utf-8") as file:
                for line in file:
                    if line.startswith("VmHWM:"):
                        found[0] = max(found[0], int(line.split()[1]))
        except OSError:
            return
        done.wait(0.05)


def files_of(folder, texts):
    """Writes the texts as files, and gives their names."""
    names = [f"part{n}.soar" for n in range(len(texts))]
    for name, text in zip(names, texts):
        with open(os.path.join(folder, name), "wb") as file:
            file.write(text)
    return names


def attack(given, make):
    """The last text is the input, and those before it are files that the command line names."""
    made = make(given.big)
    texts = [text.encode() for text in ([made] if isinstance(made, str) else made)]
    with tempfile.TemporaryFile() as file, tempfile.TemporaryDirectory() as folder:
        file.write(texts[-1])
        file.seek(0)
        before = resource.getrusage(resource.RUSAGE_CHILDREN)
        process = subprocess.Popen(
            [given.program, *files_of(folder, texts[:-1])],
            cwd=folder,
            stdin=file,
            stdout=subprocess.DEVNULL,
            preexec_fn=lambda: resource.setrlimit(resource.RLIMIT_STACK, (8 * MIB, 8 * MIB)),
        )
        found, done = [0], threading.Event()
        watcher = threading.Thread(target=peak, args=(process.pid, found, done))
        watcher.start()
        try:
            status = process.wait(timeout=given.seconds)
        except subprocess.TimeoutExpired:
            process.kill()
            process.wait()
            status = None
        done.set()
        watcher.join()
        after = resource.getrusage(resource.RUSAGE_CHILDREN)
    spent = after.ru_utime + after.ru_stime - before.ru_utime - before.ru_stime
    ended = "given up" if status is None else f"signal {-status}" if status < 0 else f"status {status}"
    print(f"| {make.__name__} | {sum(map(len, texts)) / MIB:.2f} | {ended} | {spent:.1f} | {found[0] / 1024:.0f} |", flush=True)


def main():
    asked = argparse.ArgumentParser(description=__doc__, formatter_class=argparse.RawDescriptionHelpFormatter)
    asked.add_argument("program", type=os.path.abspath)
    asked.add_argument("names", nargs="*")
    asked.add_argument("--seconds", type=int, default=600)
    asked.add_argument("--big", action="store_true")
    given = asked.parse_intermixed_args()
    print("| input | MiB | ended | CPU s | MiB held |\n|---|---|---|---|---|")
    for make in ATTACKS:
        if not given.names or make.__name__ in given.names:
            attack(given, make)
    return 0


if __name__ == "__main__":
    sys.exit(main())
