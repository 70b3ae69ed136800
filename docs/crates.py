#!/usr/bin/env python3
"""The map of the crates, from crates.txt.

  docs/crates.py           writes docs/CRATES.md and docs/crates.svg
  docs/crates.py --check   says whether they are up to date; the status is 1 if not
  docs/crates.py NAME      lists what a crate stands on, and what stands on it: a change proves these again
"""
import pathlib
import sys
import textwrap

DOCS = pathlib.Path(__file__).resolve().parent
TOP = DOCS.parent

# Each group of crates: its name, what it is for, its crates. A crate that is in none stands under "others".
GROUPS = [
    ("symbols and bytes", "the table of words, numbers of identifiers; source, sink and shelf; bytes cut into commands", "soar_sym soar_edge"),
    ("productions and elements", "a production as plain data, its check and match order; triples and identifiers as keys; working memory", "soar_rule rule_check condition_copies body_marks packed_triples packed_ids shared_values boxed_values soar_wm"),
    ("definitions", "what all code is proved against: `specs/` and plain types, hardly any code", "defs_text defs_match defs_read defs_soar defs_run"),
    ("laws of definitions", "properties of the definitions of reading, matching and settling", "rule_laws reading_laws net_laws conflict_order settling_laws removal_laws level_laws trace_laws"),
    ("reading", "bytes to tokens, trees and productions; words of the command line", "soar_lex tree_parts soar_tree read_parts soar_read random_words file_names command_words"),
    ("printing", "symbols, productions, explanations and lines of the trace as text", "soar_show chain_texts trace_lines trace_details"),
    ("matching", "the conflict set: by trying every rule (match_direct), and by a network (rete_net)", "match_row match_direct rete_alpha row_tags node_memory join_parts negation_parts node_table node_agenda rete_beta rete_net match_changes open_instances"),
    ("stores", "rows of preferences, inputs, rules and firings, by what callers ask for", "soar_prefs input_memory rule_shelf soar_record"),
    ("levels and settling", "which identifiers are reached, what is held and kept, goals, and working memory", "level_graph symbol_sets soar_levels level_change soar_settle live_firings kept_triples settle_changes touched_tags soar_goals dependency_tables goal_trimming"),
    ("choosing", "what preferences leave, draws, and the outcome at a goal", "soar_choose soar_decide decision_laws"),
    ("laws of agents", "an agent stays lawful; explanations stay; each chunk works again", "learning_laws agent_laws record_laws letter_laws session_laws loading_laws program_laws wave_chunk_laws explanation_laws matching_laws row_laws"),
    ("learning", "from a result to its explanation, its rule, and the outcome", "chain_identifiers chunk_back chunk_results condition_order carried_tests chunk_negations chunk_variables chunk_forms chunk_grounds chunk_make chunk_replay chunk_learn"),
    ("waves", "what waits, what fires, what is learned, what stays recorded, what a step reports", "soar_fire firing_records record_keeping goal_dependence wave_entries explained_firings learned_firings outstanding pending_work wave_learning wave_firings step_report input_queue wave_parts"),
    ("cycles", "decisions, output and phases, with any matcher", "decision_walk decision_parts output_link cycle_parts cycle_phases soar_cycle"),
    ("sessions", "commands and their output", "command_orders soar_cmd command_labels session_parts list_parts soar_agent"),
    ("the program", "streams of commands, files, the words of the command line, `main`", "generator command_runs soar_run soar_cases soar_app"),
    ("worked runs", "whole runs worked out by hand, as facts that the check computes", "defs_worked"),
]


def read_crates():
    """For each crate those crates of this repository that it names, in the order of crates.txt."""
    crates = {}
    for line in (TOP / "crates.txt").read_text().split("\n"):
        line = line.split("#")[0].strip()
        if line:
            name, uses = line.split(":")
            crates[name.split()[0]] = uses.split()
    return {name: [use for use in uses if use in crates] for name, uses in crates.items()}


def below(crates, name):
    found, waiting = set(), list(crates[name])
    while waiting:
        crate = waiting.pop()
        if crate not in found:
            found.add(crate)
            waiting += crates[crate]
    return found


def is_test(name):
    return name.endswith("_tests") and name != "carried_tests"


def is_law(name):
    return name.endswith("_laws") or name.startswith("defs_") or name == "conflict_order"


def count_edits(pattern):
    """How many must-fail edits a pattern names, and of how many crates."""
    edits = list(TOP.glob(pattern))
    return f"{len(edits)} for {len({edit.parent for edit in edits})} crates"


def count_tests():
    """How many functions are tests."""
    return sum(file.read_text().count("#[test]") for file in TOP.glob("crates/*/src/**/*.rt"))


def read_groups(crates):
    """The groups with those of their crates that there are, lowest first, and the groups that each stands on."""
    groups = [(title, about, [crate for crate in names.split() if crate in crates]) for title, about, names in GROUPS]
    placed = {crate for _, _, names in groups for crate in names}
    others = [crate for crate in crates if crate not in placed and not is_test(crate)]
    if others:
        groups.append(("others", "new, and in no group of this map yet", others))
    groups = [group for group in groups if group[2]]
    of_crate = {crate: title for title, _, names in groups for crate in names}
    uses = {title: {of_crate[use] for crate in names for use in crates[crate] if use in of_crate} - {title} for title, _, names in groups}
    return groups, uses


def heights(uses):
    """How many groups stand below each, one on another."""
    known = {}

    def height(title, path):
        if title in path:
            sys.exit("these groups stand on each other: " + ", ".join([*path[path.index(title):], title]))
        if title not in known:
            known[title] = 1 + max((height(use, [*path, title]) for use in uses[title]), default=-1)
        return known[title]

    for title in uses:
        height(title, [])
    # A group stands as near to those above it as it can.
    for title in sorted(uses, key=known.get, reverse=True):
        above = [known[user] for user in uses if title in uses[user]]
        if above:
            known[title] = min(above) - 1
    return known


def reduced(uses):
    """Of the groups that each stands on those that no other of them stands on."""
    every = {title: below({key: list(value) for key, value in uses.items()}, title) for title in uses}
    return {title: {use for use in used if not any(use in every[other] for other in used)} for title, used in uses.items()}


def svg(groups, uses):
    levels = heights(uses)
    rows = [[group for group in groups if levels[group[0]] == level] for level in range(max(levels.values()) + 1)]
    width, gap, line, pad = 1180, 46, 15, 10
    places, parts, y = {}, [], 20
    for row in reversed(rows):
        spare = 24
        box = (width - 40 - spare * (len(row) - 1)) / len(row)
        box = min(box, 620)
        left = (width - box * len(row) - spare * (len(row) - 1)) / 2
        texts = [textwrap.wrap("  ".join(names), int(box / 7.2), break_long_words=False) for _, _, names in row]
        high = pad * 2 + line * (1 + max(map(len, texts)))
        for at, ((title, _, _), lines) in enumerate(zip(row, texts)):
            x = left + at * (box + spare)
            places[title] = (x, y, box, high)
            parts.append(f'<rect x="{x:.0f}" y="{y}" width="{box:.0f}" height="{high}" rx="6" class="box"/>')
            parts.append(f'<text x="{x + pad:.0f}" y="{y + pad + 11}" class="title">{title}</text>')
            for number, words in enumerate(lines, 1):
                parts.append(f'<text x="{x + pad:.0f}" y="{y + pad + 11 + number * line}">{words}</text>')
        y += high + gap
    arrows = []
    for upper, used in sorted(reduced(uses).items()):
        ordered = sorted(used, key=lambda title: places[title][0])
        for number, lower in enumerate(ordered, 1):
            ux, uy, uw, uh = places[upper]
            lx, ly, lw, _ = places[lower]
            start = ux + uw * number / (len(ordered) + 1)
            above = sorted((title for title in uses if lower in reduced(uses)[title]), key=lambda title: places[title][0])
            end = lx + lw * (above.index(upper) + 1) / (len(above) + 1)
            arrows.append(f'<path d="M{start:.0f} {uy + uh} C{start:.0f} {uy + uh + gap} {end:.0f} {ly - gap} {end:.0f} {ly - 3}" class="arrow"/>')
    style = ("text{font:12px sans-serif;fill:#222}.title{font-weight:bold}.box{fill:#f4f6f8;stroke:#667}"
             ".arrow{fill:none;stroke:#58a;stroke-width:1.4;marker-end:url(#tip)}")
    return (f'<svg xmlns="http://www.w3.org/2000/svg" viewBox="0 0 {width} {y - gap + 20}" width="{width}">\n'
            f'<style>{style}</style>\n<rect width="100%" height="100%" fill="#fff"/>\n'
            '<defs><marker id="tip" viewBox="0 0 8 8" refX="7" refY="4" markerWidth="7" markerHeight="7" orient="auto">'
            '<path d="M0 0L8 4L0 8z" fill="#58a"/></marker></defs>\n'
            + "\n".join(arrows + parts) + "\n</svg>\n")


def page(crates, groups, uses):
    tests = [name for name in crates if is_test(name)]
    direct, order = reduced(uses), [title for title, _, _ in groups]
    rows = "\n".join(
        f"| {title} | {about} | " + ", ".join(names)
        + f" | {', '.join(sorted(direct[title], key=order.index)) or '-'} |" for title, about, names in groups)
    laws = [name for name in crates if is_law(name)]
    return f"""# A map of the crates

`docs/crates.py` writes this page from `crates.txt`; its table `GROUPS` gives each crate a group. An arrow goes from a group to one on which it stands. The picture leaves out arrows that follow from others.

![groups of crates, the lowest at the bottom](crates.svg)

| Group | What it is for | Crates, lowest first | Stands on |
|---|---|---|---|
{rows}

[ARCHITECTURE.md](ARCHITECTURE.md#the-crates) says what each crate holds; each crate has a page beside its code.

## Counts

| What | How many |
|---|---|
| crates | {len(crates)} |
| of these, definitions and laws | {len(laws)} |
| of these, tests alone | {len(tests)}: {', '.join(tests)} |
| must-fail edits that the gate tries | {count_edits("crates/*/must-fail/*.edit")} |
| must-fail edits that `edits/try.sh` tries | {count_edits("edits/*/*.edit")} |
| functions that are tests | {count_tests()} |

## What a change proves again

A change in a crate, also of a remark in its `specs` or `proofs`, proves that crate and all above it again. `docs/crates.py NAME` lists them:

```
docs/crates.py list_parts
```

{told(crates, "list_parts")}
"""


def told(crates, name):
    lower = [crate for crate in crates if crate in below(crates, name)]
    upper = [crate for crate in crates if name in below(crates, crate)]
    return (f"```\n{name} names: {' '.join(crates[name]) or '-'}\nbelow it, {len(lower)}: {' '.join(lower) or '-'}\n"
            f"above it, {len(upper)}: {' '.join(upper) or '-'}\n```")


def main():
    crates = read_crates()
    words = sys.argv[1:]
    if words and words != ["--check"]:
        if words[0] not in crates:
            sys.exit(f"crates.txt has no crate {words[0]}")
        print(told(crates, words[0]).strip("`\n"))
        return
    groups, uses = read_groups(crates)
    for file, text in ((DOCS / "CRATES.md", page(crates, groups, uses)), (DOCS / "crates.svg", svg(groups, uses))):
        if not words:
            file.write_text(text)
        elif not file.exists() or file.read_text() != text:
            sys.exit(f"{file.name} is not up to date; run docs/crates.py")


if __name__ == "__main__":
    main()
