"""Drawings as text for Graphviz: working memory, the stack of goals, a learned rule with its explanation."""

import re
import shutil
import subprocess
from pathlib import Path

from .memory import order
from .views import impasse_of

HEAD = ["digraph {", "  rankdir=LR;", "  node [shape=box, fontname=Courier, fontsize=10];", "  edge [fontname=Courier, fontsize=9];"]
LEAF_COLOURS = {"ground": "lightblue", "architecture": "gray90", "item": "gray90", "select": "lightyellow"}


def quoted(text):
    """Returns a text in the quotes of Graphviz."""
    return '"' + str(text).replace("\\", "\\\\").replace('"', '\\"') + '"'


def label(lines):
    """Returns lines as a label, each aligned to the left."""
    return '"' + "".join(quoted(line)[1:-1] + "\\l" for line in lines) + '"'


def node(name, lines, *more):
    return f"  {quoted(name)} [{', '.join(['label=' + label(lines), *more])}];"


def edge(start, end, *more):
    return f"  {quoted(start)} -> {quoted(end)}{' [' + ', '.join(more) + ']' if more else ''};"


def graph(lines):
    return "\n".join([*HEAD, *lines, "}"]) + "\n"


# ---- working memory

def memory_graph(memory):
    """Draws each identifier with its constants, and an arrow for each link; candidates have dashed arrows."""
    lines = []
    for id in sorted(memory.of_id, key=order):
        constants = [f"^{one.attr} {one.value}" for one in memory.select(id) if one.value.kind != "identifier"]
        lines.append(node(id, [str(id), *constants], *(["style=filled", "fillcolor=lightblue"] if id in memory.states else [])))
    for one in memory.elements:
        if one.value.kind == "identifier":
            lines.append(edge(one.id, one.value, f"label={quoted(one.attr)}", *(["style=dashed"] if one.accepts else [])))
    return graph(lines)


# ---- goals

def goals_graph(memory):
    """Draws the goals from the top one down, with their candidates; the selected operator is filled."""
    lines = []
    for above, state in zip([None, *memory.goals], memory.goals):
        lines.append(node(state, [str(state)], "shape=ellipse"))
        if above is not None:
            lines.append(edge(above, state, f"label={quoted(impasse_of(memory, state))}", "penwidth=2"))
        selected = memory.values(state, "operator")
        for operator in sorted({*selected, *memory.values(state, "operator", True)}, key=order):
            filled = ["style=filled", "fillcolor=lightyellow"] if operator in selected else []
            lines.append(node(operator, [f"{operator}{memory.name_of(operator)}"], *filled))
            lines.append(edge(state, operator, *(["label=selected"] if filled else ["style=dashed"])))
        lines += [edge(state, item, "label=item", "style=dotted") for item in memory.values(state, "item")]
    return graph(lines)


# ---- a learned rule

def chunk_graph(production, explanation, conditions):
    """Draws a rule as it was learned: leaves, firings with what they made, results, and the rule itself.

    `conditions` has the conditions of each rule by name. They show what a firing matched."""
    elements = explanation.elements(conditions)
    lines = [node("rule", production.rstrip("\n").split("\n"))]
    for leaf in explanation.leaves:
        colour = LEAF_COLOURS[leaf.kind]
        lines.append(node(leaf.element.tag, [leaf.kind, leaf.element.line()], "style=filled", f"fillcolor={colour}"))
        if leaf.by is not None:
            lines.append(edge(source_of(leaf.by, leaf.element._replace(accepts=True), explanation), leaf.element.tag, "style=dotted"))
    for firing in explanation.firings:
        lines += firing_lines(firing, elements, explanation)
    return graph(lines + [edge(result, "rule", "style=dotted") for result in explanation.results])


def firing_lines(firing, elements, explanation):
    """Draws a firing between the elements that it matched and the preferences that it made."""
    name = f"firing {firing.number}"
    lines = [node(name, [f"fire {firing.number}", firing.name], "shape=ellipse")]
    lines += [edge(source_of(tag, elements.get(tag), explanation), name) for tag in firing.tags]
    for wish in firing.made:
        lines.append(node(wish.text, [wish.text], *(["penwidth=2"] if wish.text in explanation.results else [])))
        lines.append(edge(name, wish.text))
    return lines


def source_of(tag, element, explanation):
    """Returns the node of an element: that of a leaf, else that of the preference that made it, else its tag alone."""
    if element is not None and all(leaf.element.tag != tag for leaf in explanation.leaves):
        for wish in (wish for firing in explanation.firings for wish in firing.made):
            if wish.element is not None and wish.element == element._replace(tag=0):
                return wish.text
    return tag


# ---- files

def file_name(subject):
    """Returns the name of the file for a drawing: that of a rule without what a file name should not have."""
    return re.sub(r"[^A-Za-z0-9._-]+", "-", subject).strip("-") or "drawing"


def written(text, name):
    """Writes a drawing as NAME.dot, and as NAME.svg if Graphviz is there; returns the lines that say so."""
    base = Path(name[:-4] if name.endswith((".dot", ".svg")) else name)
    dot, svg = Path(f"{base}.dot"), Path(f"{base}.svg")
    dot.write_text(text, encoding="utf-8", errors="surrogateescape")
    if not shutil.which("dot"):
        return [f"written: {dot} (no SVG: `dot` of Graphviz is not installed)"]
    done = subprocess.run(["dot", "-Tsvg", "-o", str(svg), str(dot)], stderr=subprocess.PIPE, text=True)
    return [f"written: {dot}, {svg}"] if done.returncode == 0 else [f"written: {dot}", f"dot failed: {done.stderr.strip()}"]
