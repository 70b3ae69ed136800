#!/usr/bin/env python3
"""The pictures of the pages.

  docs/pictures.py [PROGRAM]           draws all files of docs/pictures again
  docs/pictures.py --check [PROGRAM]   names each that is not as it would be drawn; the status is 1 if there is one

PROGRAM is ./soar_app unless another is named. What a picture shows of an agent is read from a run of that agent.
"""
import pathlib
import re
import subprocess
import sys

sys.dont_write_bytecode = True
from drawing import NEW, PAD, QUIET, Picture, height_of  # noqa: E402

DOCS = pathlib.Path(__file__).resolve().parent
TOP = DOCS.parent
FOLDER = DOCS / "pictures"


# ---- what the program writes

def lines_of(program, commands):
    """The lines that the program writes for these commands."""
    done = subprocess.run([program], input=commands.encode(), stdout=subprocess.PIPE)
    return done.stdout.decode().splitlines()


def commands_of(page, word):
    """The commands of the first block of a page that contains the word."""
    text = (DOCS / page).read_text(encoding="utf-8")
    return next(block for block in re.findall(r"^```soar\n(.*?)^```", text, re.MULTILINE | re.DOTALL) if word in block)


def found(pattern, lines):
    """The groups of each line that matches the pattern, in order."""
    return [match.groups() for match in (re.fullmatch(pattern, line) for line in lines) if match]


# ---- the project in one picture

def overview(_program):
    p = Picture(900, 252, "Rules feed the match network. Waves fire its matches until all is at rest; then a decision follows. "
                "Both change the elements that the network matches. A result of a substate gives a chunk, which is a new rule.")
    rules = p.box(26, 60, 161, "rule", ["you write them, or", "they are learned"], "rules", centred=True)
    network = p.box(255, 60, 161, "state", ["keeps the matches of", "all rules up to date"], "network", centred=True)
    wave = p.box(484, 60, 161, "rule", ["fires new matches,", "retracts lost ones"], "wave", centred=True)
    decision = p.box(713, 60, 161, "choice", ["selects an operator,", "or makes a substate"], "decision", centred=True)
    chunk = p.box(255, 164, 161, "learning", ["a rule made from the", "result's explanation"], "chunk", centred=True)
    for before, after, words in ((rules, network, None), (network, wave, "matches"), (wave, decision, "at rest")):
        p.arrow([before.right(), after.left()])
        if words:
            p.text(after.x - 34, after.left()[1] - 12, words, anchor="middle")
    p.arrow([decision.top(), (decision.top()[0], 38), (network.top()[0], 38), network.top()])
    p.arrow([wave.top(), (wave.top()[0], 38)], tip=False)
    p.text(network.top()[0] + 12, 24, "working memory: elements that came or went")
    p.arrow([wave.bottom(), (wave.bottom()[0], chunk.right()[1]), chunk.right()], NEW)
    p.text(chunk.right()[0] + 14, chunk.right()[1] + 14, "results of substates")
    p.arrow([chunk.left(), (rules.bottom()[0], chunk.left()[1]), rules.bottom()], NEW)
    p.text(rules.bottom()[0] + 14, chunk.left()[1] + 14, "a new rule")
    return p


# ---- the cycle

def cycle(_program):
    p = Picture(920, 602, "A cycle is input, proposal, decision, application and output. Proposal and application are phases of waves. "
                "A decision goes over the goals from the top down.")
    row_of(p, 30, 24, 148, 30, [
        ("input", "plain", ["queued inputs", "are made, and", "all settles"]),
        ("proposal", "rule", ["waves: operators", "are proposed and", "compared"]),
        ("decision", "choice", ["an operator is", "selected, or a", "substate is made"]),
        ("application", "rule", ["waves: the", "selected operator", "is applied"]),
        ("output", "plain", ["what changed at", "the output link", "is shown"]),
    ], "the next cycle; after a halt only the output is left, and no cycle follows")
    panel(p, 164, 156, "A wave, in both phases", "in the proposal phase, o-supported firings wait")
    row_of(p, 45, 200, 150, 20, [
        ("what waits", "rule", ["at the highest goal", "that has any"]),
        ("retract", "rule", ["firings whose match", "is gone"]),
        ("fire", "rule", ["matches that have", "not fired yet"]),
        ("learn", "learning", ["results give chunks", "or justifications"]),
        ("settle", "rule", ["elements come, go;", "the network is told"]),
    ], "again until nothing waits, a firing halts, or as many waves ran as are allowed (100 unless set)")
    panel(p, 336, 252, "A decision, at each goal from the top down", "each yellow box ends it")
    ways_of(p, 387, ["the selected operator stays"], [
        ("blank", "a goal below: go on there"), ("choice", "no goal below: operator no-change, a substate comes")])
    ways_of(p, 471, ["the preferences leave other operators"], [
        ("choice", "one is selected, if several by a draw; goals below go")])
    ways_of(p, 513, ["impasse: tie, conflict,", "constraint-failure, state no-change"], [
        ("blank", "the same kind as before: go on at its substate"), ("choice", "otherwise: the goals below go, a substate comes")])
    return p


def row_of(p, x, y, width, gap, parts, again):
    """Boxes from the left to the right, with arrows, and an arrow from the last to the first with the words `again`."""
    boxes = [p.box(x + (width + gap) * at, y, width, kind, lines, title, centred=True) for at, (title, kind, lines) in enumerate(parts)]
    for before, after in zip(boxes, boxes[1:]):
        p.arrow([before.right(), after.left()])
    first, last = boxes[0].bottom(), boxes[-1].bottom()
    p.arrow([last, (last[0], last[1] + 18), (first[0], first[1] + 18), first])
    p.text((first[0] + last[0]) / 2, last[1] + 31, again, anchor="middle")


def panel(p, y, height, title, note):
    """A frame from margin to margin, with its title and a note at the right."""
    frame = p.box(30, y, p.width - 60, "frame", [], title, height)
    p.text(frame.x + frame.width - PAD, frame.line(0), note, anchor="end")


def ways_of(p, y, case, ways):
    """A case of a decision, and the ways in which the decision continues from there; `y` is the middle of the first."""
    middle = y + 21 * (len(ways) - 1)
    start = p.box(45, middle - height_of(len(case)) / 2, 320, "plain", case)
    for at, (kind, words) in enumerate(ways):
        end = p.box(460, y + 42 * at - height_of(1) / 2, 415, kind, [words]).left()
        p.arrow([start.right(), end] if end[1] == middle else [start.right(), (412, middle), (412, end[1]), end])


# ---- the stack of goals

def goals(program):
    robot = (TOP / "examples/robot/robot.soar").read_text(encoding="utf-8")
    lines = lines_of(program, robot.replace("run 40", "run 5\nwatch 5\nrun 1\nprint S1\nprint S2\nprint S3"))
    operators = {depth_of(blanks): (operator, name) for blanks, operator, name in found(r"\d+:( +)O: (\S+) \((.*)\)", lines)}
    impasses = {depth_of(blanks): why for blanks, why in found(r"\d+:( +)==>S: \S+ \((.*)\)", lines)}
    values = {(state, name): value for state, name, value in found(r"\d+: \((S\d) \^(\S+) (\S+)\)", lines)}
    p = Picture(920, 484, "Three goals of the robot in its sixth cycle. Each substate names its superstate and its impasse, and has an operator. "
                "A result of the lowest goal changes an element of the top state.")
    states, selected = [], []
    for depth, (operator, name) in sorted(operators.items()):
        band = p.box(20, 164 * depth - 144, 880, "frame", [], height=116)
        p.text(band.x + PAD, band.line(0), f"depth {depth}")
        state, middle = f"S{depth}", band.line(2.5)
        about = [f"^{word} {values[state, word]}" for word in ("name", "superstate", "impasse", "attribute") if (state, word) in values]
        states.append(p.box(112, middle - height_of(len(about) + 1) / 2, 210, "state", about, state))
        selected.append(p.box(428, middle - height_of(2) / 2, 150, "choice", [f"^name {name}"], operator))
        p.arrow([states[-1].right(), selected[-1].left()])
        p.text(375, middle - 11, "^operator", anchor="middle")
    for depth, why in impasses.items():
        above, below, start, middle = states[depth - 2], states[depth - 1], selected[depth - 2].bottom(), 164 * depth - 162
        p.arrow([below.top(0.2), above.bottom(0.2)])
        p.text(below.top(0.2)[0] + 10, middle - 13, "^superstate")
        p.arrow([start, (start[0], middle), (below.top(0.85)[0], middle), below.top(0.85)])
        p.text((start[0] + below.top(0.85)[0]) / 2, middle - 13, f"impasse: {why}", anchor="middle")
    draw_result(p, lines, f"(S1 ^robot {values['S1', 'robot']})", states, selected[-1])
    return p


def depth_of(blanks):
    """The depth of a goal, by the blanks before its line in the trace."""
    return (len(blanks) + 1) // 2


def draw_result(p, lines, link, states, operator):
    """The first firing of the run, what it makes for the top state, and what changes there."""
    firing, rule = found(r"fire (\d+) (\S+): .*", lines)[0]
    results = list(dict.fromkeys(made for made, in found(r"  (\(.*\)) r", lines)))
    changes = [f"{sign} {triple}" for sign, triple in found(r"([-+]) \d+: (.*)", lines) if any(made.startswith(triple[:-1]) for made in results)]
    changed = p.box(642, states[0].line(1.5) - height_of(3) / 2, 230, "learning", changes, link)
    fired = p.box(642, states[-1].line(2) - height_of(3) / 2, 230, "rule", results, f"fire {firing} {rule}")
    p.arrow([operator.right(), fired.left()])
    p.arrow([fired.top(0.2), changed.bottom(0.2)], NEW)
    p.text(fired.top(0.2)[0] + 12, states[1].line(1.5), "a result, held by")
    p.text(fired.top(0.2)[0] + 12, states[1].line(2.5), found(r"justify \d+ (\S+) from .*", lines)[-1][0])


# ---- a result and its chunk

class Explanation:
    """A chunk and what `explain` writes of it, from a run at watch level 5. Elements are tags."""

    def __init__(self, name, lines):
        chunk, explained = lines.index(f"sp {{{name}"), lines.index(f"explain {name}")
        rule = [line.strip() for line in lines[chunk + 2:explained - 1]]
        self.conditions, self.actions = rule[:rule.index("-->")], rule[rule.index("-->") + 1:]
        lines, told = lines[:explained], lines[explained:]
        self.element = {tag: f"{tag}: {triple}" for tag, triple in found(r"\+ (\d+): (.*)", lines)}
        self.grounds = found(rf"learn \d+ {re.escape(name)} from \d+: (.*)", lines)[0][0].split()
        self.own = [tag for tag, in found(r"(?:item|architecture) (\d+): .*", told)]
        self.candidate_of_item = dict(found(r"item (\d+): .* by (\d+)", told))
        self.candidate_of_selected = dict(found(r"select (\d+): .* by (\d+)", told))
        self.results = [made for made, in found(r"result (.*)", told)]
        self.firings = []  # of each its title, the tags that it used, and the preferences that it made
        for line in told:
            if line.startswith("fire "):
                title, _, tags = line.partition(": ")
                self.firings.append((title, tags.split(), []))
            elif line.startswith("  "):
                self.firings[-1][2].append(line.strip())

    def maker(self, tag):
        """The place of the firing that accepted the element."""
        accepts = re.sub(r"^\d+: (.*?)( \+)?\)$", r"\1 +)", self.element[tag])
        return next(at for at, (_, _, made) in enumerate(self.firings) if accepts in made)


def chunk(program):
    e = Explanation("chunk*1", lines_of(program, "watch 5\n" + commands_of("LEARNING.md", "evaluate*tell")))
    p = Picture(1056, 516, "From the right to the left: a result, the firings that led to it, the elements of the substate that they used, "
                "the grounds in the state above, and the chunk with a condition for each ground.")
    frame = p.box(20, 20, 256, "learning", [], "chunk*1", p.height - 40)
    p.text(frame.x + PAD, frame.line(1), "a condition for each ground")
    for x, words in ((316, "grounds"), (546, "the substate's own"), (776, "firings")):
        p.text(x + PAD, frame.line(0), words)
    firings, elements, end = draw_firings(p, e)
    result = p.box(776, end, 214, "learning", e.results, "result")
    p.arrow([result.top(), firings[-1].bottom()], NEW)
    last = draw_grounds(p, e, firings, elements)
    p.text(frame.top()[0], (last + end) / 2, "-->", anchor="middle")
    p.across(result, p.box(32, result.left()[1] - height_of(len(e.actions)) / 2, 232, "blank", e.actions), NEW)
    draw_uses(p, e, firings, elements)
    return p


def draw_firings(p, e):
    """The firings from the top down, each below the operators that it found selected, and beside elements of the substate."""
    y, firings, elements = 54, [], {}
    for title, tags, made in e.firings:
        for tag in (tag for tag in tags if tag in e.candidate_of_selected):
            elements[tag] = p.box(776, y, 178, "choice", [e.element[tag]])
            y += elements[tag].height + 28
        for at, tag in enumerate(tag for tag in tags if tag in e.own and tag not in elements):
            elements[tag] = p.box(546, y + 44 * at, 190, "plain", [e.element[tag]])
        firings.append(p.box(776, y, 214, "rule", made, title))
        y += firings[-1].height + 28
    return firings, elements, y


def draw_grounds(p, e, firings, elements):
    """The grounds in the order of their conditions, each beside what used it first; gives the end of the last."""
    end = 54
    for tag, condition in zip(e.grounds, e.conditions):
        items = [elements[item] for item, candidate in e.candidate_of_item.items() if candidate == tag]
        users = items + [box for box, (_, tags, _) in zip(firings, e.firings) if tag in tags]
        elements[tag] = p.box(316, max([end] + [box.y for box in users[:1]]), 190, "state", [e.element[tag]])
        end = elements[tag].y + elements[tag].height + 8
        p.across(elements[tag], p.box(32, elements[tag].y, 232, "blank", [condition]), NEW)
        for item in items:
            p.across(item, elements[tag])
    return end


def draw_uses(p, e, firings, elements):
    """Arrows from each firing to what it used, and from there to what made that."""
    for box, (_, tags, _) in zip(firings, e.firings):
        made = {}
        for tag in tags:
            if tag in e.candidate_of_selected:
                p.arrow([box.top(0.2), (box.top(0.2)[0], elements[tag].bottom()[1])])
                p.arrow([(box.top(0.2)[0], elements[tag].y), firings[e.maker(e.candidate_of_selected[tag])].bottom(0.2)])
            elif tag in elements:
                p.across(box, elements[tag])
            else:
                made.setdefault(e.maker(tag), []).append(tag)
        for maker, made_there in made.items():
            p.arrow([box.top(0.9), firings[maker].bottom(0.9)])
            p.text(box.top(0.9)[0] + 8, box.y - 14, " ".join(made_there))


# ---- the network

def network(program):
    lines = lines_of(program, commands_of("NETWORK.md", "sp {both") + "add-wme S1 ^size 4\nadd-wme S1 ^limit 4\nmatches\nprint S1\n")
    (size, first), (limit, second) = found(r"(\d+): (\(S1 \^(?:size|limit) 4\))", lines)
    matches = {rule: f"match: {tags}" for rule, tags in found(r"(both|free): (.*)", lines)}
    p = Picture(1040, 424, "Two elements in working memory, the two pattern memories that they fit, and four nodes with their rows: "
                "the root, a join that both rules share, a join below it, and a negation that the row of that join blocks.")
    for x, y, words in ((20, 32, "working memory"), (240, 32, "pattern memories"), (486, 32, "nodes and their rows"), (240, 378, "rules and their matches")):
        p.text(x + PAD, y, words)
    root = p.box(486, 50, 236, "plain", ["the empty row"], "0 root")
    join = p.box(486, 138, 236, "state", [f"{size}: 0 = S1, 1 = 4", "rules: both, free"], "1 join (state 0 ^size 1)")
    below = p.box(486, 242, 236, "state", [f"{size} {limit}: 0 = S1, 1 = 4", "rules: both, free"], "2 join (0 ^limit 1)")
    negation = p.box(790, 234, 230, "choice", [
        "rows of node 1 with which", "no row of node 2 begins:", f"none: {size} {limit} begins with {size}"], "3 negation")
    for node, tag, triple, pattern in ((join, size, first, "state, ^size"), (below, limit, second, "^limit")):
        middle = node.left()[1]
        element = p.box(20, middle - height_of(1) / 2, 170, "blank", [f"{tag}: {triple}"])
        memory = p.box(240, middle - height_of(2) / 2, 190, "plain", [f"members: {tag}"], pattern)
        p.arrow([element.right(), memory.left()])
        p.arrow([memory.right(), node.left()])
    for node, rule in ((below, "both"), (negation, "free")):
        p.arrow([node.bottom(), p.box(node.x, 352, node.width, "rule", [matches.get(rule, "no match")], rule, centred=True).top()])
    p.arrow([root.bottom(), join.top()])
    p.arrow([join.bottom(), below.top()])
    p.arrow([join.right(), (negation.top()[0], join.right()[1]), negation.top()])
    p.arrow([below.right(), negation.left()], dashed=True)
    p.text((below.right()[0] + negation.x) / 2, below.right()[1] - 12, "inside", QUIET, "middle")
    return p


# ---- the files

PICTURES = {"overview.svg": overview, "cycle.svg": cycle, "goals.svg": goals, "chunk.svg": chunk, "network.svg": network}


def main(words):
    checks = words[:1] == ["--check"]
    names = words[1:] if checks else words
    if len(names) > 1 or any(name.startswith("-") for name in names):
        sys.exit("usage: docs/pictures.py [--check] [PROGRAM]")
    program = str(pathlib.Path(names[0]).resolve()) if names else str(TOP / "soar_app")
    FOLDER.mkdir(exist_ok=True)
    wrong = [f"docs/pictures.py does not draw {file.name}" for file in sorted(FOLDER.iterdir()) if file.name not in PICTURES]
    for name, draw in PICTURES.items():
        file, text = FOLDER / name, draw(program).svg()
        if not checks:
            file.write_text(text, encoding="utf-8")
        elif not file.exists() or file.read_text(encoding="utf-8") != text:
            wrong.append(f"{name} is not as docs/pictures.py draws it")
    print("".join(line + "\n" for line in wrong), end="")
    return 1 if wrong else 0


if __name__ == "__main__":
    sys.exit(main(sys.argv[1:]))
