"""`why NAME`: how far the conditions of a production match, and what is in the way."""

from difflib import get_close_matches

from .matcher import EMPTY, TooManyRows, conditions_of, extend, rows_after, rows_from
from .nearness import nearest
from .productions import NoProduction, Variable, read_production

SHOWN = 5
CLOSE = 0.6


def why_lines(text, memory):
    """Returns what `why` writes of a production in its printed form."""
    try:
        conditions = conditions_of(read_production(text), text)
    except NoProduction:
        return text.splitlines()
    counts, rows, before, first = [], [EMPTY], [EMPTY], None
    for place, condition in enumerate(conditions):
        before = rows if rows else before
        try:
            rows = rows_after(condition, rows, memory)
        except TooManyRows as beyond:
            return count_lines(conditions, counts + [f"over {beyond.args[0]}"], None)
        counts.append(len(rows))
        if not rows and first is None:
            first = place
    lines = count_lines(conditions, counts, first)
    if first is None:
        return lines + [fit_line(rows)]
    return lines + obstacle_lines(conditions[first], before, memory)


def fit_line(rows):
    if len(rows) == 1:
        return "it fits once: " + " ".join(str(tag) for tag in rows[0].tags)
    return f"it fits {len(rows)} times; `matches NAME` lists the tags"


def count_lines(conditions, counts, first):
    """Returns a line for each counted prefix of the conditions; marks the first prefix without a match."""
    width = max(6, *(len(str(count)) for count in counts))
    return [f"{count:>{width}}  {condition.text}{'   <-- none from here on' if place == first else ''}"
            for place, (condition, count) in enumerate(zip(conditions, counts))]


def obstacle_lines(condition, rows, memory):
    """Returns what keeps a condition from matching after the rows of the conditions before it."""
    known = f", where {bindings_text(condition, rows[0])}" if len(rows) == 1 and bindings_text(condition, rows[0]) else ""
    if condition.negated:
        return [f"in the way of {condition.text}{known}:"] + blocking_lines(condition, rows, memory)
    found = nearest(condition.pattern, rows, memory)
    if not found:
        return [f"no element fails one test alone of {condition.text}{known}"] + attribute_lines(condition.pattern, memory)
    shown = [near for near in found if near.failure.closeness >= CLOSE][:SHOWN] or found[:SHOWN]
    width = max(len(near.element.line()) for near in shown)
    lines = [f"nearest to {condition.text}{known}:"]
    lines += [f"  {near.element.line():<{width}}  {near.failure.text}" for near in shown]
    return lines + more_lines(len(found) - len(shown))


def more_lines(count):
    return [f"  and {count} more"] if count > 0 else []


def bindings_text(condition, row):
    """Returns what the variables of a condition stand for in a row."""
    names = [name for name in row.bindings if name in condition.text]
    return ", ".join(f"{name} is {row.bindings[name]}" for name in names)


def blocking_lines(condition, rows, memory):
    """Returns the elements that a negation asks to be missing."""
    found = []
    for row in rows:
        start = row._replace(tags=())
        inside = rows_from(condition.inside, (start,), memory) if condition.pattern is None else extend(condition.pattern, start, memory)
        found += [blocker.tags for blocker in inside if blocker.tags not in found]
        if len(found) > SHOWN:
            break
    lines = {element.tag: element.line() for element in memory.elements}
    return ["  " + ", ".join(lines[tag] for tag in tags) for tags in found[:SHOWN]] + more_lines(len(found) - SHOWN)


def attribute_lines(pattern, memory):
    """Returns a line if no element has the attribute that a pattern names."""
    constants = [test.operands[0] for test in pattern.attr if test.relation == "" and not isinstance(test.operands[0], Variable)]
    missing = [attr for attr in constants if not memory.select(attr=attr)]
    return [f"  no element has the attribute {attr}{likeness(attr, memory)}" for attr in missing]


def likeness(attr, memory):
    like = get_close_matches(str(attr), {str(other) for other in memory.of_attr}, 1)
    return f", and {like[0]} is like it" if like else ""
