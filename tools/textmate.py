"""Scopes that a TextMate grammar gives to the bytes of a text, as editors find them: of the end of the rule at hand and
of its patterns the first match on the line, and of several that begin at one place the first in this order."""
import json
import re


class Grammar:
    def __init__(self, path):
        self.rules = json.load(open(path, encoding="utf-8"))
        self.compiled = {}

    def regex(self, source):
        if source not in self.compiled:
            self.compiled[source] = re.compile(source)
        return self.compiled[source]

    def flat(self, patterns):
        """The rules that patterns come to, once what they include is put in."""
        for rule in patterns:
            if "include" in rule:
                yield from self.flat([self.rules["repository"][rule["include"][1:]]])
            elif "match" in rule or "begin" in rule:
                yield rule
            else:
                yield from self.flat(rule["patterns"])

    def all_regexes(self):
        """Each regular expression of the grammar."""
        def walk(value):
            if isinstance(value, dict):
                for key, inner in value.items():
                    if key in ("match", "begin", "end"):
                        yield inner
                    else:
                        yield from walk(inner)
            elif isinstance(value, list):
                for inner in value:
                    yield from walk(inner)
        return list(walk(self.rules))

    def scopes(self, text):
        """For each line, for each byte the scopes that it is in, the innermost last."""
        stack, lines = [], []
        for line in text.split("\n"):
            marks = [None] * len(line)
            stack = self.take_line(line, stack, marks)
            lines.append(marks)
        return lines

    def take_line(self, line, stack, marks):
        place, begun_here = 0, set()
        while True:
            found, rule = self.next_match(line, place, stack)
            if found is None:
                self.mark(marks, place, len(line), stack, [])
                return stack
            self.mark(marks, place, found.start(), stack, [])
            if rule is None:
                ended, stack = stack[-1], stack[:-1]
                self.capture(line, marks, found, ended.get("endCaptures", {}), stack, ended)
            elif "match" in rule:
                self.capture(line, marks, found, rule.get("captures", {}), stack, rule)
            else:
                stack = stack + [rule]
                self.capture(line, marks, found, rule.get("beginCaptures", {}), stack[:-1], rule)
            if found.end() == place == found.start():
                # Nothing was taken: the same rule must not begin or end here again and again.
                if (place, len(stack)) in begun_here:
                    raise ValueError(f"the grammar does not go on at {place} of {line!r}")
                begun_here.add((place, len(stack)))
            place = found.end()

    def next_match(self, line, place, stack):
        patterns = stack[-1].get("patterns", []) if stack else self.rules["patterns"]
        choices = [(None, self.regex(stack[-1]["end"]))] if stack else []
        choices += [(rule, self.regex(rule.get("match", rule.get("begin")))) for rule in self.flat(patterns)]
        best, chosen = None, None
        for rule, regex in choices:
            found = regex.search(line, place)
            if found and (best is None or found.start() < best.start()):
                best, chosen = found, rule
        return best, chosen

    def mark(self, marks, start, end, stack, more):
        names = [rule["name"] for rule in stack if "name" in rule] + more
        for at in range(start, end):
            marks[at] = names

    def capture(self, line, marks, found, captures, stack, rule):
        own = [rule["name"]] if "name" in rule else []
        self.mark(marks, found.start(), found.end(), stack, own)
        for number, capture in sorted(captures.items(), key=lambda item: int(item[0])):
            start, end = found.span(int(number))
            if start < 0:
                continue
            names = own + ([capture["name"]] if "name" in capture else [])
            self.mark(marks, start, end, stack, names)
            place = start
            while "patterns" in capture and place < end:
                inner, inside = None, None
                for rule_inside in self.flat(capture["patterns"]):
                    hit = self.regex(rule_inside["match"]).search(line, place, end)
                    if hit and (inner is None or hit.start() < inner.start()):
                        inner, inside = hit, rule_inside
                if inner is None or inner.end() == inner.start():
                    break
                self.mark(marks, inner.start(), inner.end(), stack, names + [inside["name"]])
                place = inner.end()
