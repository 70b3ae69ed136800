"""Checks of one command: whether this program has it, in this form."""
import re

from . import recipes
from .rule_checks import RuleChecks


def check_command(source, command):
    """Returns the findings of a command, and the checks of its production, if it loads one."""
    if command.open:
        return [source.finding(command.start, "unfinished", f"a {command.open} is never closed", "Close it")], None
    if command.name == "sp" and len(command.words) == 2 and (command.words[1].is_braced or command.words[1].is_quoted):
        checks = RuleChecks(source, command.words[1])
        return checks.findings, checks
    if command.name == "sp":
        return [source.finding(command.start, "form", "`sp` has another form", "Use `sp {NAME ..}`")], None
    return list(word_findings(source, command)), None


def word_findings(source, command):
    """Yields the findings of a command that loads no production."""
    name = recipes.ALIASES.get(command.name, command.name)
    if name not in recipes.FORMS:
        why, recipe = recipes.command_finding(name)
        yield source.finding(command.start, "command", why, recipe)
        return
    form, recipe = recipes.FORMS[name]
    written = " ".join(word.written for word in command.words[1:])
    if name != command.name:
        yield source.finding(command.start, "command", f"`{command.name}` is no command", recipe)
    elif not re.fullmatch(form, written):
        yield source.finding(command.start, "form", f"`{name}` has another form", recipe)
    for word in command.words[1:]:
        if re.fullmatch(r"[+-]?\d*\.\d+(?:[eE][+-]?\d+)?|[+-]?\d+[eE][+-]?\d+", word.written):
            yield source.finding(word.offset, "float", f"{word.written} is no integer", "Scale to whole numbers")
