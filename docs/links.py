#!/usr/bin/env python3
"""Says which links of README.md and of the pages below docs/ lead nowhere: to no file, or to no heading of a page.

The status is 1 where there is one."""
import pathlib
import re
import sys

TOP = pathlib.Path(__file__).resolve().parent.parent


def headings(page):
    """The names of the headings of a page, as links write them."""
    found = re.findall(r"^#+ (.*)$", page.read_text(encoding="utf-8"), re.MULTILINE)
    return {re.sub(r"[^\w\- ]", "", heading.lower()).replace(" ", "-") for heading in found}


def leads_somewhere(page, link):
    """Whether a link of a page names a file, and a heading of it where it names one."""
    name, _, heading = link.partition("#")
    target = page.parent / name if name else page
    return target.exists() and (not heading or target.suffix != ".md" or heading in headings(target))


wrong = 0
for page in [TOP / "README.md", *sorted((TOP / "docs").rglob("*.md"))]:
    for number, line in enumerate(page.read_text(encoding="utf-8").split("\n"), 1):
        for link in re.findall(r"\]\(([^)\s]+)\)", line):
            if not link.startswith("http") and not leads_somewhere(page, link):
                wrong += 1
                print(f"{page.relative_to(TOP)}:{number}: leads nowhere: {link}")
sys.exit(1 if wrong else 0)
