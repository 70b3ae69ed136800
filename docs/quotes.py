#!/usr/bin/env python3
"""Says which quoted lines of docs/proofs and docs/CONTRIBUTING.md are no lines of their file any more.

A fenced block without a language quotes the file below crates/ that was named last before it. The status is 1 where a line is not there."""
import pathlib
import re
import sys

TOP = pathlib.Path(__file__).resolve().parent.parent
wrong = 0
for page in [*sorted((TOP / "docs/proofs").glob("*.md")), TOP / "docs/CONTRIBUTING.md"]:
    file, inside, language = None, False, ""
    for number, line in enumerate(page.read_text(encoding="utf-8").split("\n"), 1):
        if line.startswith("```"):
            inside, language = not inside, line[3:]
        elif not inside:
            for path in re.findall(r"`(crates/[\w/+.-]+\.\w+)`", line):
                file = TOP / path
                if not file.exists():
                    wrong += 1
                    print(f"{page.relative_to(TOP)}:{number}: no file {path}")
        elif not language and file and file.exists() and line.strip():
            if line.strip() not in {other.strip() for other in file.read_text(encoding="utf-8").split("\n")}:
                wrong += 1
                print(f"{page.relative_to(TOP)}:{number}: not in {file.relative_to(TOP)}: {line.strip()}")
sys.exit(1 if wrong else 0)
