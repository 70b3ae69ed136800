#!/usr/bin/env python3
"""Counts faults of English that a script can see.

    docs/english.py            names each fault of the pages; names a count that is above that of docs/english.txt
    docs/english.py PATH ..    names each fault of these pages and of the doc comments in these files and folders
    docs/english.py --write    writes the present counts into docs/english.txt

The pages have no fault. Doc comments, and the pages of the crates, have at most as many as docs/english.txt says;
after a change that removes some, run --write. The status is 1 if a page has a fault or a count is too high.

Each rule is exact rather than complete: what it finds is a fault. A sentence that no rule finds may still be bad.
"""

import re
import sys
from pathlib import Path

TOP = Path(__file__).resolve().parent.parent
LIMITS = TOP / "docs/english.txt"
PAGES = ["README.md", "docs/**/*.md", "examples/*/README.md", "tools/*.md", "tools/*.1", "edits/README.md"]
COUNTED = ["crates/*/src/**/*.rt", "crates/*/README.md"]

MOST_WORDS = 25  # of a sentence
MOST_IN_CELL = 50  # words of a cell of a table
MOST_PASSIVES = 3  # of a sentence
MOST_RELATIVES = 2  # one inside another

CODE = "\N{CURRENCY SIGN}"  # stands for a piece of code in a sentence
IRREGULAR = ("begun bound bought brought built caught chosen cut done drawn driven fed found forgotten given grown held hidden"
             " hung kept known laid led left lent let lost made meant met paid proven put read run said seen sent set shown"
             " shut sought spent split spread sworn taken taught thrown told undone won worn written")
ADVERBS = r"(?: (?:not|never|also|only|then|still|already|once|always|just|all|so|again|no longer|[a-z]+ly))*"
PASSIVE = re.compile(rf"\b(?:is|are|was|were|be|been|being){ADVERBS} (?:[a-z]+[^e\W]ed|{IRREGULAR.replace(' ', '|')})\b")
RELATIVE = re.compile(r"\b(?<!than )(?:that|which|who|whose|whom)\b(?! of\b)")
STOP = r"(?!(?:and|or|but|so|if|as|since|because|although|when|while|until|than)\b)"  # where a new clause begins

# What a rule finds in a sentence, and what to write.
TURNS = [(re.compile(pattern), advice) for pattern, advice in [
    (r"\b(?:is|are|was|were|be|been) so\b(?! \w+ that\b)|\b(?:do|does|did|done|doing) so\b", "say what holds, or what is done"),
    (r"\b[Tt]old\b", "print, report, know, compute or pass"),
    (r"\b[Tt]ells? (?:what|which|whether|how|that|of|where|why)\b(?! from\b)", "print, report, return or show"),
    (r"\b[Oo]f it\b", "name the thing"),
    (r"\b[Oo]f which\b", "whose, or two sentences"),
    (r"\b[Ss]o many\b(?! that\b)", "name the number"),
    (r"\b[Ww]ant of (?:memory|words|room|space)\b|\bmemory (?:is|was) wanting\b|\bwants? memory\b", "out of memory"),
    (r"\btak(?:e|es|ing) (?:no|any|some|more) memory\b|\btak(?:e|es|ing) memory\b", "does not allocate, allocates"),
    (r"\b(?:a|the|its|their|longest|this|such) fronts?\b(?! end\b)|\bfronts? of\b|\bin front\b", "prefix, or before"),
    (rf"\bbehind (?:{CODE}|them\b|that\b|those\b|the (?:last|first|others|word|name|arrow)\b|all (?:others|that)\b)", "after"),
    (r"\b(?<!thing )(?<!one )(?<!body )(?<!where )(?<!all )(?<!what )(?<!ever )(?<!who )[Ee]lse\b", "otherwise"),
    (r"\b(?i:exactly|only|just|also|except|even|but|as) where\b(?! to\b)", "if"),
    (r"^Where (?:there|no|none|nothing|one|this|that|it|both|each|several|more|an?|neither|all|some) [^?]*[,:]", "if"),
    (r"\b[Ll]et(?:s|ting)? go(?: of)?\b", "free, remove or drop"),
    (r"\b(?:is|are) no more\b(?! than\b| \w+ than\b)", "is not there any more"),
    (r"\b(?:can|could|does|may|did)(?:not| not)? come about\b|\bcomes about\b|\bcame about\b", "happen"),
    (r"\b(?:what|that|which) (?:is|are|was|were) no (?!longer|more|better|worse|less)[a-z]+", "is not a"),
    (rf"\b[Ii]t (?:is|was) (?:only |just |not )?(?:here|there|then|by|for|in|on|at|from|with|through|because|when)"
     rf"(?: {STOP}[\w'{CODE}-]+){{1,4}} that\b", "begin with the subject"),
    (r"\b[Ii]t (?:is|was) (?:not )?(?:true|clear|known|said|seen|shown|proved|possible|likely|certain|important) that\b",
     "leave it out"),
    (r"^(?:Needed|Wanted|Dropped|Pending|Known|Given|Added|Missing|Kept|Counted|Measured|Tried|Proved|Looked at|Left)"
     r" (?:is|are|was|were)\b", "begin with the subject"),
    (r"^(?:Nor|Neither) (?:does|do|did|is|are|was|were|has|have|can|may)\b|^The same (?:with|for|of|holds)\b"
     r"|^So (?:does|do|did|is|are|was|were|has|have)\b", "name the thing again"),
    (rf"\b(?:no|not|never|nothing|nobody|none|cannot)\b(?: {STOP}[\w'{CODE}-]+){{0,6}} (?:not|never)\b(?! only\b)"
     r"|\b(?:not|never) without\b|\bnot that no\b", "say it without two negations"),
]]

VERB = re.compile(r"[A-Z][a-z]+s,?$")
NO_VERB = {"This", "Its", "As", "These", "Those", "Always", "Perhaps", "Rules", "Rows", "Goals", "Firings", "Triples", "Symbols",
           "Preferences", "Conditions", "Identifiers", "Constants", "Variables", "Elements", "Bytes", "Operands", "Patterns", "Words"}


class Piece:
    """A paragraph, an item, a heading or a cell: its place, its text, and whether phrases are enough in it."""

    def __init__(self, path, line, text, phrases=False):
        self.path, self.line, self.text, self.phrases = path, line, text, phrases

    def sentences(self):
        text = re.sub(r"``.+?``|`[^`]+`", CODE, self.text)
        text = re.sub(r"!?\[([^\]]*)\]\([^)]*\)", r"\1", text).replace("*", "")
        parts = re.split(rf"(?<=[.!?:])[\"')]*\s+(?=[\"'(]*(?:[A-Z]|{CODE}))|;\s+" if self.phrases
                         else rf"(?<=[.!?])[\"')]*\s+(?=[\"'(]*(?:[A-Z]|{CODE}|\d))", text)
        return [part.strip() for part in parts if part.strip()]


def count_words(sentence):
    """Counts words; a list of pieces of code is one."""
    sentence = re.sub(rf"{CODE}(?:\s*(?:,|and|or|to)\s*{CODE})+", CODE, sentence)
    return sum(1 for word in sentence.split() if re.search(rf"\w|{CODE}", word))


def marked_pieces(path, lines, first=1):
    """The pieces of a text in Markdown, without its blocks of code."""
    found, paragraph, start, fenced = [], [], first, False

    def end():
        if paragraph:
            found.append(Piece(path, start, " ".join(paragraph)))
        paragraph.clear()

    for number, line in enumerate(lines, first):
        text = line.strip()
        if text.startswith("```"):
            end()
            fenced = not fenced
        elif fenced:
            continue
        elif text.startswith("|"):
            end()
            cells = re.split(r"(?<!\\)\|", text)[1:-1]
            found += [Piece(path, number, cell.strip(), True) for cell in cells if re.search(r"\w", cell)]
        elif not text or text.startswith("#"):
            end()
            if text:
                found.append(Piece(path, number, text.lstrip("# "), True))
        else:
            item = re.match(r"(?:[-*]|\d+\.)\s+", text)
            if item:
                end()
            start = start if paragraph else number
            paragraph.append(text[item.end():] if item else text)
    end()
    return found


def manual_pieces(path):
    """The pieces of a page of the manual: runs of lines without a macro that begins something new."""
    found, run, start, literal = [], [], 0, False
    for number, line in enumerate(path.read_text(encoding="utf-8").split("\n") + [".Pp"], 1):
        macro = line.split(None, 1)[0] if line.startswith(".") else ""
        if macro in (".Bd", ".Ed"):
            literal = macro == ".Bd"
        if macro in (".Ar", ".Sy", ".Sq", ".Fl", ".Cm", ".Ic", ".Nm", ".Pa", ".Xr"):
            run.append("`x`" + ("." if line.endswith((".", " .")) else ""))
        elif macro or literal:
            if run:
                found.append(Piece(path, start, " ".join(run)))
            run = []
        elif line:
            start = start if run else number
            run.append(line)
    return found


def source_pieces(path):
    """The pieces of the doc comments of a source, and the faults of how those of functions begin."""
    lines, found, faults, place = path.read_text(encoding="utf-8").split("\n"), [], [], 0
    while place < len(lines):
        begin = place
        while place < len(lines) and re.match(r"\s*//[/!]", lines[place]):
            place += 1
        if place == begin:
            place += 1
            continue
        texts = [re.sub(r"^\s*//[/!] ?", "", line) for line in lines[begin:place]]
        found += marked_pieces(path, texts, begin + 1)
        marks = place
        while marks < len(lines) and re.match(r"\s*#\[", lines[marks]):
            marks += 1
        is_test = any("#[test]" in line for line in lines[place:marks])
        first = texts[0].split()[0] if texts[0].strip() else ""
        if re.match(r"\s*(?:pub(?:\([a-z]+\))? )?(?:const )?fn ", lines[marks]) and not is_test:
            if not VERB.match(first) or first.rstrip(",") in NO_VERB:
                faults.append((path, begin + 1, f"begin with what it does: {texts[0][:60]}"))
    return found, faults


def faults_of_sentence(sentence, phrases):
    """What is wrong with a sentence."""
    found = []
    count = count_words(sentence)
    if count > MOST_WORDS:
        found.append(f"{count} words, make two sentences: {sentence[:60]} ..")
    if len(PASSIVE.findall(sentence)) > MOST_PASSIVES:
        found.append(f"many passives, name who does it: {sentence[:60]} ..")
    clauses = re.split(r"[,;:()]| (?:and|or|but) ", sentence)
    if any(len(RELATIVE.findall(clause)) > MOST_RELATIVES for clause in clauses):
        found.append(f"clauses inside clauses: {sentence[:60]} ..")
    for pattern, advice in TURNS:
        for match in pattern.finditer(sentence):
            around = sentence[max(0, match.start() - 20):match.end() + 20]
            found.append(f"{advice}: .. {around} ..")
    return found


def faults_of(path):
    """The faults of a file, each with its path and line."""
    found = []
    if path.suffix == ".rt":
        pieces, found = source_pieces(path)
    elif path.suffix == ".1":
        pieces = manual_pieces(path)
    else:
        pieces = marked_pieces(path, path.read_text(encoding="utf-8").split("\n"))
    for piece in pieces:
        sentences = piece.sentences()
        if piece.phrases and sum(map(count_words, sentences)) > MOST_IN_CELL:
            found.append((path, piece.line, f"a paragraph in a table: {sentences[0][:60]} .."))
        for sentence in sentences:
            found += [(path, piece.line, fault) for fault in faults_of_sentence(sentence, piece.phrases)]
    return found


def files_of(patterns):
    """The files of the repository that patterns name, in order."""
    return sorted({path for pattern in patterns for path in TOP.glob(pattern)})


def faults_in(paths):
    return [fault for path in paths for fault in faults_of(path)]


def counts():
    """The present count for each pattern of COUNTED."""
    return {pattern: len(faults_in(files_of([pattern]))) for pattern in COUNTED}


def limits():
    """The counts of docs/english.txt."""
    lines = LIMITS.read_text(encoding="utf-8").splitlines() if LIMITS.exists() else []
    return {pattern: int(count) for pattern, count in (line.split() for line in lines)}


def named_files(words):
    """The pages and sources that words name: files, and those in folders."""
    found = []
    for path in (Path(word).resolve() for word in words):
        found += sorted(file for end in ("md", "rt", "1") for file in path.rglob(f"*.{end}")) if path.is_dir() else [path]
    return found


def shown(path):
    """The path of a file as it is printed: from the top of the repository."""
    return path.relative_to(TOP) if path.is_relative_to(TOP) else path


def main(words):
    if words == ["--write"]:
        LIMITS.write_text("".join(f"{pattern} {count}\n" for pattern, count in counts().items()), encoding="utf-8")
        return 0
    faults = faults_in(named_files(words) if words else files_of(PAGES))
    for path, line, text in faults:
        print(f"{shown(path)}:{line}: {text.replace(CODE, '`..`')}")
    allowed = limits()
    high = [] if words else [(pattern, count) for pattern, count in counts().items() if count > allowed.get(pattern, 0)]
    for pattern, count in high:
        print(f"{pattern}: {count} faults of English, and docs/english.txt allows {allowed.get(pattern, 0)}")
    return 1 if faults or high else 0


if __name__ == "__main__":
    sys.exit(main(sys.argv[1:]))
