#!/usr/bin/env python3
"""Lists the places of docs/DESIGN-PASS.md in the sources of a tree: python3 tools/places.py [-l] [TREE]

Each search gives candidates, one to a line with -l, and their count; which of them are places is told in that page.
"""
import difflib
import itertools
import pathlib
import re
import sys
from collections import defaultdict

LISTED = "-l" in sys.argv
TREE = pathlib.Path(next((a for a in sys.argv[1:] if a != "-l"), "."))


def sources():
    for path in sorted(TREE.glob("crates/*/src/**/*.rt")):
        lines = [re.sub(r"\s*//.*", "", line) for line in path.read_text().split("\n")]
        yield str(path.relative_to(TREE)), lines


def functions():
    """(place, name, parameters, clauses, body) of each function."""
    for path, lines in sources():
        at = 0
        while at < len(lines):
            head = re.match(r"(\s*)(?:pub(?:\([a-z]+\))? )?(?:extern \"C\" )?fn (\w+)", lines[at])
            if not head:
                at += 1
                continue
            start, indent = at, head[1]
            opened = False
            while at < len(lines):
                line = lines[at].rstrip()
                opened = opened or line.endswith("{")
                if line.endswith("{}") or (not opened and line.endswith(";")) or (opened and line == indent + "}"):
                    break
                at += 1
            text = lines[start:at + 1]
            opens = next((i for i, line in enumerate(text) if re.match(r"\s*\{", line) or line.rstrip().endswith("{")), len(text) - 1)
            clauses = [line.strip() for line in text[:opens + 1] if re.match(r"\s*(requires|ensures)\b", line)]
            signature = " ".join(line.strip() for line in text[:opens + 1] if not re.match(r"\s*(requires|ensures)\b", line))
            inside = re.search(r"\w\s*(?:<[^(]*>)?\((.*?)\)\s*(?:->|\{|$|where)", signature)
            parameters = re.findall(r"(\w+): ([^,()]+(?:\([^)]*\))?)", inside[1]) if inside else []
            yield f"{path}:{start + 1}", head[2], parameters, clauses, [line.strip() for line in text[opens + 1:-1] if line.strip()]
            at += 1


def lines_with(pattern):
    for path, lines in sources():
        for number, line in enumerate(lines):
            if re.search(pattern, line):
                yield f"{path}:{number + 1}: {line.strip()}"


def twins(least=0.75, lines=3):
    """Pairs of functions whose bodies are alike, names of types and sizes aside."""
    def words(body):
        return re.findall(r"\w+|[^\w\s]", " ".join(body))
    known = [(place, name, words(body)) for place, name, _, _, body in functions() if len(body) >= lines]
    for (p, n, a), (q, m, b) in itertools.combinations(known, 2):
        match = difflib.SequenceMatcher(None, a, b, autojunk=False)
        if match.real_quick_ratio() >= least and match.quick_ratio() >= least and match.ratio() >= least:
            yield f"{p} {n} ~ {q} {m} ({match.ratio():.2f})"


def repeated_facts(least=3):
    """Facts that stand in the clauses of three or more functions."""
    where = defaultdict(set)
    for place, name, _, clauses, _ in functions():
        for clause in clauses:
            fact = re.search(r"\{(.*)\}", clause)
            if not fact:
                continue
            for part in re.split(r" × ", fact[1]):
                part = re.sub(r"^\s*\(?|\)?\s*$", "", part.strip())
                part = re.sub(r"\.(now|old|new|entry)\b", "", part)
                if len(part) > 12:
                    where[(clause.split()[0], part)].add(f"{place} {name}")
    for (kind, fact), places in sorted(where.items()):
        if len(places) >= least:
            yield f"{kind} {fact}: {len(places)} functions: {', '.join(sorted(places))}"


def travelling(least=3):
    """Pairs of parameters of the same names and types that three or more functions take."""
    where = defaultdict(set)
    for place, name, parameters, _, _ in functions():
        for pair in itertools.combinations(sorted(parameters), 2):
            where[pair].add(f"{place} {name}")
    for pair, places in sorted(where.items()):
        if len(places) >= least:
            yield f"{', '.join(f'{n}: {t}' for n, t in pair)}: {len(places)} functions: {', '.join(sorted(places))}"


def several_facts():
    """Clauses that hold two or more facts."""
    for place, name, _, clauses, _ in functions():
        for clause in clauses:
            if " × " in clause:
                yield f"{place} {name}: {clause}"


def proofs():
    for path in sorted(TREE.glob("crates/*/proofs/**/*.antt")):
        yield f"{path.relative_to(TREE)}: {len(path.read_text().splitlines())}"


SEARCHES = [
    ("1 enums", lambda: lines_with(r"\benum ")),
    ("1 flags", lambda: lines_with(r"^\s*(pub(\(\w+\))? )?\w+: bool,")),
    ("1 numbers", lambda: lines_with(r"=> \d+,|Result<[^<>]*, u(8|16|32|64)>|const NO_")),
    ("2 twins", twins),
    ("3 index loops", lambda: lines_with(r"for \w+ in .*\.\.|\bwhile\b|[-+]= 1;")),
    ("4 printing", lambda: lines_with(r"\bformat!|push_str|\bwrite!|-> Result<String|from_str\(heap")),
    ("4 conversions", lambda: lines_with(r"\bfn (new|of|bits|number|number8|number16|written|read|same_\w+|to_\w+|into_\w+|from_\w+|eq|cmp|clone)\b.*[{;]?$|Err\(_\) => (Err|return)|Ok\((\w+)\) => Ok\(\3\)")),
    ("5 repeated facts", repeated_facts),
    ("5 parameters together", travelling),
    ("5 several facts in a clause", several_facts),
    ("6 arrays and lengths", lambda: lines_with(r"^\s*(pub(\(\w+\))? )?\w+: (&mut |&)?\[[^\]]*; |: (&mut |&)?\[\[?u\d+; \d+|^\s*(count|len|places): ")),
    ("7 switches and steps", lambda: lines_with(r"\btrait \w+|\bdyn |\bFn(Once|Mut)?\(|match (rule|tests\.count|self\.\w+\(\)|letters\(|command|question)\b")),
    ("8 files of proof", proofs),
]

for title, search in SEARCHES:
    found = list(search())
    total = f", {sum(int(line.rsplit(': ', 1)[1]) for line in found)} lines" if title.startswith("8") else ""
    print(f"{title}: {len(found)}{total}")
    if LISTED and not title.startswith("8"):
        for line in found:
            print(f"    {line}")
