#!/usr/bin/env python3
"""Counts what makes contracts long: prints the figures that docs/FIGURES.md keeps. With -v it names the places."""
import re
import sys
from collections import defaultdict
from pathlib import Path

TOP = Path(__file__).resolve().parents[2]
WIDE, MANY = 100, 12
VERBOSE = "-v" in sys.argv
CLAUSE = re.compile(r"^\s*(?:requires|ensures\*?)\b")
FUNCTION = re.compile(r"(?:^|\s)fn (\w+)")
DEFINITION = re.compile(r"(?:(?:abbrev|unfoldable) pub|pub (?:record|data)) ([\w'-]+)")


def tell(name, places):
    print(f"{len(places):5}  {name}")
    if VERBOSE:
        for place in places:
            print("          " + place)


def sources():
    return sorted((TOP / "crates").glob("*/src/**/*.rt"))


def premises():
    """Clauses that begin with the premise that the disk tells its content."""
    return [f"{p.relative_to(TOP)}:{i}" for p in sources() for i, line in enumerate(p.read_text().splitlines(), 1)
            if re.search(r"(?:requires|ensures)\b[^{]*\{ IsTrue \(D\.honest", line)]


def crowded():
    """Functions with more clauses than a reader can hold."""
    found, counts = [], defaultdict(int)
    for path in sources():
        name = ""
        for line in path.read_text().splitlines():
            function = FUNCTION.search(line)
            name = function.group(1) if function else name
            if re.match(r"\s*ensures\b", line):
                counts[(path, name)] += 1
                if counts[(path, name)] == MANY + 1:
                    found.append(f"{path.relative_to(TOP)} {name}")
    return found


def wide():
    """Lines of contracts over the width."""
    found = []
    for path in sources():
        depth = 0
        for i, line in enumerate(path.read_text().splitlines(), 1):
            if depth > 0 or CLAUSE.match(line):
                if len(line) > WIDE:
                    found.append(f"{path.relative_to(TOP)}:{i}")
                depth = max(0, depth + line.count("{") - line.count("}"))
    return found


def doubled():
    """Words of specs/ and public types that more than one place defines."""
    places = defaultdict(list)
    for path in sorted((TOP / "crates").glob("*/specs/*.antt")):
        for line in path.read_text().splitlines():
            word = DEFINITION.match(line)
            if word:
                places[word.group(1)].append(f"{path.parts[-3]}/{path.stem}")
    for path in sources():
        for line in path.read_text().splitlines():
            word = re.match(r"\s*pub (?:struct|enum|trait) (\w+)", line)
            if word and "tests" not in path.parts:
                places[word.group(1)].append(f"{path.relative_to(TOP / 'crates')}")
    return [f"{word}: {', '.join(found)}" for word, found in sorted(places.items()) if len(found) > 1]


def lawful():
    """Requirements that a type could carry."""
    return [f"{p.relative_to(TOP)}:{i}" for p in sources() for i, line in enumerate(p.read_text().splitlines(), 1)
            if re.search(r"requires\b.*(?:is_shape|IsDims|half < 2)", line)]


def main():
    tell("clauses whose premise is that the disk tells its content", premises())
    tell(f"functions with more than {MANY} ensures", crowded())
    tell(f"lines of contracts over {WIDE} columns", wide())
    tell("words of specs and types with more than one meaning", doubled())
    tell("requirements of a lawful shape, of lawful dimensions or of one of two halves", lawful())
    tell("must-fail edits", [str(p.relative_to(TOP)) for p in sorted((TOP / "crates").glob("*/must-fail/*.edit"))])
    tell("ensures", [f"{p.relative_to(TOP)}:{i}" for p in sources() for i, line in enumerate(p.read_text().splitlines(), 1)
                     if re.match(r"\s*ensures\b", line)] if not VERBOSE else [])


main()
