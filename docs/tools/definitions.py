#!/usr/bin/env python3
"""Writes docs/DEFINITIONS.md from the lines above the definitions of specs/. With --check it compares instead.

Each definition of a crate's specs/ has one line above it that says it; each file begins with a line that says what its
definitions are about. "Cited by" names the functions whose contracts use the word, and the definitions that do.
"""
import re
import sys
from pathlib import Path

TOP = Path(__file__).resolve().parents[2]
PAGE = TOP / "docs" / "DEFINITIONS.md"
MOST_CITERS = 4
INTRO = """# Definitions

The words that contracts use, crate by crate, lowest first. This page is made by `docs/tools/definitions.py` from the line above each definition, and the gate
compares it. A definition stands in the lowest crate that needs it, in a file of its `specs/` folder. What code does is not said here: these are sets,
relations and tables. `docs/GLOSSARY.md` has the words of the field beside ours, `docs/HEADLINE.md` the words of the top call's contract,
and `docs/SLIPS.md` what refuses a slip in a definition.
"""
DEFINITION = re.compile(r"(?:(?:abbrev|unfoldable) pub|pub (?:record|data)) ([\w'-]+)")
FUNCTION = re.compile(r"^\s*(?:pub(?:\(\w+\))? )?(?:const )?fn (\w+)")
CLAUSE = re.compile(r"^\s*(?:requires|ensures\*?|ghost)\b")


def crates():
    lines = (TOP / "crates.txt").read_text().splitlines()
    return [re.match(r"\w+", line).group(0) for line in lines if line and not line.startswith("#")]


def definitions(path):
    """The words of a file of specs/ with their sentences and their texts, in order."""
    found, above = [], ""
    for line in path.read_text().splitlines():
        word = DEFINITION.match(line)
        if word:
            found.append([word.group(1), above, line])
        elif found and not line.startswith("--"):
            found[-1][2] += "\n" + line
        above = line[3:] if line.startswith("-- ") else ""
    return found


def clauses(path):
    """The functions of a source file, each with the text of its contract; ghost items go under the file's name."""
    found, name, depth = {}, path.stem, 0
    for line in path.read_text().splitlines():
        function = FUNCTION.match(line)
        if function:
            name = function.group(1)
        if line.lstrip().startswith("ghost use"):
            continue
        if depth > 0 or CLAUSE.match(line):
            found[name] = found.get(name, "") + "\n" + line
            depth += line.count("{") - line.count("}")
    return found


def words_in(text):
    return set(re.findall(r"[\w'-]+", text))


def cited(crate, module, word, sources, specs):
    """Who uses the word: functions by their contracts, then definitions."""
    imported = re.compile(rf"Rattle\.{crate}\.specs\.{module}(?:\.\{{[^}}]*(?<![\w'-]){re.escape(word)}(?![\w'-])| as )")
    names = []
    for path, (text, parts) in sources.items():
        if imported.search(text):
            names += [name for name, contract in parts.items() if word in words_in(contract)]
    for path, (text, parts) in specs.items():
        if imported.search(text) or path == TOP / "crates" / crate / "specs" / f"{module}.antt":
            names += [other for other, _, body in parts if other != word and word in words_in(body)]
    return list(dict.fromkeys(names))


def row(crate, module, word, sentence, sources, specs):
    names = cited(crate, module, word, sources, specs)
    text = ", ".join(f"`{name}`" for name in names[:MOST_CITERS])
    if len(names) > MOST_CITERS:
        text += " and others"
    return f"| `{word}` | {sentence} | {text or 'no contract yet'} |"


def page():
    sources, specs, lacking = {}, {}, []
    for crate in crates():
        for path in sorted((TOP / "crates" / crate / "src").rglob("*.rt")):
            if "tests" not in path.relative_to(TOP).as_posix():
                sources[path] = (path.read_text(), clauses(path))
        for path in sorted((TOP / "crates" / crate / "specs").glob("*.antt")):
            specs[path] = (path.read_text(), definitions(path))
    out = [INTRO]
    for crate in crates():
        listed = [p for p in specs if p.parts[-3] == crate and p.name != "Lib.antt" and specs[p][1]]
        order = re.findall(r"mod (\w+)", "".join(t for p, (t, _) in specs.items() if p.parts[-3] == crate and p.name == "Lib.antt"))
        if not listed:
            continue
        out.append(f"## `{crate}`\n")
        for path in sorted(listed, key=lambda p: order.index(p.stem)):
            first = path.read_text().splitlines()[0]
            if not first.startswith("-- "):
                lacking.append(f"{path.relative_to(TOP)}: its first line")
            out.append(f"**{path.stem}.** {first[3:]}\n")
            out.append("| Word | Read aloud | Cited by |\n|---|---|---|")
            for word, sentence, _ in specs[path][1]:
                if not sentence:
                    lacking.append(f"{path.relative_to(TOP)}: {word}")
                out.append(row(crate, path.stem, word, sentence, sources, specs))
            out.append("")
    return "\n".join(out), lacking


def main():
    text, lacking = page()
    if lacking:
        sys.exit("no line above: " + "; ".join(lacking))
    if "--check" not in sys.argv:
        PAGE.write_text(text)
    elif PAGE.read_text() != text:
        sys.exit("docs/DEFINITIONS.md is not what docs/tools/definitions.py writes: run it")


main()
