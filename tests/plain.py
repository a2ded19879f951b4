#!/usr/bin/env python3
"""Compares the program with a plain table, on random scripts of all requests.

    tests/plain.py PROGRAM [LINES [SEED]]

Run by hand; needs python3 alone. PROGRAM is the built program or ./grid, LINES is the length of each script, 2000
unless it is given, and SEED, 1 unless it is given, chooses the scripts. For each K from 1 to 4 it makes a file in a
folder of its own and runs three scripts over it, one after the other. What is printed must be what the plain table
answers, line by line; of the cells, buckets and free pages of a `stat` it knows nothing. The shape is such that no
put is refused. The status is 1 if anything was wrong.
"""

import random
import re
import subprocess
import sys
import tempfile

from plain_table import MAXIMUM, PlainTable, key_text

# The commands that the program doesn't have yet: each is compared once its name is taken out.
LATER = {"check", "dump", "gen"}

# How many numbers each attribute takes, by K: so few that a file of SHAPE has boundaries, cells and pages enough.
NUMBERS = {1: 400, 2: 45, 3: 12, 4: 7}
SHAPE = ["4", "4096", "64"]


class Wrong(Exception):
    """Something that the program did and a plain table doesn't."""


def call(program, words, text=""):
    """What the program prints on a text; it must end with status 0."""
    ran = subprocess.run([program, *words], input=text, capture_output=True, text=True)
    if ran.returncode != 0:
        raise Wrong(f"{words[0]} ended with status {ran.returncode}: {ran.stderr}{ran.stdout[-200:]}")
    return ran.stdout.splitlines()


def same(what, printed, wanted):
    """Refuses the first line in which two lists of lines differ."""
    for number, (line, other) in enumerate(zip(printed, wanted), 1):
        if line != other:
            raise Wrong(f"{what}: line {number} is {line!r}, and the plain table says {other!r}")
    if len(printed) != len(wanted):
        raise Wrong(f"{what}: {len(printed)} lines, and the plain table has {len(wanted)}")


class Scripts:
    """Draws scripts over the numbers that were chosen for each attribute, the least and the greatest among them."""

    def __init__(self, chance, k):
        self.chance = chance
        self.numbers = [
            sorted({0, MAXIMUM, *(chance.randrange(2**64) for _ in range(NUMBERS[k] - 2))})
            for _ in range(k)
        ]

    def key(self):
        return key_text(map(self.chance.choice, self.numbers))

    def side(self, numbers):
        kind = self.chance.random()
        if kind < 0.4:
            return "*"
        if kind < 0.55:
            return str(self.chance.choice(numbers))
        ends = [self.chance.choice(numbers) + self.chance.choice((-1, 0, 0, 1)) for _ in range(2)]
        low, high = sorted(min(max(end, 0), MAXIMUM) for end in ends)
        return f"{low}..{high}"

    def sides(self):
        return ",".join(map(self.side, self.numbers))

    def data(self):
        text = self.chance.randbytes(self.chance.choice((0, 1, 2, 8, 39, 40))).hex()
        return self.chance.choice((text, text.upper())) or "-"

    def line(self, removes):
        kind = self.chance.random()
        if kind < 0.6:
            is_remove = self.chance.random() < removes
            return f"remove {self.key()}" if is_remove else f"put {self.key()} {self.data()}"
        if kind < 0.8:
            return f"get {self.key()}"
        if kind < 0.97:
            return self.chance.choice(("list", "count")) + f" {self.sides()}"
        return self.chance.choice(("stat", "checkpoint"))

    def script(self, length):
        removes = self.chance.uniform(0.1, 0.6)
        return [self.line(removes) for _ in range(length)]

    def text(self, lines):
        """A text of these lines, with what a reader has to pass over between and around words."""
        ends = ("\n", "\n", "\r\n", "  \n", "\n\n", "\n# a remark\n")
        spaces = ("", "", "  ")
        spaced = (line.replace(" ", " " + self.chance.choice(spaces)) for line in lines)
        return "".join(self.chance.choice(spaces) + line + self.chance.choice(ends) for line in spaced)


def compare_script(program, file, table, scripts, length):
    """Runs a script over a file and over the plain table."""
    lines = scripts.script(length)
    printed = call(program, ["run", file], scripts.text(lines))
    printed = [re.sub(r"^(@\d+ stat records \d+) cells \d+ buckets \d+ free \d+$", r"\1", it) for it in printed]
    wanted = ["client 1", *(said for line in lines for said in table.answer(line))]
    same("run", printed, [*wanted, f"front {table.front}"])
    return len(lines)


def compare_check(program, file, table):
    """For when the program has `check`: the file is sound, at the front and with the records of the plain table."""
    wanted = f"sound front {table.front} records {len(table.records)}"
    same("check", call(program, ["check", file]), [wanted])


def compare_dump(program, file, table):
    """For when the program has `dump`: the records ascending, and the front."""
    same("dump", call(program, ["dump", file]), [*table.rows(), f"front {table.front}"])


def generated(k, seed, rounds, clients):
    """The lines of the generator."""
    lines, drawn = [], seed
    for _ in range(rounds * clients):
        numbers = []
        for _ in range(k + 2):
            drawn = drawn * 48271 % 2147483647
            numbers.append(drawn)
        key = key_text(number % 1000 for number in numbers[1:-1])
        lines.append(f"get {key}" if numbers[0] % 4 == 3 else f"put {key} {numbers[-1]:08x}")
    return lines


def compare_gen(program, file, table, k, chance):
    """For when the program has `gen`: its summary; the plain table then has the puts, in some order of its clients."""
    seed, rounds, clients = chance.randrange(1, 2147483647), chance.randrange(1, 100), chance.randint(1, 16)
    lines = generated(k, seed, rounds, clients)
    for line in lines:
        table.answer(line)
    puts = sum(line.startswith("put") for line in lines)
    printed = call(program, ["gen", file, str(seed), str(rounds), str(clients)])
    summary = f"lines {len(lines)} puts {puts} refused 0 front {table.front} records {len(table.records)}"
    same("gen", printed, [summary])


def compare_file(program, folder, k, length, chance):
    """Makes a file of K attributes, and compares three scripts and what else the program can say of the file."""
    file, table, scripts, compared = f"{folder}/plain{k}.grid", PlainTable(), Scripts(chance, k), 0
    call(program, ["make", file, str(k), *SHAPE])
    for _ in range(3):
        compared += compare_script(program, file, table, scripts, length)
        if "check" not in LATER:
            compare_check(program, file, table)
        if "dump" not in LATER:
            compare_dump(program, file, table)
    if "gen" not in LATER:
        compare_gen(program, file, table, k, chance)
    print(f"K {k}: {compared} lines, front {table.front}, {len(table.records)} records")


def main(program, length=2000, seed=1):
    assert generated(2, 1, 2, 1) == ["get 794,886", "put 683,161 32f1f059"]
    chance = random.Random(int(seed))
    with tempfile.TemporaryDirectory() as folder:
        for k in NUMBERS:
            try:
                compare_file(program, folder, k, int(length), chance)
            except Wrong as what:
                print(f"K {k}, seed {seed}: {what}")
                return 1
    print(f"wrong 0; not compared yet: {', '.join(sorted(LATER)) or 'nothing'}")
    return 0


if __name__ == "__main__":
    sys.exit(main(*sys.argv[1:]))
