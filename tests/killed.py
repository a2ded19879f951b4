"""The work of killed.sh, where it is described: python3 killed.py PROGRAM FOLDER RUNS SEED."""

import random
import subprocess
import sys
import time

from plain_table import PlainTable

# Two attributes of 50 numbers each make at most 2,500 cells: no put can be refused for want of pages or of a cut.
MAKE = ["2", "4", "4096", "64"]
NUMBERS = 50
LINES = (1000, 4000)


class Wrong(Exception):
    """Something that the program did and a plain table doesn't."""


def script_line(chance, removes):
    """Draws a line of a script in which this part of the updates removes."""
    if chance.random() < 0.005:
        return "checkpoint"
    key = f"{chance.randrange(NUMBERS)},{chance.randrange(NUMBERS)}"
    if chance.random() < removes:
        return f"remove {key}"
    return f"put {key} {chance.randbytes(chance.randrange(9)).hex() or '-'}"


def draw_script(chance, table):
    """Draws a script; gives its lines, what is printed for it, and those of its lines that are updates of the table."""
    lines, printed, updates, work = [], ["client 1"], [], table.copy()
    # The table grows in some scripts and shrinks in others, so that buckets are cut and joined.
    removes = chance.uniform(0.2, 0.8)
    for _ in range(chance.randint(*LINES)):
        line, before = script_line(chance, removes), work.front
        lines.append(line)
        printed += work.answer(line)
        if work.front != before:
            updates.append(line)
    printed.append(f"front {work.front}")
    return lines, "".join(f"{line}\n" for line in printed), updates


class File:
    """The file under test, and the plain table that it must hold."""

    def __init__(self, program, folder, chance):
        self.program, self.folder, self.chance = program, folder, chance
        self.name = f"{folder}/killed.grid"
        self.table = PlainTable()
        # How long the program took of late for a line of a script, and for an opening.
        self.line_seconds, self.opening_seconds = 0.001, 0.1
        self.ended = self.killed = self.openings = self.openings_killed = self.beyond = 0

    def call(self, words, text, limit=None):
        """Runs the program on a text; where a limit is given, kills it then. Gives its status and what it printed."""
        with open(f"{self.folder}/script", "w") as script:
            script.write(text)
        with open(f"{self.folder}/script") as script, open(f"{self.folder}/printed", "wb") as out:
            process = subprocess.Popen([self.program, *words], stdin=script, stdout=out)
            try:
                process.wait(limit)
            except subprocess.TimeoutExpired:
                process.kill()
                process.wait()
        with open(f"{self.folder}/printed") as out:
            return process.returncode, out.read()

    def make(self):
        status, printed = self.call(["make", self.name, *MAKE], "")
        if status != 0:
            raise Wrong(f"make ended with status {status}: {printed}")

    def read(self):
        """Opens the file by a listing of everything, and gives its front and its rows."""
        self.openings += 1
        if self.openings % 4 == 0:
            limit = self.chance.uniform(0, self.opening_seconds)
            status, _ = self.call(["run", self.name], "list *,*\n", limit)
            self.openings_killed += status == -9
        begun = time.monotonic()
        status, printed = self.call(["run", self.name], "list *,*\n")
        self.opening_seconds = time.monotonic() - begun
        lines = printed.splitlines()
        if status != 0 or len(lines) < 3 or not lines[-1].startswith("front "):
            raise Wrong(f"the opening ended with status {status}: {printed[:200]}")
        return int(lines[-1].split()[1]), lines[1:-1]

    def compare(self, updates, all_kept):
        """Opens the file, and moves the plain table on by the updates that the file kept."""
        front, rows = self.read()
        kept = front - self.table.front
        if not 0 <= kept <= len(updates) or (all_kept and kept != len(updates)):
            raise Wrong(f"the front is {front}, after {self.table.front} and {len(updates)} updates")
        for line in updates[:kept]:
            self.table.answer(line)
        if rows != self.table.answer("list *,*"):
            raise Wrong(f"the rows at front {front} are not the plain table's")
        return kept

    def run(self):
        """Runs one script, to its end or until it is killed, and compares."""
        lines, wanted, updates = draw_script(self.chance, self.table)
        limit = None
        if self.chance.random() < 0.5:
            limit = self.chance.uniform(0, len(lines) * self.line_seconds)
        begun = time.monotonic()
        status, printed = self.call(["run", self.name], "".join(f"{it}\n" for it in lines), limit)
        if status == 0:
            if printed != wanted:
                raise Wrong("a run that ended printed something else than the plain table")
            if limit is None:
                self.line_seconds = (time.monotonic() - begun) / len(lines)
            self.ended += 1
            self.compare(updates, True)
            return
        if status != -9 or limit is None:
            raise Wrong(f"a run ended with status {status}: {printed[-200:]}")
        if not wanted.startswith(printed):
            raise Wrong("a run that was killed printed something else than the plain table")
        # Replies are printed once the last line was answered.
        self.killed += 1
        self.beyond += self.compare(updates, printed != "")


def main(program, folder, runs, seed):
    chance = random.Random(int(seed))
    file, wrong = File(program, folder, chance), 0
    try:
        file.make()
        for _ in range(int(runs)):
            file.run()
    except Wrong as what:
        wrong = 1
        print(f"wrong in run {file.ended + file.killed} of seed {seed}: {what}")
    print(
        f"runs {file.ended + file.killed} ended {file.ended} killed {file.killed}",
        f"openings {file.openings} of them killed first {file.openings_killed}",
        f"updates {file.table.front} kept after kills beyond the printed ones {file.beyond}",
        f"records {len(file.table.records)} wrong {wrong}",
    )
    return wrong


if __name__ == "__main__":
    sys.exit(main(*sys.argv[1:]))
