"""A model of the grid file's program with a single client, for test scripts and their printed text.

It was written from the rules of the structure in words, apart from the project's own definitions, so that an agreement
of the two says something. It begins with a file that was just made with a shape and opened, reads a script, and gives
the printed text, or the number of the first faulty line; of a script with lines of two clients it says only that. A slip
is a small mistake in a rule that can be switched on; a kept script tells a slip where the text with it is another one.

    python3 independent_model.py rows|drawn|merges|directed|grammar    prints that set as a file of theorems
    python3 independent_model.py slips                                 prints which kept scripts tell which slip
    python3 independent_model.py buckets                               prints the drawn buckets that split_policy's test cuts

`run(shape, script, slips)` is the model; the kept scripts stand in kept_scripts.py. Each set is the same at each run:
random scripts come from fixed seeds, and the expected texts of the worked rows were written by hand and are compared
with the model before anything is printed.
"""
import re
import sys
from collections import Counter, namedtuple

Shape = namedtuple("Shape", "k capacity pages slots boundaries cells", defaults=(1000, 1000000))
Box = namedtuple("Box", "lo hi turn")
Cut = namedtuple("Cut", "attribute value fresh")
LARGEST = 2**64 - 1
SLIPS = {
    "no-turn": "no turn in the cyclic order",
    "value-first": "ties by value before attribute",
    "cells-below": "cells strictly below M",
    "bound-is-capacity": "merge bound C in place of 7C/10",
    "higher-survives": "the higher number survives a merge",
    "two-kept": "root step only where two pages are kept",
    "kept-unrooted": "kept counts pages that were not rooted too",
    "no-slot-step": "no root step where the slots are used",
    "spare-for-remove": "a spare page for a remove",
    "above-first": "above before below in a merge",
    "turn-of-other": "the turn of the other box after a merge",
    "interval-below": "interval counts boundaries below, not at most",
    "outside-region": "an existing boundary outside the region is taken",
    "last-of-equal": "of equal rank the last",
}


class Fault(Exception):
    """A script that is refused; its argument is the number of the first faulty line."""


class SeveralClients(Exception):
    """A script has lines of two clients."""


# The grammar of scripts.

def number(word):
    if not re.fullmatch(rb"0|[1-9][0-9]*", word) or int(word) > LARGEST:
        raise ValueError(word)
    return int(word)


def by_attribute(read, word, k):
    """What `read` takes from each of the k parts of a word, which commas join."""
    parts = tuple(read(part) for part in word.split(b","))
    if len(parts) != k:
        raise ValueError(word)
    return parts


def side(word):
    if word == b"*":
        return 0, LARGEST
    low, dots, high = word.partition(b"..")
    bounds = (number(low), number(high)) if dots else (number(low), number(low))
    if bounds[0] > bounds[1]:
        raise ValueError(word)
    return bounds


def data(word):
    if word == b"-":
        return b""
    if not re.fullmatch(rb"([0-9a-fA-F]{2}){1,40}", word):
        raise ValueError(word)
    return bytes.fromhex(word.decode())


def request(words, k):
    """The request that the words of a line name; ValueError where they name none."""
    match words:
        case [b"put", key, value]:
            return "put", by_attribute(number, key, k), data(value)
        case [b"remove" | b"get" as command, key]:
            return command.decode(), by_attribute(number, key, k)
        case [b"list" | b"count" as command, query]:
            return command.decode(), by_attribute(side, query, k)
        case [b"stat" | b"checkpoint" as command]:
            return (command.decode(),)
    raise ValueError(words)


def read_script(k, script):
    """The list of (client, request) of a script; Fault with the first faulty line, or 0 where it is too long."""
    if len(script) > 16777216:
        raise Fault(0)
    lines = script.split(b"\n")
    client, requests = 1, []
    for place, line in enumerate(lines[:-1] if lines[-1] == b"" else lines, 1):
        words = [word for word in line.removesuffix(b"\r").split(b" ") if word]
        try:
            if not words or words[0].startswith(b"#"):
                continue
            if words[0] == b"client" and len(words) == 2 and 1 <= number(words[1]) <= 16:
                client = number(words[1])
            else:
                requests.append((client, request(words, k)))
        except ValueError:
            raise Fault(place) from None
    return requests


# The file, as a lone caller sees it.

def inside(box, key):
    return all(low <= value <= high for low, value, high in zip(box.lo, key, box.hi))


def with_at(values, attribute, value):
    return values[:attribute] + (value,) + values[attribute + 1:]


class Grid:
    """The table, the layout (scales and boxes by number) and the count of pages; `happened` counts what was done."""

    def __init__(self, shape, slips=()):
        self.shape, self.slips, self.happened = shape, frozenset(slips), Counter()
        self.table, self.front, self.scales = {}, 0, [()] * shape.k
        self.boxes = {0: Box((0,) * shape.k, (LARGEST,) * shape.k, 0)}
        self.root_step("opening")

    def cells(self, refined=None):
        """How many cells there are, or would be with one more boundary of the attribute `refined`."""
        product = 1
        for attribute, scale in enumerate(self.scales):
            product *= len(scale) + (2 if attribute == refined else 1)
        return product

    def parts(self, cells):
        return {("part", part) for part in range(-(-cells // 1000))}

    def parts_holding(self, box):
        """The directory parts that hold a cell of a box; the place of a cell counts the last attribute fastest."""
        def interval(scale, value):
            return sum(bound < value if "interval-below" in self.slips else bound <= value for bound in scale)
        places = [0]
        for scale, low, high in zip(self.scales, box.lo, box.hi):
            span = range(interval(scale, low), interval(scale, high) + 1)
            places = [place * (len(scale) + 1) + index for place in places for index in span]
        return {("part", place // 1000) for place in places}

    def free(self):
        return self.shape.pages - len(self.boxes) - len(self.parts(self.cells())) - self.kept

    def root_step(self, reason):
        self.rooted = {("box", number) for number in self.boxes} | self.parts(self.cells())
        self.kept = self.used = 0
        self.happened["root step by " + reason] += 1

    def holder(self, key):
        return next(number for number, box in self.boxes.items() if inside(box, key))

    def keys_in(self, number):
        return [key for key in self.table if inside(self.boxes[number], key)]

    def begin_change(self, need, replaced):
        """Takes the next place for a change that replaces the pages of these owners; the refusal where it may not."""
        if self.free() < need and self.kept > (1 if "two-kept" in self.slips else 0):
            self.root_step("pages")
        if self.free() < need:
            self.happened["full"] += 1
            return f"full free {self.free()} need {need}"
        if self.used == self.shape.slots and "no-slot-step" not in self.slips:
            self.root_step("slots")
        self.used += 1
        self.front += 1
        self.kept += len(replaced if "kept-unrooted" in self.slips else replaced & self.rooted)
        self.rooted -= replaced
        return None

    # Cuts.

    def least(self, candidates):
        """The cut of least rank in a list of (rank, cut), or None."""
        best = None
        for rank, cut in candidates:
            if best is None or rank < best[0] or (rank == best[0] and "last-of-equal" in self.slips):
                best = rank, cut
        return best and best[1]

    def find_cut(self, box, keys):
        """The cut of an overflowing box, or None; `keys` are those of its records and of the new one."""
        def difference(attribute, value):
            """Of the sizes of both parts; None where one of them is empty."""
            left = sum(key[attribute] < value for key in keys)
            return abs(len(keys) - 2 * left) if 0 < left < len(keys) else None
        def old_rank(attribute, value):
            ties = (value, attribute) if "value-first" in self.slips else (attribute, value)
            return difference(attribute, value), ties
        k = self.shape.k
        old = self.least([(old_rank(attribute, value), Cut(attribute, value, False))
                          for attribute in range(k) for value in self.scales[attribute]
                          if box.lo[attribute] < value <= box.hi[attribute] or "outside-region" in self.slips
                          if difference(attribute, value) is not None])
        if old:
            return old
        most_cells = self.shape.cells - (1 if "cells-below" in self.slips else 0)
        first = 0 if "no-turn" in self.slips else box.turn
        for attribute in [(first + step) % k for step in range(k)]:
            new = self.least([((difference(attribute, key[attribute]), key[attribute]),
                               Cut(attribute, key[attribute], True))
                              for key in keys if difference(attribute, key[attribute]) is not None])
            room = len(self.scales[attribute]) < self.shape.boundaries and self.cells(attribute) <= most_cells
            if new and room:
                return new
        return None

    def put(self, key, value):
        number = self.holder(key)
        box, keys = self.boxes[number], self.keys_in(number)
        cut = None
        if key in self.table or len(keys) < self.shape.capacity:
            need, replaced = 2, {("box", number)}
        else:
            cut = self.find_cut(box, keys + [key])
            if not cut:
                self.happened["nocut"] += 1
                return f"nocut cells {self.cells()} boundaries {sum(map(len, self.scales))}"
            at = cut.attribute
            left = Box(box.lo, with_at(box.hi, at, cut.value - 1), (at + 1) % self.shape.k)
            right = Box(with_at(box.lo, at, cut.value), box.hi, left.turn)
            written = self.parts(self.cells(at)) if cut.fresh else self.parts_holding(right)
            need, replaced = 3 + len(written), {("box", number)} | written
        refusal = self.begin_change(need, replaced)
        if refusal:
            return refusal
        if cut:
            fresh_number = min(set(range(len(self.boxes) + 1)) - set(self.boxes))
            self.boxes[number], self.boxes[fresh_number] = left, right
            if cut.fresh:
                self.scales[at] = tuple(sorted(self.scales[at] + (cut.value,)))
            self.happened[f"refinement of {at}" if cut.fresh else "cut at an existing boundary"] += 1
        old = self.table.get(key)
        self.table[key] = value
        return f"@{self.front} new" if old is None else f"@{self.front} old {shown(old)}"

    # Merges.

    def find_merge(self, number, left_over):
        """The side, the other number and the joined region of the first neighbour that joins, or None."""
        box, capacity = self.boxes[number], self.shape.capacity
        bound = capacity if "bound-is-capacity" in self.slips else 7 * capacity // 10
        for attribute in range(self.shape.k):
            below = ("below", box.lo[attribute] - 1)
            above = ("above", box.hi[attribute] + 1)
            for side_name, value in (above, below) if "above-first" in self.slips else (below, above):
                if not 0 <= value <= LARGEST:
                    continue
                other = self.holder(with_at(box.lo, attribute, value))
                near = self.boxes[other]
                flush = all(a == attribute or (box.lo[a], box.hi[a]) == (near.lo[a], near.hi[a])
                            for a in range(self.shape.k))
                if flush and left_over + len(self.keys_in(other)) <= bound:
                    turn = (near if "turn-of-other" in self.slips else box).turn
                    joined = Box(min(box.lo, near.lo), max(box.hi, near.hi), turn)
                    return f"merge {side_name} of {attribute}", other, joined
        return None

    def remove(self, key):
        if key not in self.table:
            return f"@{self.front} none"
        number = self.holder(key)
        spare = 1 if "spare-for-remove" in self.slips else 0
        need, replaced = 1 + spare, {("box", number)}
        merge = self.find_merge(number, len(self.keys_in(number)) - 1)
        if merge:
            done, other, joined = merge
            stays, goes = sorted((number, other), reverse="higher-survives" in self.slips)
            written = self.parts_holding(self.boxes[goes])
            if self.free() >= 1 + len(written) + spare:
                need, replaced = 1 + len(written) + spare, {("box", number), ("box", other)} | written
            else:
                merge = None
                self.happened["merge without room"] += 1
        refusal = self.begin_change(need, replaced)
        if refusal:
            return refusal
        if merge:
            del self.boxes[goes]
            self.boxes[stays] = joined
            self.happened[done] += 1
        return f"@{self.front} gone {shown(self.table.pop(key))}"

    # Answers.

    def answer(self, asked):
        """The printed lines of a request."""
        self.happened[asked[0]] += 1
        match asked:
            case ["put", key, value]:
                return [self.put(key, value)]
            case ["remove", key]:
                return [self.remove(key)]
            case ["get", key]:
                return [f"@{self.front} = {shown(self.table[key])}" if key in self.table else f"@{self.front} none"]
            case ["stat"]:
                return [f"@{self.front} stat records {len(self.table)} cells {self.cells()} "
                        f"buckets {len(self.boxes)} free {self.free()}"]
            case ["checkpoint"]:
                self.root_step("request")
                return [f"@{self.front} rooted"]
        rows = [key for key in sorted(self.table)
                if all(low <= value <= high for value, (low, high) in zip(key, asked[1]))]
        if asked[0] == "count":
            return [f"@{self.front} count {len(rows)}"]
        return [f"@{self.front} rows {len(rows)}"] + [
            f"{','.join(map(str, key))} {shown(self.table[key])}" for key in rows]


def shown(value):
    return value.hex() or "-"


def play(shape, script, slips=()):
    """The grid after a script without a fault, and the printed text."""
    requests = read_script(shape.k, script)
    clients = {client for client, _ in requests}
    if len(clients) > 1:
        raise SeveralClients
    grid = Grid(shape, slips)
    lines = [f"client {client}" for client in clients]
    for _, asked in requests:
        lines += grid.answer(asked)
    return grid, "".join(line + "\n" for line in lines + [f"front {grid.front}"])


def run(shape, script, slips=()):
    """('ok', printed text), ('fault', number of the first faulty line), or ('several',) where several clients speak."""
    try:
        return "ok", play(shape, script, slips)[1]
    except Fault as fault:
        return "fault", fault.args[0]
    except SeveralClients:
        return "several",


if __name__ == "__main__":
    if sys.argv[1:] == ["buckets"]:
        import drawn_buckets
        drawn_buckets.main()
    else:
        import kept_scripts
        kept_scripts.main(sys.argv[1:])
