"""The scripts that are kept as theorems, and their form; see independent_model.py, which runs this."""
import re

from independent_model import SLIPS, Shape, play, run

ROW_4 = "put 3,7 01;put 5,1 02;put 9,9 03;"
ROW_5 = ROW_4 + "put 6,4 04;"
ROW_6 = ROW_5 + "put 1,1 05;put 2,9 06;"
TOP = "18446744073709551615"
COMMON = Shape(2, 2, 64, 8)
# Name, shape, script and the printed text, or the faulty line; the texts were written by hand.
ROWS = [
    ("row-1", COMMON, "", "front 0"),
    ("row-2", COMMON, "put 3,7 6869;get 3,7", "client 1;@1 new;@1 = 6869;front 1"),
    ("row-3", COMMON, "put 3,7 6869;put 3,7 6869", "client 1;@1 new;@2 old 6869;front 2"),
    ("row-4", COMMON, ROW_4 + "stat",
     "client 1;@1 new;@2 new;@3 new;@3 stat records 3 cells 2 buckets 2 free 59;front 3"),
    ("row-5", COMMON, ROW_5 + "stat",
     "client 1;@1 new;@2 new;@3 new;@4 new;@4 stat records 4 cells 4 buckets 3 free 58;front 4"),
    ("row-6", COMMON, ROW_6 + "stat",
     "client 1;@1 new;@2 new;@3 new;@4 new;@5 new;@6 new;@6 stat records 6 cells 4 buckets 4 free 57;front 6"),
    ("row-7", COMMON, ROW_6 + "list 3..9,1..7",
     "client 1;@1 new;@2 new;@3 new;@4 new;@5 new;@6 new;@6 rows 3;3,7 01;5,1 02;6,4 04;front 6"),
    ("row-8", COMMON, ROW_6 + "list *,9;count *,9",
     "client 1;@1 new;@2 new;@3 new;@4 new;@5 new;@6 new;@6 rows 2;2,9 06;9,9 03;@6 count 2;front 6"),
    ("row-9", COMMON, f"put 0,0 -;put {TOP},{TOP} aa;put 0,1 -;list *,*",
     f"client 1;@1 new;@2 new;@3 new;@3 rows 3;0,0 -;0,1 -;{TOP},{TOP} aa;front 3"),
    ("row-10", Shape(2, 2, 8, 8), ROW_6 + "put 1,2 07;put 2,2 08;get 2,2;remove 1,1;stat",
     "client 1;@1 new;@2 new;@3 new;@4 new;@5 new;@6 new;@7 new;full free 3 need 4;@7 none;@8 gone 05;"
     "@8 stat records 6 cells 4 buckets 4 free 2;front 8"),
    ("row-11", Shape(2, 2, 64, 8, 1, 1000000), "put 1,1 -;put 1,2 -;put 1,3 -;put 1,4 -",
     "client 1;@1 new;@2 new;@3 new;nocut cells 2 boundaries 1;front 3"),
    ("row-12", COMMON, "remove 4,4", "client 1;@0 none;front 0"),
    ("row-13", COMMON, ROW_4 + "remove 3,7;remove 9,9;stat",
     "client 1;@1 new;@2 new;@3 new;@4 gone 01;@5 gone 03;@5 stat records 1 cells 2 buckets 1 free 60;front 5"),
    ("row-14", COMMON, "list 9..3,*", 1),
    ("row-28", Shape(2, 2, 64, 1), ROW_4 + "stat;checkpoint",
     "client 1;@1 new;@2 new;@3 new;@3 stat records 3 cells 2 buckets 2 free 59;@3 rooted;front 3"),
    ("row-29-run", COMMON, "run", 1),
    ("row-29-run-extra", COMMON, "run g extra", 1),
    ("row-29-make", COMMON, "make g 5 2 64 8", 1),
    ("row-29-help", COMMON, "--help", 1),
]


class Dice:
    """Numbers drawn from a seed, the same at each run and in each version of Python."""

    def __init__(self, seed):
        self.x = seed + 1000
        for _ in range(5):
            self.below(2)

    def below(self, n):
        self.x = self.x * 48271 % 2147483647
        return self.x // 16 % n

    def one_of(self, choices):
        return choices[self.below(len(choices))]


def drawn_line(dice, k, width, weights):
    """A line of a random script; `weights` is a word with one letter per chance of a command."""
    def value():
        return TOP if dice.below(60) == 0 else str(dice.below(width))
    def key():
        return ",".join(value() for _ in range(k))
    def side():
        low, high = sorted((dice.below(width), dice.below(width)))
        return dice.one_of(["*", "*", str(low), f"{low}..{high}", f"{low}..{TOP}"])
    def query():
        return ",".join(side() for _ in range(k))
    match dice.one_of(weights):
        case "p":
            value_shown = "".join(f"{dice.below(256):02x}" for _ in range(dice.below(3))) or "-"
            return f"put {key()} {value_shown}"
        case "r":
            return f"remove {key()}"
        case "g":
            return f"get {key()}"
        case "l":
            return f"list {query()}"
        case "c":
            return f"count {query()}"
        case "s":
            return "stat"
    return "checkpoint"


def draw(k, seed):
    """A shape and a random script of all commands."""
    dice = Dice(seed)
    shape = Shape(k, 2 + dice.below(4), 8 + dice.below(20), 1 + dice.below(8),
                  dice.one_of([1, 2, 3, 5, 1000]), dice.one_of([2, 4, 6, 9, 12, 24, 1000000]))
    width = [14, 8, 5, 4][k - 1] + dice.below(6)
    count = 20 + dice.below(40)
    return shape, ";".join([drawn_line(dice, k, width, "pppppppppppprrrrggglccssk") for _ in range(count)] + ["stat"])


def draw_merging(k, seed):
    """A shape and a random script that puts keys of a small range and removes most of them again, several times."""
    dice = Dice(seed)
    shape = Shape(k, 2 + dice.below(4), 10 + dice.below(40), 2 + dice.below(12))
    width = [12, 5, 3][k - 1]
    keys = [",".join(str(dice.below(width)) for _ in range(k)) for _ in range(14)]
    lines = []
    for _ in range(2):
        there = [dice.one_of(keys) for _ in range(12 + dice.below(6))]
        lines += [f"put {key} {dice.below(256):02x}" for key in there]
        lines += ["stat", dice.one_of(["checkpoint", "stat"])]
        while len(there) > 2:
            key = there.pop(dice.below(len(there)))
            lines += [f"remove {key}"] + ["stat"] * (dice.below(3) == 0)
    return shape, ";".join(lines + ["stat", "list " + ",".join("*" * k)])


def encoded(script):
    """The bytes of a script that is written with a semicolon at the end of each line but the last."""
    return script.replace(";", "\n").encode() + (b"\n" if script else b"")


# Pairs of K and a seed. They were picked from seeds 0 to 699, so that all that `require` asks for happens.
DRAWN = [(1, 477), (2, 292), (3, 60), (4, 557), (1, 328), (2, 210), (3, 517), (4, 628), (1, 697), (2, 346),
         (3, 636), (4, 377), (1, 150), (2, 526), (3, 35), (4, 354), (1, 104), (2, 576), (3, 217), (4, 51)]
MERGES = [(1, 475), (2, 499), (3, 186), (2, 266), (3, 24), (1, 437), (2, 415), (3, 68), (2, 690), (3, 688)]


def diagonal(count, k):
    """Puts whose keys have the same number in each attribute: from the third on, each refines the next attribute."""
    return "".join(f"put {','.join([str(i)] * k)} -;" for i in range(1, count + 1))


# Found by random searches with the slip against the right rules and then shortened, or thought out by hand. With more
# than 1,000 cells a directory has two parts, which these reach with 19 or 20 boundaries in four attributes. The
# second word is a name in SLIPS, or a sentence on slips that were tried by hand in the text of the model.
DIRECTED = [
    ("told-cells-strictly-below", "cells-below", Shape(1, 2, 20, 8, 2, 2), "put 7 -;put 6 -;put 9 f2"),
    ("told-no-root-step-for-slots", "no-slot-step", Shape(1, 2, 29, 3), "put 7 da;put 5 02;put 0 f1;remove 0;stat"),
    ("told-value-before-attribute", "value-first", Shape(3, 2, 26, 12),
     "put 1,2,2 0f;put 2,1,1 40;put 0,2,1 c0;put 2,1,0 4f;put 1,1,2 7f;put 0,1,1 41;put 0,2,0 d4;remove 1,2,2;"
     "remove 0,2,0;stat"),
    ("told-spare-page-for-remove", "spare-for-remove", Shape(1, 2, 10, 12),
     "put 0 7a;put 6 0f;put 5 b8;put 11 c2;put 8 e1;put 10 fb;remove 0;stat"),
    ("told-above-before-below", "above-first", Shape(1, 2, 31, 4),
     "put 1 9d;put 4 34;put 5 6f;put 6 81;remove 6;remove 4;stat"),
    ("told-turn-of-the-other", "turn-of-other", Shape(3, 2, 11, 2),
     "put 1,1,0 bf;put 0,1,1 e5;put 2,1,0 f3;put 2,2,2 5f;put 2,0,1 c8;put 1,2,2 dc;remove 2,2,2;remove 1,1,0;"
     "remove 2,1,0;remove 1,2,2;put 1,0,1 12;put 2,0,2 42;remove 1,0,1;stat"),
    ("told-interval-below", "interval-below", Shape(4, 2, 64, 64),
     diagonal(22, 4) + "put 18,18,21,18 -;checkpoint;put 18,18,22,18 -;stat"),
    ("told-higher-number-survives", "higher-survives", Shape(4, 2, 64, 64),
     diagonal(21, 4) + "checkpoint;remove 20,20,20,20;remove 21,21,21,21;remove 18,18,18,18;remove 19,19,19,19;stat"),
    ("told-parts-of-the-moved-box", "the parts of a cut or merge are all, one, or those of another box",
     Shape(4, 2, 28, 64),
     diagonal(21, 4) + "put 21,21,13,21 -;checkpoint;remove 19,19,19,19;put 8,17,22,22 -;remove 20,20,20,20;"
     "remove 21,21,21,21;remove 17,17,17,17;stat;put 15,5,15,15 -;put 20,3,20,20 -;put 9,17,17,22 -;"
     "put 22,21,12,22 -;stat"),
    ("told-parts-of-the-refined-directory", "a refinement needs the old parts, or one", Shape(4, 2, 26, 64),
     diagonal(19, 4) + "put 17,17,13,15 -;put 15,15,12,15 -;remove 17,17,13,15;put 21,17,17,18 -;"
     "remove 15,15,15,15;stat"),
    ("told-thousand-cells-per-part", "the cell at place 1000 lies in part 0", Shape(4, 2, 64, 64),
     "".join(f"put 0,{i},{i},{i} -;" for i in range(1, 15)) + "put 0,1,20,1 -;put 0,1,20,20 -;put 0,1,1,20 -;"
     "put 0,1,1,21 -;" + "".join(f"put {i},1,1,1 -;" for i in range(10, 100, 10))
     + "checkpoint;remove 80,1,1,1;remove 90,1,1,1;stat;remove 60,1,1,1;stat"),
    ("told-seven-tenths-of-ten", "the merge bound is 6 or 8 tenths", Shape(1, 10, 64, 64),
     diagonal(11, 1) + "remove 1;remove 2;remove 3;stat;remove 4;stat;put 12 -;put 13 -;put 14 -;put 15 -;stat"),
    ("told-seven-tenths-rounded-down", "the merge bound is rounded up", Shape(1, 4, 64, 64),
     diagonal(5, 1) + "remove 1;remove 5;stat;remove 3;stat"),
    ("told-cells-after-refinement", "the cells before a refinement are compared with M", Shape(2, 2, 64, 8, 1000, 5),
     ROW_5 + "put 7,6 05;stat"),
    ("told-next-attribute-within-cells", "only the first attribute with a usable value is tried",
     Shape(2, 2, 64, 8, 1000, 5), "put 1,1 -;put 1,2 -;put 1,3 -;put 1,4 -;put 2,5 -;put 2,6 -;stat"),
    ("told-least-difference", "the first existing boundary that divides is taken", Shape(3, 3, 64, 3),
     "put 4,0,4 e88f;put 3,4,1 151e;put 3,4,0 a7;put 0,2,2 b9;put 2,1,2 -;put 2,2,1 -;put 1,3,1 7c;put 2,4,2 f0;"
     "put 4,4,3 1a43;put 3,4,4 9fb5;stat"),
]
UNTOLD = [
    "-- No script tells that an existing boundary outside the region is taken: a boundary that divides the box's",
    "-- records is above the least and at most the greatest of their values, so it lies inside the region.",
    "-- No script tells that of equal rank the last is taken: two candidates of equal rank are one and the same cut.",
]
# Name, K, script, and the faulty line where there is one; these were written by hand.
GRAMMAR = [
    ("two-clients", 1, b"put 1 -\nclient 2\nget 1\n", None),
    ("leading-zero", 2, b"put 1,1 -\nput 01,1 -\n", 2),
    ("two-zeros", 1, b"get 0\nget 00\n", 2),
    ("number-too-large", 1, b"get 18446744073709551615\nget 18446744073709551616\n", 2),
    ("bound-too-large", 1, b"count 0..18446744073709551616\n", 1),
    ("odd-digits", 1, b"put 1 abc\n", 1),
    ("eighty-two-digits", 1, b"stat\nput 1 " + b"0f" * 41 + b"\n", 2),
    ("no-hexadecimal-digit", 1, b"put 1 0g\n", 1),
    ("two-dashes", 1, b"put 1 -\nput 2 --\n", 2),
    ("low-above-high", 2, b"count *,4..4\nlist *,5..4\n", 2),
    ("three-dots", 1, b"list 1...2\n", 1),
    ("range-without-low", 1, b"list ..5\n", 1),
    ("range-without-high", 1, b"list 0..0\nlist 5..\n", 2),
    ("range-with-star", 1, b"list *..5\n", 1),
    ("leading-zero-in-range", 1, b"count 1..05\n", 1),
    ("star-in-key", 2, b"get 1,1\n\nget 1,*\n", 3),
    ("range-in-key", 1, b"remove 1..1\n", 1),
    ("tab-between-words", 1, b"put 1\t-\n", 1),
    ("byte-13-in-mid-line", 1, b"stat\nget\r1\n", 2),
    ("two-bytes-13", 1, b"stat\r\nstat\r\r\n", 2),
    ("byte-13-before-space", 1, b"stat\r \n", 1),
    ("upper-case", 1, b"stat\n# upper case\nSTAT\n", 3),
    ("client-0", 1, b"client 1\nclient 0\n", 2),
    ("client-17", 1, b"client 17\n", 1),
    ("client-01", 1, b"client 01\nstat\n", 1),
    ("client-without-number", 1, b"stat\n\nclient\n", 3),
    ("client-with-two-numbers", 1, b"client 1 1\n", 1),
    ("put-without-data", 2, b"put 1,1\n", 1),
    ("put-with-three-words", 1, b"put 1 - -\n", 1),
    ("get-without-key", 1, b"get\n", 1),
    ("stat-with-word", 1, b"stat\nstat\nstat 1\n", 3),
    ("comment-after-words", 1, b"checkpoint # now\n", 1),
    ("too-few-numbers", 3, b"get 1,2,3\nget 1,2\n", 2),
    ("too-many-sides", 2, b"list *,*\nlist *,*,*\n", 2),
    ("empty-number", 3, b"get 1,,3\n", 1),
    ("comma-at-end", 2, b"get 1,2,\n", 1),
    ("space-in-key", 2, b"get 1, 2\n", 1),
    ("sign", 1, b"get +1\n", 1),
    ("byte-200-in-key", 2, b"put \xc8,1 -\n", 1),
    ("byte-255-alone", 1, b"# \xff\n\xff", 2),
    ("first-of-two-faults", 1, b"stat\n\n# note\nget x\nput y\n", 4),
    ("unknown-word-at-end", 1, b"stat\nstats", 2),
    ("byte-13-at-ends", 2, b"put 1,2 0a\r\nget 1,2\r\nget 2,1\r", None),
    ("comments", 1, b"# note\n  #more\n#stat\n#a\rb\tc \"d\\e\"\nstat\n#", None),
    ("comment-with-bytes", 1, b"# \xc3\xa9t\xc3\xa9\nstat\n#\xff\xff\n", None),
    ("empty-lines", 1, b"\n\n   \n\r\n \r\nstat\n\n", None),
    ("several-spaces", 2, b"  put   1,2    0A  \n get 1,2 \n   stat  \r\n", None),
    ("no-byte-10-at-end", 1, b"put 1 -\nget 1", None),
    ("client-2", 1, b"client 2\nput 7 07\nclient 2\nget 7\n", None),
    ("client-without-lines", 1, b"stat\nclient 16\nclient 3\n", None),
    ("client-line-alone", 1, b"client 5\n", None),
    ("largest-number", 1, b"put 18446744073709551615 ff\nlist 18446744073709551615..18446744073709551615\n"
                          b"count 0..18446744073709551614\nremove 18446744073709551615\n", None),
    ("eighty-digits", 1, b"put 0 " + b"aBcDeF0123" * 8 + b"\nget 0\nput 0 -\n", None),
    ("sides-of-all-forms", 3, b"put 1,2,3 aB\nlist 1,*,0..3\ncount *,*,*\nlist 1..1,2..2,4\nput 0,9,9 00\n"
                              b"list 0..1,*,*\n", None),
]


def kept():
    """Lists of (name, shape, script, result) by set, and comments; stops where a hand-written text is another one."""
    sets = {"rows": [], "drawn": [], "merges": [], "directed": [], "grammar": []}
    comments = {"directed": [f"-- {name}: {SLIPS.get(slip, slip)}" for name, slip, _, _ in DIRECTED] + UNTOLD}
    for name, shape, script, wanted in ROWS:
        result = ("fault", wanted) if isinstance(wanted, int) else ("ok", encoded(wanted).decode())
        assert run(shape, encoded(script)) == result, name
        sets["rows"].append((name, shape, encoded(script), result))
    for key, word, maker, pairs in ("drawn", "drawn", draw, DRAWN), ("merges", "merging", draw_merging, MERGES):
        where = {}
        for i, (k, seed) in enumerate(pairs):
            shape, script = maker(k, seed)
            grid, text = play(shape, encoded(script))
            for what in grid.happened:
                where.setdefault(f"{what}, K {k}" if re.match("refine|merge", what) else what, []).append(i)
            sets[key].append((f"{word}-{i}", shape, encoded(script), ("ok", text)))
        require(key, where)
        comments[key] = [f"-- {what}: {' '.join(map(str, numbers)) if len(numbers) < len(pairs) else 'each'}"
                         for what, numbers in sorted(where.items()) if what != "root step by opening"]
    for name, slip, shape, script in DIRECTED:
        result = run(shape, encoded(script))
        assert slip not in SLIPS or run(shape, encoded(script), {slip}) != result, name
        sets["directed"].append((name, shape, encoded(script), result))
    for name, k, script, fault in GRAMMAR:
        result = run(Shape(k, 2, 64, 8), script)
        wanted = result[:1] in (("ok",), ("several",)) if fault is None else result == ("fault", fault)
        assert wanted and (result == ("several",)) == (name == "two-clients"), name
        sets["grammar"].append(("grammar-" + name, Shape(k, 2, 64, 8), script, result))
    return sets, comments


def require(key, where):
    """Asserts that a set of random scripts has each thing that it is there for."""
    if key == "drawn":
        wanted = [f"refinement of {a}, K {k}" for k in range(1, 5) for a in range(k)] + [
            "cut at an existing boundary", "nocut", "full", "root step by pages", "root step by slots",
            "root step by request", "put", "get", "remove", "list", "count", "stat", "checkpoint"]
    else:
        wanted = [f"merge {side} of {a}, K {k}" for k in range(1, 4) for a in range(k) for side in ("below", "above")]
    missing = [what for what in wanted if what not in where]
    assert not missing, missing


# The form of theorems.

def literal(script):
    """An expression for a list of bytes; a string can hold those below 128 alone."""
    if not script:
        return "[]"
    if script[0] >= 128:
        rest = literal(script[1:])
        return f"{script[0]} ∷ " + (f"({rest})" if "∷" in rest else rest)
    plain = re.match(rb"[\x00-\x7f]+", script)[0]
    escapes = {10: "\\n", 13: "\\r", 9: "\\t", 34: '\\"', 92: "\\\\"}
    assert all(byte in escapes or 32 <= byte < 127 for byte in plain), script
    text = 'codes "' + "".join(escapes.get(byte, chr(byte)) for byte in plain) + '"'
    return text if len(plain) == len(script) else f"{text} ++ ({literal(script[len(plain):])})"


def theorem(name, shape, script, result):
    fields = "; ".join(f"{field} = {value}" for field, value in shape._asdict().items())
    listed = literal(script)
    printed = {"ok": lambda: f"Prints ({literal(result[1].encode())})", "fault": lambda: f"Faults {result[1]}",
               "several": lambda: "Several"}[result[0]]()
    return (f"{name} : prints (record {{ {fields} }}) {listed if listed == '[]' else f'({listed})'}\n"
            f"    ≡ {printed}\nunfolding computing\n{name} = refl\n")


TITLES = {
    "rows": "-- The worked rows: what a script on a new file prints.",
    "drawn": "-- Scripts drawn at random from all commands, and by number what happens in which.",
    "merges": "-- Random scripts with many merges, and by number what happens in which.",
    "directed": "-- Scripts that tell a slip in a rule, and which.",
    "grammar": "-- The grammar of scripts: faulty lines, and what is allowed.",
}


def theorem_file(key, items, comments):
    body = "\n".join(theorem(*item) for item in items)
    bare = re.sub(r'"(\\.|[^"\\])*"', "", body)
    used, answers = ([name for name in names if re.search(r"(?<![\w\"])" + re.escape(name.strip("◌")) + r"(?![\w\"])", bare)]
                     for names in (("◌≡◌", "◌∷◌", "◌++◌", "[]", "codes", "refl"), ("Prints", "Faults", "Several")))
    return "\n".join([TITLES[key]] + comments + [
        f"use Rattle.std.specs.Prelude.{{{', '.join(used)}}}", "use Rattle.grid_model.specs.Computing.{computing}",
        f"use Rattle.grid_model.specs.Transcripts.{{prints, {', '.join(answers)}}}", "", body])


def slip_table(sets):
    for slip, meaning in SLIPS.items():
        names = [name for items in sets.values() for name, shape, script, result in items
                 if run(shape, script, {slip}) != result]
        print(f"{meaning}: {', '.join(names) or 'none'}")


def main(words):
    sets, comments = kept()
    if words == ["slips"]:
        slip_table(sets)
    elif len(words) == 1 and words[0] in sets:
        print(theorem_file(words[0], sets[words[0]], comments.get(words[0], [])), end="")
    else:
        raise SystemExit("independent_model.py rows|drawn|merges|directed|grammar|slips|buckets")
