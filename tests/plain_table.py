"""A plain table that answers scripts: what the program must print, worked out without pages, cuts or a journal."""

MAXIMUM = 2**64 - 1


def key_text(key):
    return ",".join(map(str, key))


def hex_text(value):
    return value.hex() or "-"


def bounds(side):
    """The least and the greatest number that a side of a query takes."""
    if side == "*":
        return 0, MAXIMUM
    low, _, high = side.partition("..")
    return int(low), int(high or low)


def matches(key, sides):
    return all(low <= number <= high for number, (low, high) in zip(key, sides))


class PlainTable:
    """The records by their keys, and how many updates made them."""

    def __init__(self):
        self.records = {}
        self.front = 0

    def copy(self):
        other = PlainTable()
        other.records, other.front = dict(self.records), self.front
        return other

    def rows(self, sides=()):
        """The lines that show the records which match, ascending."""
        found = sorted(key for key in self.records if matches(key, sides))
        return [f"{key_text(key)} {hex_text(self.records[key])}" for key in found]

    def answer(self, line):
        """Answers one line of a script, and gives the lines that are printed for it."""
        words = line.split()
        request, rest = words[0], words[1:]
        if request in ("put", "remove"):
            return [self.update(request, *rest)]
        if request == "get":
            value = self.records.get(tuple(map(int, rest[0].split(","))))
            return [f"@{self.front} " + ("none" if value is None else f"= {hex_text(value)}")]
        if request in ("list", "count"):
            rows = self.rows([bounds(side) for side in rest[0].split(",")])
            if request == "count":
                return [f"@{self.front} count {len(rows)}"]
            return [f"@{self.front} rows {len(rows)}", *rows]
        if request == "stat":
            return [f"@{self.front} stat records {len(self.records)}"]
        assert request == "checkpoint"
        return [f"@{self.front} rooted"]

    def update(self, request, key, data=None):
        key = tuple(map(int, key.split(",")))
        old = self.records.get(key)
        if request == "remove" and old is None:
            return f"@{self.front} none"
        self.front += 1
        if request == "remove":
            del self.records[key]
            return f"@{self.front} gone {hex_text(old)}"
        self.records[key] = b"" if data == "-" else bytes.fromhex(data)
        return f"@{self.front} new" if old is None else f"@{self.front} old {hex_text(old)}"
