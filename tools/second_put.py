"""A second implementation of put, of the rules of docs/FORMAT.md and docs/DRAFTS.md.

It shares no code with the crates.
"""

MODULE = {1, *range(3, 10), 11, 12, *range(16, 30)}  # outside a function only
BODY = {13, 14, 15, 30, 31, *range(128, 155)}  # inside only
TABLES = {3: "override", 4: "constant", 5: "global", 8: "filter", 11: "function", 12: "entry", 15: "local"}
TABLES.update({kind: "type" for kind in range(16, 30)})
OPENERS = {129: "block", 130: "accept", 131: "switch", 132: "body", 153: "case"}


class Draft:
    def __init__(self, room, places):
        self.room, self.places = room, places
        self.kept, self.brackets, self.waiting, self.waits = [], [], [], None
        self.open = False
        self.counts = {}
        self.types = []
        # for each home and table the places of its items
        self.standing = {}
        self.home = "module"

    def used(self):
        return sum(len(r) for r in self.kept)

    def in_place(self, kind):
        """The brackets after the record, or none where it may not stand here."""
        if self.waits == "members" and kind not in (1, 24):
            return None
        if self.waits == "operands" and kind not in (2, 68, 144):
            return None
        if (kind in MODULE and self.open) or (kind in BODY and not self.open):
            return None
        inner = self.brackets[-1] if self.brackets else None
        if kind == 31:
            return None if self.brackets else []
        if 128 <= kind <= 154:
            if inner == "switch":
                return self.brackets + ["case"] if kind == 153 else self.brackets[:-1] if kind == 154 else None
            if kind in (153, 154):
                return None
            if kind == 151:
                follows = {"accept": ["reject"], "body": ["continuing"], "block": [], "reject": [], "case": []}
                return self.brackets[:-1] + follows[inner] if inner in follows else None
            if kind == 152:
                return self.brackets[:-1] if inner == "continuing" else None
            if kind in OPENERS:
                return self.brackets + [OPENERS[kind]]
        return self.brackets

    def put(self, data):
        kind = data[0]
        brackets = self.in_place(kind)
        if brackets is None:
            return "r4"
        if len(brackets) > 64:
            return "r5"
        if 16 <= kind <= 29:
            item = (data, tuple(self.waiting))
            if item in self.types:
                number = self.types.index(item)
                if self.waiting:
                    del self.kept[-len(self.waiting):]
                self.waiting, self.waits = [], None
                return str(number)
        table = ("inner" if self.open else "global expression") if 64 <= kind <= 97 else TABLES.get(kind)
        if self.used() + len(data) > self.room or len(self.kept) >= self.places:
            return "r6"
        number = self.counts.get(table, 0) if table else 0
        if table:
            self.counts[table] = number + 1
        if table == "type":
            self.types.append((data, tuple(self.waiting)))
        if table:
            home = self.home if table in ("inner", "local") else "module"
            name = "expression" if table in ("inner", "global expression") else table
            self.standing.setdefault((home, name), []).append(len(self.kept))
        self.kept.append(data)
        self.brackets = brackets
        if kind in (11, 12):
            self.open = True
            self.home = TABLES[kind] + str(number)
        if kind == 31:
            self.open = False
        if kind in (11, 12, 31):
            self.counts["inner"] = self.counts["local"] = 0
        if kind in (1, 2):
            self.waiting.append(data)
            self.waits = "members" if kind == 1 else "operands"
        else:
            self.waiting, self.waits = [], None
        return str(number)
