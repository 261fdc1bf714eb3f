"""A second implementation of the check and of sealing, as loops over decoded records.

Written from the pages docs/FORMAT.md, docs/CHECK.md and docs/SEAL.md; it shares no code with the crates.
"""
from format_page import ABSENT, CASED, KINDS

TYPES, CONSTANTS, OVERRIDES, GLOBALS, LOCALS, EXPRESSIONS, FUNCTIONS, FILTERS = range(8)
TABLES = {"type": TYPES, "constant": CONSTANTS, "override": OVERRIDES, "global variable": GLOBALS, "local variable": LOCALS,
          "expression": EXPRESSIONS, "function": FUNCTIONS, "filter": FILTERS}
KIND_NUMBERS = {TYPES: 1, CONSTANTS: 2, OVERRIDES: 3, GLOBALS: 4, LOCALS: 5, EXPRESSIONS: 6, FUNCTIONS: 7, FILTERS: 9}
ARGUMENT = 8
# the kinds of expressions that stand in bodies only
MISPLACED = (73, 74, 75, 87)


def word(number):
    return number.to_bytes(4, "little")


def record(kind, *parts):
    return bytes([kind]) + b"".join(p if isinstance(p, bytes) else word(p) for p in parts)


def case(number, *words):
    return record(number, *words)


def table_of(sort):
    return TABLES[sort.removeprefix("optional ").removesuffix(" handle")]


def fields_of(bytes_):
    """For each field of a record its handles, as pairs of a table and a number."""
    at, fields = 1, []
    for sort in KINDS[bytes_[0]][1]:
        if sort == "flag":
            words, width = [], 1
        elif sort.startswith("cased "):
            cases = CASED[sort[6:]]
            width = 1 + 4 * max(len(ws) for ws in cases.values())
            words = [(s, at + 1 + 4 * i) for i, s in enumerate(cases[bytes_[at]])]
        else:
            words, width = [(sort, at)], 4
        handles = []
        for s, where in words:
            number = int.from_bytes(bytes_[where:where + 4], "little")
            if s.endswith("handle") and number != ABSENT:
                handles.append((table_of(s), number))
        fields.append(handles)
        at += width
    return fields


class Fault(Exception):
    pass


class Item:
    def __init__(self, place, bytes_, taken):
        self.place, self.bytes, self.taken = place, bytes_, taken
        self.kind = bytes_[0]
        self.fields = fields_of(bytes_)

    def own(self):
        return [h for f in self.fields for h in f]

    def handles(self):
        return self.own() + [h for t in self.taken for f in fields_of(t) for h in f]

    def one(self, table):
        return next((n for t, n in self.own() if t == table), None)

    def numbers(self, table):
        return [n for t, n in self.handles() if t == table]


class Body:
    def __init__(self, opener):
        self.opener = opener
        self.arguments, self.result, self.locals, self.named, self.expressions, self.statements = [], [], [], [], [], []


class Module:
    """What records make that put accepts."""

    def __init__(self, records):
        self.types, self.constants, self.overrides, self.globals, self.expressions = [], [], [], [], []
        self.filters, self.special, self.predeclared, self.leaf, self.functions, self.entries = [], [], [], [], [], []
        self.open, waiting = None, []
        for place, bytes_ in enumerate(records):
            kind = bytes_[0]
            if kind in (1, 2):
                waiting.append(bytes_)
                continue
            item, waiting = Item(place, bytes_, waiting), []
            self.add(kind, item)
        self.finished = self.open is None and not waiting

    def add(self, kind, item):
        body = self.open
        if kind in (11, 12):
            self.open = Body(item)
            (self.functions if kind == 11 else self.entries).append(self.open)
        elif kind == 31:
            self.open = None
        elif kind == 14:
            body.result = [item]
        elif kind in (6, 9):
            setattr(self, "special" if kind == 6 else "leaf", [item])
        else:
            table = {3: self.overrides, 4: self.constants, 5: self.globals, 7: self.predeclared, 8: self.filters}.get(kind)
            if 16 <= kind <= 29:
                table = self.types
            if 64 <= kind <= 97:
                table = body.expressions if body else self.expressions
            if body and kind in (13, 15, 30):
                table = {13: body.arguments, 15: body.locals, 30: body.named}[kind]
            if kind >= 128:
                table = body.statements
            if table is not None:
                table.append(item)


class Check:
    def __init__(self, module):
        self.m = module
        m = module
        self.sizes = {TYPES: len(m.types), CONSTANTS: len(m.constants), OVERRIDES: len(m.overrides), GLOBALS: len(m.globals),
                      LOCALS: 0, EXPRESSIONS: len(m.expressions), FUNCTIONS: len(m.functions), FILTERS: len(m.filters)}

    def inside(self, handle, place, sizes=None, refusal=8):
        table, number = handle
        if number >= (sizes or self.sizes)[table]:
            raise Fault(refusal, KIND_NUMBERS[table], number, 0, place)

    def earlier(self, table, subject, named, place, refusal=9):
        if named >= subject:
            raise Fault(refusal, KIND_NUMBERS[table], subject, named, place)

    def all_inside(self, handles, place, sizes=None):
        for handle in handles:
            self.inside(handle, place, sizes)

    def answer(self):
        if not self.m.finished:
            return (7, 0, 0, 0, 0)
        try:
            self.module()
        except Fault as fault:
            return fault.args
        return (0, 0, 0, 0, 0)

    def const_expression(self, number, e):
        """The tests of a global expression; the type that it returns."""
        for kind, table, items in ((65, CONSTANTS, self.m.constants), (66, OVERRIDES, self.m.overrides)):
            if e.kind == kind:
                named = e.one(table)
                self.inside((table, named), e.place)
                init = items[named].one(EXPRESSIONS)
                if init is not None:
                    self.earlier(EXPRESSIONS, number, init, e.place)
        if e.kind == 68:
            for operand in e.numbers(EXPRESSIONS):
                self.earlier(EXPRESSIONS, number, operand, e.place)
        return e.one(TYPES) if e.kind in (67, 68) else None

    def module(self):
        m = self.m
        for t, ty in enumerate(m.types):
            for base in ty.numbers(TYPES):
                self.earlier(TYPES, t, base, ty.place)
            size = ty.one(OVERRIDES)
            if size is None:
                continue
            self.inside((OVERRIDES, size), ty.place)
            self.earlier(TYPES, t, m.overrides[size].one(TYPES), ty.place)
            init = m.overrides[size].one(EXPRESSIONS)
            if init is None:
                continue
            self.inside((EXPRESSIONS, init), ty.place)
            # Each expression up to the init anew, whether or not an earlier type met it.
            for number in range(init + 1):
                returned = self.const_expression(number, m.expressions[number])
                if returned is not None:
                    self.earlier(TYPES, t, returned, ty.place)
        for number, e in enumerate(m.expressions):
            self.const_expression(number, e)
        for item in m.constants + m.overrides + m.globals:
            self.all_inside(item.own(), item.place)
        for body in m.entries:
            self.body(body, None)
            o = body.opener
            mesh = {table: [h for h in o.fields[8] if h[0] == table] for table in (GLOBALS, TYPES, EXPRESSIONS)}
            for part in (o.fields[4], o.fields[5], o.fields[6], o.fields[9], mesh[GLOBALS], mesh[TYPES], mesh[EXPRESSIONS]):
                self.all_inside(part, o.place)
        for number, body in enumerate(m.functions):
            self.body(body, number)
        for item in m.special:
            self.all_inside(item.fields[0] + item.fields[1] + item.fields[2], item.place)
        for number, item in enumerate(m.filters):
            for parent in item.numbers(FILTERS):
                self.earlier(FILTERS, number, parent, item.place)
        for item in m.leaf:
            self.all_inside(item.own(), item.place)

    def sizes_in(self, b):
        return self.sizes | {LOCALS: len(b.locals), EXPRESSIONS: len(b.expressions)}

    def body(self, b, function):
        sizes = self.sizes_in(b)
        for item in b.arguments + b.result + b.locals + b.named:
            self.all_inside(item.own(), item.place, sizes)
        for number, e in enumerate(b.expressions):
            for handle in e.own():
                if handle[0] == EXPRESSIONS or handle[0] == TYPES and e.kind not in (67, 68):
                    continue
                self.inside(handle, e.place, sizes)
                if handle[0] == FUNCTIONS and function is not None:
                    self.earlier(FUNCTIONS, function, handle[1], b.opener.place)
            for operand in e.numbers(EXPRESSIONS):
                self.earlier(EXPRESSIONS, number, operand, e.place)
        for s in b.statements:
            self.statement(s, sizes)
        o = b.opener
        self.all_inside([h for h in o.own() if h[0] == FILTERS], o.place)

    def statement(self, s, sizes):
        if s.kind == 128:
            start, end = (int.from_bytes(s.bytes[i:i + 4], "little") for i in (1, 5))
            if start != end and not (start < end <= sizes[EXPRESSIONS]):
                raise Fault(10, 6, start, end, s.place)
            return
        order = s.fields
        if s.kind == 142:
            order = [s.fields[i] for i in (0, 1, 2, 4)]
        if s.kind == 144:
            order = [s.fields[0], *(f for t in s.taken for f in fields_of(t)), s.fields[1]]
        if s.kind in (147, 148):
            order = [s.fields[1], s.fields[0], *s.fields[2:]]
        for handles in order:
            self.all_inside(handles, s.place, sizes)


class Seal(Check):
    """The tests of the check, and then those that only sealing makes."""

    def module(self):
        super().module()
        m, bodies = self.m, self.m.functions + self.m.entries
        for number, e in enumerate(m.expressions):
            if e.kind in MISPLACED:
                raise Fault(11, 6, number, 0, e.place)
            for operand in e.numbers(EXPRESSIONS):
                self.earlier(EXPRESSIONS, number, operand, e.place, 13)
            self.own_type(e)
        for t, ty in enumerate(m.types):
            size = ty.one(OVERRIDES)
            init = None if size is None else m.overrides[size].one(EXPRESSIONS)
            if init is None:
                continue
            # Each expression up to the init anew, whether or not an earlier type met it.
            for e in m.expressions[:init + 1]:
                for named in self.types_named(e):
                    self.earlier(TYPES, t, named, ty.place, 13)
        for b in bodies:
            for e in b.expressions:
                self.own_type(e)
                if e.kind == 73:
                    index = int.from_bytes(e.bytes[1:5], "little")
                    if index >= len(b.arguments):
                        raise Fault(12, ARGUMENT, index, 0, e.place)
        for number, b in enumerate(m.functions):
            for s in b.statements:
                if s.kind == 144:
                    self.earlier(FUNCTIONS, number, s.one(FUNCTIONS), b.opener.place, 13)
        for item in m.special:
            self.seal_inside(item.fields[3] + item.fields[4], item.place)
        for item in m.predeclared:
            self.seal_inside(item.own(), item.place)
        for b in m.entries:
            self.seal_inside(b.opener.fields[10], b.opener.place)
        for b in bodies:
            for s in b.statements:
                if s.kind == 142:
                    self.seal_inside(s.fields[3], s.place, self.sizes_in(b))

    def seal_inside(self, handles, place, sizes=None):
        for handle in handles:
            self.inside(handle, place, sizes, 12)

    def own_type(self, e):
        self.seal_inside([h for h in e.own() if h[0] == TYPES], e.place)

    def types_named(self, e):
        """The types that a global expression names: its own, that of its constant, that of its override."""
        named = [e.one(TYPES)]
        for table, items in ((CONSTANTS, self.m.constants), (OVERRIDES, self.m.overrides)):
            if e.one(table) is not None:
                named.append(items[e.one(table)].one(TYPES))
        return [n for n in named if n is not None]


def check(module):
    """The five numbers that the check answers."""
    return Check(module).answer()


def seal(module):
    """The five numbers that sealing answers."""
    return Seal(module).answer()
