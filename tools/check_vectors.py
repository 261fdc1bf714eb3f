#!/usr/bin/env python3
"""Writes what the program check_vectors reads and must answer: images, and for each what the check and what sealing answers.

Run from the repository's root: python3 tools/check_vectors.py
The answers are those of tools/second_check.py, which shares no code with the crates.
"""
import itertools
import random
import re

from format_page import ABSENT, CASED, KINDS
from sample_images import IMAGES, UNSEALED
from second_check import MISPLACED, Module, case, check, record, seal, word

random.seed(30)
SCALAR = record(16, 1, 260)
LITERAL = record(64, 42)
FUNCTION, END = record(11, 1, ABSENT), record(31)


def filled(kind, value, chosen=None):
    """A record of a kind, and how many handles it has: `value` gives the number of each, told the sort and which it is. A cased field has
    the chosen case, or else the one with the most handles."""
    parts, at = [], 0
    for sort in KINDS[kind][1]:
        if sort == "flag":
            parts.append(b"\0")
        elif sort.startswith("cased "):
            cases = CASED[sort[6:]]
            if chosen is None:
                chosen = max(cases, key=lambda c: sum(s.endswith("handle") for s in cases[c]))
            parts.append(bytes([chosen]))
            for s in cases[chosen]:
                parts.append(word(value(s, at) if s.endswith("handle") else ABSENT if s == "unused" else 1))
                at += s.endswith("handle")
            parts.append(word(ABSENT) * (max(len(ws) for ws in cases.values()) - len(cases[chosen])))
        else:
            parts.append(word(value(sort, at) if sort.endswith("handle") else 1))
            at += sort.endswith("handle")
    return b"".join([bytes([kind])] + parts), at


def expression_cases():
    """Each kind of expression, in a function and among the global ones, each operand before, at and behind its holder."""
    for kind in range(64, 98):
        count = filled(kind, lambda s, i: 0)[1] + (2 if kind == 68 else 0)
        for chosen in [None, *range(count)]:
            for named in (2, 3, 4, 99):
                bytes_, own = filled(kind, lambda s, i: named if i == chosen else 0)
                taken = [record(2, named if own + i == chosen else i) for i in range(2)] if kind == 68 else []
                front = [SCALAR, LITERAL, record(4, 1, 0, 0), record(3, 1, 1, 0, 0), record(5, 1, 1, 1, 0, ABSENT, 1)]
                inner = [LITERAL] * 3 + taken + [bytes_] + [LITERAL]
                local = [record(15, 1, 0, ABSENT)]
                yield front + [FUNCTION, END, FUNCTION] + local + inner + [END]
                yield front[:1] + inner + front[2:]
                if chosen is None:
                    break


def statement_cases():
    """Each kind of statement, each operand inside and not."""
    for kind in [*range(128, 151), 152]:
        count = filled(kind, lambda s, i: 0)[1] + (2 if kind == 144 else 0)
        for chosen in [None, *range(count)]:
            for named in (1, 2):
                bytes_, own = filled(kind, lambda s, i: named if i == chosen else 0)
                taken = [record(2, named if own + i == chosen else 0) for i in range(2)] if kind == 144 else []
                closing = {129: [record(151)], 130: [record(151)] * 2, 131: [record(154)],
                           132: [record(151), record(152, ABSENT)]}.get(kind, [])
                opening = [record(132), record(151)] if kind == 152 else []
                yield [SCALAR, FUNCTION, END, FUNCTION, LITERAL, LITERAL] + opening + taken + [bytes_] + closing + [END]
                if chosen is None:
                    break
    for start in (0, 1, 2, 3, 5, ABSENT):
        for end in (0, 1, 2, 3, 5, ABSENT):
            yield [FUNCTION, LITERAL, LITERAL, record(128, start, end), END]


def named_cases():
    """naga's own tests by meaning, small modules, and long and deep bodies."""
    pending = record(23, 9, 0, case(1, 0), 4)
    sized = lambda init, *globals_: [SCALAR, record(3, 2, 3, 0, init), pending, *globals_]
    # constant_deps: a constant whose init is the expression that names it
    yield [SCALAR, record(4, 2, 0, 0), record(65, 0)]
    # array_size_deps: the init of the size is a value of the array
    yield sized(0, record(67, 0))
    yield sized(0, record(67, 1))
    # array_size_override: no such override
    yield [SCALAR, record(23, 9, 0, case(1, 1000), 4)]
    # override_init_deps: the init is changed to a value of the array
    yield sized(0, record(67, 0), record(67, 1))
    yield sized(1, record(67, 0), record(67, 1))
    # small modules
    yield sized(1, record(67, 0), record(65, 0), record(4, 2, 1, 0))
    yield [record(67, 7)]
    yield [record(81, 1, 0, 0)]
    yield [record(75, 0)]
    yield [SCALAR, FUNCTION, record(144, 0, ABSENT), END]
    yield [SCALAR, FUNCTION, record(87, 0), record(144, 0, ABSENT), END]
    yield [SCALAR, record(12, 1, 1, 1, 1, ABSENT, ABSENT, ABSENT, ABSENT, case(0, *[ABSENT] * 8), ABSENT, ABSENT), record(87, 0),
           END, FUNCTION, END]
    yield []
    # what a later record replaces
    yield [SCALAR, FUNCTION, record(14, 7, 1), record(14, 0, 1), END]
    yield [SCALAR, FUNCTION, record(14, 0, 1), record(14, 7, 1), END]
    yield [record(6, 5, ABSENT, ABSENT, ABSENT, ABSENT), record(6, ABSENT, ABSENT, ABSENT, 5, 5)]
    yield [record(6, ABSENT, ABSENT, 5, ABSENT, ABSENT)]
    yield [record(9, 3), record(9, ABSENT)]
    yield [record(8, 1, ABSENT), record(8, 1, 0), record(9, 1)]
    yield [record(8, 1, ABSENT), record(8, 1, 1)]
    # a break_if is tested behind the two blocks of its loop
    yield [FUNCTION, record(132), record(128, 1, 0), record(151), record(151 + 1, 9), END]
    # unfinished
    yield [FUNCTION, LITERAL]
    yield [record(1, 1, 0, 1, 1)]
    # long and deep
    yield [FUNCTION, LITERAL, *[record(135, 0)] * 60000, record(135, 1), END]
    yield [FUNCTION, *[record(129)] * 64, record(135, 0), *[record(151)] * 64, END]
    yield [FUNCTION, LITERAL, *[record(129)] * 64, record(135, 0), *[record(151)] * 64, END]


def random_cases(count):
    """Modules of random records, mostly inside and earlier."""
    def number(limit):
        return random.choice([max(0, limit - 1), 0, random.randrange(limit + 2) if limit >= 0 else 0])

    for _ in range(count):
        records, t, c, o, e, f = [SCALAR], 1, 0, 0, 0, 0
        mark = iter(range(100, 10000))
        for _ in range(random.randrange(1, 14)):
            choice = random.randrange(8)
            if choice == 0:
                records.append(record(23, next(mark), number(t), case(1, number(o)) if random.random() < .5 else case(2, ABSENT), 4))
                t += 1
            elif choice == 1:
                records += [record(1, 1, number(t), 1, 1), record(24, next(mark), 4)]
                t += 1
            elif choice == 2:
                records.append(record(4, 1, number(t), number(e)))
                c += 1
            elif choice == 3:
                records.append(record(3, 1, 1, number(t), random.choice([ABSENT, number(e)])))
                o += 1
            elif choice in (4, 5):
                kind = random.choice([64, 65, 66, 67, 68, 80])
                if kind == 68:
                    records += [record(2, number(e)), record(68, number(t))]
                else:
                    value = {65: c, 66: o, 67: t, 80: e}.get(kind, 0)
                    records.append(record(80, 1, number(value)) if kind == 80 else record(kind, number(value)))
                e += 1
            elif choice == 6:
                records.append(record(8, 1, random.choice([ABSENT, 0])))
            else:
                inner, statements = 0, []
                body = [record(11, 1, random.choice([ABSENT, 0]))]
                for _ in range(random.randrange(5)):
                    body.append(random.choice([LITERAL, record(81, 1, number(inner), number(inner)), record(87, number(f))]))
                    inner += 1
                for _ in range(random.randrange(3)):
                    body.append(random.choice([record(135, number(inner)), record(128, 0, number(inner)), record(144, number(f), ABSENT)]))
                records += body + [END]
                f += 1
        yield records


def entry(payload=ABSENT):
    return record(12, 1, 1, 1, 1, *[ABSENT] * 4, case(0, *[ABSENT] * 8), ABSENT, payload)


def array(name, override):
    """An array whose size is an override."""
    return record(23, name, 0, case(1, override), 4)


def override(init, ty=0):
    return record(3, 1, 1, ty, init)


def special(ray_desc, params, transfer):
    return record(6, ray_desc, ABSENT, ABSENT, params, transfer)


def compares(number, fun=7):
    """An ImageAtomic on expression 0 that compares with an expression."""
    return record(142, 0, 0, ABSENT, case(fun, number), 0)


def called(function, result=ABSENT):
    return record(144, function, result)


ARGUMENT, RETURN, LAST = record(13, 1, 0, 1), record(135, ABSENT), ABSENT - 1
ATOMIC = lambda ty: record(88, ty, b"\0")
# the five kinds of expression with a type
TYPED = {67: lambda ty: record(67, ty), 68: lambda ty: record(68, ty), 88: ATOMIC, 89: lambda ty: record(89, ty),
         95: lambda ty: record(95, ty)}
BODIES = ([FUNCTION], [entry()], [FUNCTION, END, FUNCTION], [entry(), END, entry()], [FUNCTION, END, entry()])


def misplaced_cases():
    """The four kinds that stand in bodies only, among the global expressions, alone and beside others."""
    for kind in MISPLACED:
        for number in (0, 1, 9, LAST):
            yield [record(kind, number)]
            yield [LITERAL, LITERAL, record(kind, number), LITERAL]
        yield [record(73, ABSENT), record(kind, 0)]
        # what it would name is there
        yield [SCALAR, record(5, 1, 1, 1, 0, ABSENT, 1), FUNCTION, ARGUMENT, record(15, 1, 0, ABSENT), record(kind, 0), END, record(kind, 0)]
        # in a body of a function that is not the first, with an argument, a local variable, a global variable
        yield [SCALAR, record(5, 1, 1, 1, 0, ABSENT, 1), FUNCTION, END, FUNCTION, ARGUMENT, record(15, 1, 0, ABSENT), record(kind, 0), END]
        yield [record(kind, 0), record(80, 1, 9)]
        yield [record(80, 1, 9), record(kind, 0)]
        yield [ATOMIC(9), record(kind, 0)]
        yield [record(kind, 0), ATOMIC(9)]
        # as the init of a size
        yield [SCALAR, override(0), array(9, 0), record(kind, 0)]
    for first, second in itertools.product(MISPLACED, MISPLACED):
        yield [record(first, 1), record(second, 2)]


def operand_cases():
    """Each kind of expression among the globals, in each case of its cased field: each operand, and each two operands, before, at and
    behind their holder."""
    for kind in range(64, 98):
        if kind in MISPLACED or kind == 68:
            continue
        cased = [s[6:] for s in KINDS[kind][1] if s.startswith("cased ")]
        for chosen in [c for s in cased for c in CASED[s]] or [None]:
            count = filled(kind, lambda s, i: 0, chosen)[1]
            for at in range(count):
                for named in (1, 2, 3, LAST):
                    yield [LITERAL] * 2 + [filled(kind, lambda s, i: named if i == at else 0, chosen)[0]]
            for two in itertools.combinations(range(count), 2):
                yield [LITERAL] * 2 + [filled(kind, lambda s, i: 2 + i if i in two else 1, chosen)[0]]
            # absent ones name nothing
            yield [LITERAL, filled(kind, lambda s, i: ABSENT if s.startswith("optional") else 0, chosen)[0]]
            yield [LITERAL, filled(kind, lambda s, i: ABSENT if s.startswith("optional") else 9, chosen)[0]]
    # circles, and the items of a body with the same numbers
    yield [record(80, 1, 1), record(80, 1, 0)]
    yield [record(80, 1, 1), LITERAL]
    yield [FUNCTION, LITERAL, LITERAL, END, record(80, 1, 1), LITERAL]
    yield [FUNCTION, LITERAL, record(80, 1, 0), END, LITERAL, record(80, 1, 0)]


def typed_cases():
    """Each kind of expression with a type, below, at and above the number of types, as global one and in bodies."""
    for (kind, typed), types, ty in itertools.product(TYPED.items(), range(3), (0, 1, 2, 7, LAST)):
        front = [record(16, i, 260) for i in range(types)]
        yield front + [typed(ty)]
        yield [LITERAL, typed(ty)] + front
        if kind not in (67, 68) or types == 1:
            for body in BODIES:
                yield front + body + [LITERAL, typed(ty), END]
    for first, second in itertools.product(TYPED.values(), TYPED.values()):
        yield [first(7), second(8)]
        yield [SCALAR, first(0), second(8)]
    # functions before entry points, whatever the order of the records
    for first, second in itertools.product((88, 89, 95), (88, 89, 95)):
        yield [entry(), TYPED[first](7), END, FUNCTION, TYPED[second](8), END]
        yield [FUNCTION, TYPED[second](8), END, entry(), TYPED[first](7), END]
        yield [entry(), TYPED[first](7), END, FUNCTION, END, FUNCTION, TYPED[second](8), END]
    # with components
    yield [LITERAL, record(2, 0), record(68, 0)]
    yield [LITERAL, record(2, 0), record(68, 0), SCALAR]


def argument_cases():
    """Argument numbers below, at and above the number of arguments of their body."""
    for count, index in itertools.product(range(4), (0, 1, 2, 3, 4, LAST, ABSENT)):
        arguments = [ARGUMENT] * count
        for body in BODIES:
            yield [SCALAR] + body + arguments + [record(73, index), END]
        yield [SCALAR, FUNCTION, record(73, index), *arguments, RETURN, END]
        yield [SCALAR, FUNCTION, ARGUMENT, ARGUMENT, END, FUNCTION, *arguments, record(73, index), END]
        yield [SCALAR, FUNCTION, *arguments, END, FUNCTION, ARGUMENT, ARGUMENT, record(73, index), END]
    for index in range(3):
        yield [SCALAR, entry(), record(73, index), END, FUNCTION, ARGUMENT, record(73, index), END]
        yield [SCALAR, FUNCTION, ARGUMENT, record(73, index), ATOMIC(9), END]
        yield [SCALAR, FUNCTION, ARGUMENT, ATOMIC(9), record(73, index), END]


def call_cases():
    """Calls of earlier, the same and later functions, in every function and in entry points."""
    nestings = ([], []), ([record(129)], [record(151)]), ([LITERAL, record(130, 0), record(151)], [record(151)]), \
        ([record(132)], [record(151), record(152, ABSENT)]), ([record(132), record(151)], [record(152, ABSENT)]), \
        ([LITERAL, record(131, 0), record(153, 1, b"\0")], [record(151), record(154)])
    for functions in (1, 2, 3):
        for caller, callee in itertools.product(range(functions), repeat=2):
            for opening, closing in nestings:
                yield [r for i in range(functions) for r in [FUNCTION, *([*opening, called(callee), *closing] if i == caller else []), END]]
        for callee in range(functions):
            for opening, closing in nestings:
                yield [entry(), *opening, called(callee), *closing, END] + [FUNCTION, END] * functions
                yield [FUNCTION, END] * functions + [entry(), *opening, called(callee), *closing, END]
    # two Calls in one function, and in two
    for first, second in itertools.product(range(3), repeat=2):
        yield [FUNCTION, END, FUNCTION, called(first), called(second), END, FUNCTION, END]
        yield [FUNCTION, called(first), END, FUNCTION, called(second), END, FUNCTION, END]
        yield [FUNCTION, END, FUNCTION, record(87, 0), called(first, 0), END, FUNCTION, LITERAL, record(2, 0), called(second), END]
        yield [FUNCTION, END, entry(), called(first), called(second), END, FUNCTION, END, FUNCTION, END]
        yield [entry(), END, FUNCTION, called(first), END, entry(), called(second), END, FUNCTION, END, FUNCTION, END]


def other_cases():
    """Special and predeclared types, incoming payloads, and what an ImageAtomic compares with."""
    for types, number in itertools.product(range(3), (0, 1, 2, 9, LAST)):
        front = [record(16, i, 260) for i in range(types)]
        yield front + [special(ABSENT, number, ABSENT)]
        yield front + [special(ABSENT, ABSENT, number)]
        yield [special(ABSENT, 0, number)] + front
        yield [special(ABSENT, number, 8)] + front
        yield [special(7, number, number)] + front
        yield front + [special(ABSENT, number, number), special(ABSENT, ABSENT, ABSENT)]
        yield front + [special(ABSENT, ABSENT, ABSENT), special(ABSENT, number, ABSENT)]
        yield front + [record(7, 1, number)]
        yield [record(7, 1, number)] + front
        yield front + [record(7, 1, 0), record(7, 2, number), record(7, 1, 8)]
        variables = [record(5, 1, 1, 1, 0, ABSENT, 1)] * types
        yield [SCALAR] + variables + [entry(number), END]
        yield [SCALAR, entry(number), END] + variables
        yield [SCALAR] + variables + [entry(), END, entry(number), END, entry(8), END]
    for count, number in itertools.product((1, 2, 3), (ABSENT, 0, 1, 2, 3, 9, LAST)):
        for body in BODIES:
            yield body + [LITERAL] * count + [compares(number), END]
        yield [FUNCTION] + [LITERAL] * count + [compares(0), record(129), compares(number), record(151), compares(8), END]
        yield [entry(), LITERAL, record(132), compares(number), record(151), compares(7), record(152, ABSENT)] + [LITERAL] * count + [END]
        yield [entry(), LITERAL, compares(number), END, FUNCTION] + [LITERAL] * count + [compares(number), END]
        yield [LITERAL] * 3 + [FUNCTION, LITERAL, END, FUNCTION] + [LITERAL] * count + [compares(number), END]
        # an Atomic's is tested by the check
        yield [FUNCTION] + [LITERAL] * count + [record(141, 0, case(7, number), 0, ABSENT), END]
    for fun in range(7):
        yield [FUNCTION, LITERAL, compares(ABSENT, fun), END]


def size_cases():
    """Sizes that are overrides with an init: what the global expressions before, at and behind the init name."""
    # each way to name a type: the records of the constant or override, and the expression
    ways = {kind: (lambda ty, typed=typed: ([], typed(ty))) for kind, typed in TYPED.items()}
    ways[65] = lambda ty: ([record(4, 1, ty, 0)], record(65, 0))
    ways[66] = lambda ty: ([override(ABSENT, ty)], record(66, 1))
    for way in ways.values():
        for init, at, ty in itertools.product(range(1, 4), range(1, 4), range(3)):
            front, expression = way(ty)
            globals_ = [LITERAL] * 4
            globals_[at] = expression
            # type 1 has the size
            yield [SCALAR, override(init), array(9, 0), record(16, 2, 260), *front, *globals_]
        for ty in range(3):
            front, expression = way(ty)
            # the size of a BindingArray, of a later Array, and one without an init
            yield [SCALAR, override(1), record(29, 9, 0, case(1, 0)), record(16, 2, 260), *front, LITERAL, expression]
            yield [SCALAR, override(1), record(16, 2, 260), array(9, 0), *front, LITERAL, expression]
            yield [SCALAR, override(ABSENT), array(9, 0), record(16, 2, 260), *front, LITERAL, expression]
            # of two expressions, or two types, the first
            other = ways[88](2)[1]
            yield [SCALAR, override(2), array(9, 0), record(16, 2, 260), *front, LITERAL, expression, other]
            yield [SCALAR, override(3), array(9, 0), record(16, 2, 260), *front, LITERAL, other, expression]
            # behind a broken rule 1, and before one
            yield [SCALAR, override(1), array(9, 0), record(16, 2, 260), *front, LITERAL, expression, record(80, 1, 5)]
    # two types with such a size: the second has a smaller, the same or a larger init
    for kind in (88, 67, 65):
        for first, second, at, ty in itertools.product(range(3), range(3), range(3), range(1, 4)):
            front, expression = ways[kind](ty)
            globals_ = [LITERAL] * 3
            globals_[at] = expression
            yield [SCALAR, override(first), override(second), array(9, 0), array(8, 1), record(16, 2, 260), *front, *globals_]
    for at, ty in itertools.product(range(3), range(1, 4)):
        globals_ = [LITERAL] * 3
        globals_[at] = ATOMIC(ty)
        # the same override twice; a type without a size between; one without an init before
        yield [SCALAR, override(1), array(9, 0), array(8, 0), record(16, 2, 260), *globals_]
        yield [SCALAR, override(0), override(2), array(9, 0), record(16, 2, 260), array(8, 1), *globals_]
        yield [SCALAR, override(ABSENT), override(1), array(9, 0), array(8, 1), record(16, 2, 260), *globals_]
    # an override whose type is the array that it sizes, and one that its own init names
    yield [SCALAR, override(0, 1), array(9, 0), LITERAL]
    yield [SCALAR, override(0), array(9, 0), record(66, 0)]
    yield [SCALAR, override(0), override(1), array(9, 1), LITERAL, record(66, 0)]


# Parts of a module, each of which breaks one rule; a function's body is told the function's number.
SIZED, FRONT, INNER, OUTER, SPECIAL = "sized", "front", "inner", "outer", "special"
BROKEN = [
    (FRONT, [record(74, 0)]),
    (FRONT, [record(81, 1, 0, 99)]),
    (FRONT, [record(95, 20)]),
    (SIZED, [ATOMIC(1)]),
    (INNER, lambda f: [record(89, 21)]),
    (INNER, lambda f: [record(73, 1)]),
    (INNER, lambda f: [called(f)]),
    (INNER, lambda f: [compares(22)]),
    (OUTER, lambda f: [ATOMIC(23)]),
    (OUTER, lambda f: [record(73, 2)]),
    (OUTER, lambda f: [compares(24)]),
    (SPECIAL, 3),
    (SPECIAL, 4),
    (FRONT, [record(7, 1, 25)]),
    (FRONT, [entry(26), END]),
    # by the check
    (FRONT, [record(4, 1, 27, 0)]),
    (FRONT, [record(9, 28)]),
    (FRONT, [record(65, 29)]),
    (INNER, lambda f: [record(135, 30)]),
    (OUTER, lambda f: [record(128, 3, 1)]),
    (SPECIAL, 0),
]


def pair_cases():
    """Modules that break two rules, in both orders, in one body and in two."""
    for one, other in itertools.permutations(BROKEN, 2):
        for joined in (False, True):
            if joined and (one[0] != other[0] or one[0] not in (INNER, OUTER, SPECIAL)):
                continue
            sort, parts = one[0], [one, other]
            sized = next((p for s, p in parts if s == SIZED), [LITERAL])
            records, functions = [SCALAR, override(1), array(9, 0), LITERAL, *sized], 0
            if joined and sort == SPECIAL:
                records.append(record(6, *[31 if i in (one[1], other[1]) else ABSENT for i in range(5)]))
            elif joined:
                records += [FUNCTION if sort == INNER else entry(), LITERAL, *one[1](0), *other[1](0), END]
            else:
                for sort, part in parts:
                    if sort == FRONT:
                        records += part
                    elif sort == SPECIAL:
                        records.append(record(6, *[31 if i == part else ABSENT for i in range(5)]))
                    elif sort in (INNER, OUTER):
                        records += [FUNCTION if sort == INNER else entry(), LITERAL, *part(functions), END]
                        functions += sort == INNER
            yield records


def random_seal_cases(count):
    """Modules of random records that mostly pass the check, in a random order of their tables."""
    for _ in range(count):
        slip = random.choice([0, .02, .06])
        below = lambda n, odd=slip: random.randrange(n) if n and random.random() >= odd else n + random.randrange(3)
        low = lambda n, odd=slip: random.choice([0, 0, below(n, odd)]) if n else below(0)
        maybe = lambda number: random.choice([ABSENT, number])
        types, globals_, functions = random.randrange(1, 6), random.randrange(1, 7), random.randrange(4)
        inits = [random.randrange(globals_) for _ in range(random.randrange(3))]
        sizes = [random.choice([ABSENT, random.randrange(globals_)]) for _ in range(random.randrange(3))]
        variables = random.randrange(3)
        queues = {"types": [[SCALAR]]}
        for t in range(1, types):
            kind = random.choice([16, 21, 23, 24])
            if kind == 23 and sizes:
                queues["types"].append([record(23, 9 + t, below(t, 0), case(1, random.randrange(len(sizes))), 4)])
            elif kind == 24:
                queues["types"].append([record(1, 1, below(t, 0), 1, 1), record(24, 9 + t, 4)])
            else:
                queues["types"].append([record(21, 9 + t, below(t, 0), 1) if kind == 21 else record(16, 9 + t, 260)])
        queues["constants"] = [[record(4, 1, low(types, 0), init)] for init in inits]
        queues["overrides"] = [[record(3, 1, 1, low(types, 0), init)] for init in sizes]
        queues["globals"] = [[record(5, 1, 1, 1, below(types, 0), ABSENT, 1)] for _ in range(variables)]
        queues["expressions"] = []
        for e in range(globals_):
            kinds = [lambda: [LITERAL], lambda: [random.choice([*TYPED.values()])(low(types))]]
            constants = [c for c, init in enumerate(inits) if init < e]
            overrides = [o for o, init in enumerate(sizes) if init == ABSENT or init < e]
            if constants:
                kinds.append(lambda: [record(65, random.choice(constants))])
            if overrides:
                kinds.append(lambda: [record(66, random.choice(overrides))])
            if e:
                kinds.append(lambda: [record(81, 1, below(e), below(e))])
                kinds.append(lambda: [record(2, below(e, 0)), record(68, low(types))])
                kinds.append(lambda: [record(85, 1, below(e), maybe(below(e)), maybe(below(e)), ABSENT)])
            if random.random() < slip:
                kinds = [lambda: [record(random.choice(MISPLACED), 0)]]
            queues["expressions"].append(random.choice(kinds)())
        queues["functions"] = []
        queues["entries"] = []
        for f in [*range(functions), *[None] * random.randrange(3)]:
            arguments, inner = random.randrange(3), random.randrange(1, 4)
            body = [FUNCTION if f is not None else entry(maybe(below(variables)) if variables else ABSENT)] + [ARGUMENT] * arguments + [LITERAL]
            for e in range(1, inner):
                body.append(random.choice([record(73, below(arguments)) if arguments else LITERAL, record(80, 1, below(e, 0)),
                                           TYPED[random.choice([88, 89, 95])](below(types)), record(67, below(types, 0))]))
            for _ in range(random.randrange(3)):
                callable_ = functions if f is None else f
                call = called(min(below(callable_), max(0, functions - 1))) if callable_ else RETURN
                body.append(random.choice([call, compares(maybe(below(inner))), record(135, below(inner, 0))]))
            queues["functions" if f is not None else "entries"].append(body + [END])
        queues["predeclared"] = [[record(7, 1, below(types))] for _ in range(random.randrange(3))]
        queues["special"] = [[special(ABSENT, maybe(below(types)), maybe(below(types)))] for _ in range(random.randrange(2))]
        records, left = [], [q for q in queues.values() if q]
        while left:
            queue = random.choice(left)
            records += queue.pop(0)
            left = [q for q in left if q]
        yield records


def page_cases():
    """The examples of docs/SEAL.md, and the answers that stand there."""
    sized = lambda ty: [SCALAR, override(1), array(9, 0), record(67, 0), record(4, 1, ty, 0), record(65, 0)]
    examples = [
        [],
        [record(73, 0)],
        [record(75, 0)],
        [record(81, 1, 0, 0)],
        [record(67, 7)],
        sized(1),
        sized(0),
        [FUNCTION, ATOMIC(0), END],
        [FUNCTION, record(73, 0), END],
        [FUNCTION, called(0), END],
        [FUNCTION, END, entry(), called(0), END],
        [special(ABSENT, 0, ABSENT)],
        [record(7, 1, 0)],
        [entry(0), END],
        [FUNCTION, LITERAL, compares(1), END],
    ]
    page = open("docs/SEAL.md").read()
    rows = re.search(r"\| records \| seal \|\n\|---\|---\|\n((?:\|.*\n)+)", page)[1].splitlines()
    stated = [row.strip("|").split("|")[-1].strip() for row in rows]
    examples.append([record(81, 1, 1, 2), LITERAL, LITERAL])
    stated.append(re.search(r"`seal` answers ([\d ]+):", page)[1])
    for records, answer in zip(examples, stated, strict=True):
        module = Module(records)
        assert check(module) == (0,) * 5, answer
        assert seal(module) == (tuple(map(int, answer.split())) if answer != "accepts" else (0,) * 5), (answer, seal(module))
        yield records


# The faults that sealing adds: docs/SEAL.md.
SEALED = {(11, 6), (12, 1), (12, 4), (12, 6), (12, 8), (13, 1), (13, 6), (13, 7)}
CHECK_CASES = [*expression_cases(), *statement_cases(), *named_cases(), *random_cases(600)]
STORED = ["every_kind.img", "sealed.img", *UNSEALED]
SEAL_CASES = [*(IMAGES[name] for name in STORED), *page_cases(), *misplaced_cases(), *operand_cases(), *typed_cases(),
              *argument_cases(), *call_cases(), *other_cases(), *size_cases(), *pair_cases(), *random_seal_cases(200)]
lines, checked, sealed = [], {}, {}
for records in CHECK_CASES + SEAL_CASES:
    module = Module(records)
    verdict, answer = check(module), seal(module)
    assert verdict == answer or verdict == (0,) * 5 and answer[:2] in SEALED
    lines.append((b"".join(records).hex(), " ".join(map(str, verdict + answer))))
    for counted, numbers in ((checked, verdict), (sealed, answer)):
        counted[numbers[:2]] = counted.get(numbers[:2], 0) + 1
with open("crates/check_vectors/stdin", "w") as images, open("crates/check_vectors/stdout", "w") as answers:
    for image, line in lines:
        images.write(image + "\n")
        answers.write(line + "\n")
assert all(sealed[fault] >= 20 for fault in SEALED)
print(len(lines), "images; the check:", dict(sorted(checked.items())), "sealing:", dict(sorted(sealed.items())))
