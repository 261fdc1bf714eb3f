#!/usr/bin/env python3
"""Writes what the program put_vectors reads and must answer: scripts of puts, by the rules of docs/FORMAT.md and
docs/DRAFTS.md. Run from the repository's root: python3 tools/put_vectors.py

It shares no code with the crates. The seed is fixed, so that it writes the same lines each time.
"""
import random

from format_page import ABSENT, CASED, KINDS
from second_put import Draft

random.seed(20261118)
# a case of each cased field whose words are all unused, or hold a number that is allowed
CASES = {"ArraySize": (2, ABSENT), "SampleLevel": (0, ABSENT), "ImageQuery": (1, ABSENT), "AtomicFunction": (0, ABSENT),
         "GatherMode": (0, ABSENT), "RayQueryFunction": (3, ABSENT), "RayPipelineFunction": (0, 0), "MeshInfo": (0, ABSENT)}


def record(kind, seed=0):
    """An accepted record; another seed gives another name or number."""
    data = bytes([kind])
    for sort in KINDS[kind][1]:
        if sort == "flag":
            data += b"\x00"
        elif sort.startswith("cased "):
            case, word = CASES[sort[6:]]
            data += bytes([case]) + word.to_bytes(4, "little") * len(CASED[sort[6:]][0])
        else:
            data += seed.to_bytes(4, "little")
    return data


HOMES = ["module", "function0", "function1", "entry0"]
NAMES = ["type", "constant", "override", "global", "local", "expression", "function", "filter", "entry"]


def lookups(draft):
    """For each home and table how many items it has, and where the first, the second and the last stand."""
    text = ""
    for home in HOMES:
        text += " |"
        for name in NAMES:
            places = draft.standing.get((home, name), [])
            text += f" {len(places)}"
            if places:
                text += f",{places[0]},{places[1] if len(places) > 1 else '-'},{places[-1]},-"
    return text


def scripts():
    scalar, other = record(16, 1), record(16, 2)
    members = [record(1, 1), record(1, 2)]
    struct = record(24, 5)
    small = [scalar, other, *members, struct]
    size = sum(map(len, small))
    # exactly full, one byte short and one slot short
    for room, places in ((size, 5), (size - 1, 5), (size, 4), (size + 1, 6), (0, 0), (0, 5), (size, 0)):
        yield room, places, small + [other]
    # an equal Struct when memory is full but for its members, and its members' memory used again
    again = small + [*members, struct]
    for room, places in ((size + 34, 7), (size + 33, 7), (size + 34, 6)):
        yield room, places, again + [record(16, 3), record(3, 1)]
    # Structs that differ in one member, in their order, and in how many there are
    yield 999, 99, small + [record(1, 1), record(1, 3), struct, record(1, 2), record(1, 1), struct, record(1, 1), struct, struct]
    # 64 and 65 brackets of each sort
    for opener in (129, 130, 132):
        yield 9999, 999, [record(11)] + [record(opener)] * 65
    yield 9999, 999, [record(11)] + [record(131), record(153)] * 33 + [record(151)]
    # every statement and closer in every bracket
    inside = {"none": [], "block": [129], "accept": [130], "reject": [130, 151], "switch": [131], "case": [131, 153],
              "body": [132], "continuing": [132, 151]}
    for opening in inside.values():
        for kind in sorted(KINDS):
            yield 9999, 999, [record(11)] + [record(k) for k in opening] + [record(kind), record(151), record(133)]
    # every kind outside of a function, in an entry point, and while members or operands wait
    for kind in sorted(KINDS):
        yield 9999, 999, [record(kind), record(kind)]
        yield 9999, 999, [record(12), record(kind), record(kind)]
        yield 9999, 999, [record(1), record(kind), record(24)]
        yield 9999, 999, [record(2), record(kind), record(68)]
        yield 9999, 999, [record(11), record(2), record(kind), record(144)]
    # a function's numbers after another function and an entry point, and after hundreds of later puts
    body = [record(15, 1), record(64, 1), record(64, 2), record(2, 0), record(68, 0), record(31)]
    yield 99999, 9999, [scalar, record(11, 1), *body, record(11, 2), *body, record(12), *body] + [record(3, 1), record(64, 3)] * 200
    yield 99999, 9999, [record(11, 1), *body, record(11, 2), record(15, 2), record(64, 5), *[record(129)] * 9]
    # random lists, some with little memory
    kinds = sorted(KINDS) + [2, 1, 24, 68, 144, 151, 151, 31, 11, 64, 129, 16, 16]
    for _ in range(400):
        room, places = random.choice([(9999, 999), (random.randrange(300), 999), (9999, random.randrange(20))])
        yield room, places, [record(random.choice(kinds), random.randrange(3)) for _ in range(random.randrange(60))]


count = 0
with open("crates/put_vectors/stdin", "w") as lines, open("crates/put_vectors/stdout", "w") as answers:
    for room, places, records in scripts():
        draft = Draft(room, places)
        given = [draft.put(data) for data in records]
        lines.write(" ".join([str(room), str(places)] + [data.hex() for data in records]) + "\n")
        answers.write("".join(answer + " " for answer in given) + f"kept {len(draft.kept)} {draft.used()}{lookups(draft)}\n")
        count += 1
print(count, "scripts")
