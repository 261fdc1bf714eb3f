#!/usr/bin/env python3
"""Writes what the program record_vectors reads and must answer, from the tables of docs/FORMAT.md alone.

Run from the repository's root: python3 tools/record_vectors.py
It shares no code with the crates, so that the page and the crates are held against each other.
"""
from format_page import ABSENT, CASED as cased, KINDS as kinds


def word(number):
    return number.to_bytes(4, "little")


def cases_of(sort):
    return {0: [], 1: []} if sort == "flag" else cased[sort[len("cased "):]]


def is_cased(sort):
    return sort == "flag" or sort.startswith("cased ")


def valid(sort, seed):
    """A number that a word of that sort may hold."""
    return ABSENT if sort == "unused" else seed + 1


def case_bytes(sort, case, seed):
    cases = cases_of(sort)
    words = cases.get(case, cases[0])
    return bytes([case]) + b"".join(word(valid(w, seed + 16 * i)) for i, w in enumerate(words))


def field_bytes(sort, seed, case=0):
    return case_bytes(sort, case, seed) if is_cased(sort) else word(valid(sort, seed))


def record(kind, case=0):
    """A record that is accepted, as the list of its parts: the kind byte and each field."""
    return [bytes([kind])] + [field_bytes(sort, 256 * i, case if case in (cases_of(sort) if is_cased(sort) else [])
                              else 0) for i, sort in enumerate(kinds[kind][1])]


def words_of(sort, part):
    """Pairs of a word's sort and its number, or none where the case byte has no case."""
    if not is_cased(sort):
        return [(sort, int.from_bytes(part, "little"))]
    words = cases_of(sort).get(part[0])
    if words is None:
        return None
    return [(w, int.from_bytes(part[1 + 4 * i:5 + 4 * i], "little")) for i, w in enumerate(words)]


def fits(sort, number):
    if sort == "unused":
        return number == ABSENT
    if sort == "non-zero number":
        return number != 0
    return not sort.endswith("handle") or sort.startswith("optional") or number != ABSENT


def handles(words):
    named = []
    for sort, number in words or []:
        if sort.endswith("handle") and number != ABSENT:
            named.append(f"{sort.removeprefix('optional ').removesuffix(' handle')}:{number}")
    return named


def answer(data):
    if not data or data[0] not in kinds:
        return 1, [], []
    name, sorts, length = kinds[data[0]]
    if len(data) != length:
        return 2, [], []
    at, groups, good = 1, [], True
    for sort in sorts:
        width = 1 + 4 * len(cases_of(sort)[0]) if is_cased(sort) else 4
        words = words_of(sort, data[at:at + width])
        at += width
        good = good and words is not None and all(fits(s, n) for s, n in words)
        groups.append(handles(words))
    tested = list(groups)
    if name in ("Statement::SubgroupBallot", "Statement::SubgroupGather"):
        tested[0], tested[1] = tested[1], tested[0]
    return (0 if good else 3), sum(groups, []), sum(tested, [])


def variants(kind):
    """Records of a kind: accepted, one byte short and long, and with each field at its limits."""
    base = record(kind)
    yield b"".join(base)
    yield b"".join(base)[:-1]
    yield b"".join(base) + b"\x00"
    for i, sort in enumerate(kinds[kind][1]):
        def put(part):
            return b"".join(base[:i + 1] + [part] + base[i + 2:])
        if not is_cased(sort):
            for number in (0, 1, 256, 1 << 16, 1 << 24, ABSENT - 1, ABSENT):
                yield put(word(number))
            continue
        cases = cases_of(sort)
        for case in list(cases) + [len(cases), 255]:
            part = case_bytes(sort, case, 4096)
            yield put(part)
            for at in range(1, len(part), 4):
                for number in (0, ABSENT - 1, ABSENT):
                    yield put(part[:at] + word(number) + part[at + 4:])


def main():
    texts = [b""] + [bytes([kind]) for kind in range(256)] + [bytes([kind, 0, 0, 0, 0]) for kind in range(256)]
    for kind in sorted(kinds):
        texts += list(variants(kind))
    with open("crates/record_vectors/stdin", "w") as lines, open("crates/record_vectors/stdout", "w") as answers:
        for text in texts:
            refusal, declared, tested = answer(text)
            lines.write(text.hex() + "\n")
            answers.write(" ".join([text.hex(), str(refusal), str(len(declared)), "declared"] + declared +
                                   ["tested"] + tested) + "\n")
    print(len(texts), "byte strings")


main()
