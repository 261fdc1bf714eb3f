#!/usr/bin/env python3
"""Compares the walks in crates/modseal/stdout with those of the second implementations of put, sealing and walks.

Run from the repository's root: python3 tools/modseal_walks.py
"""
from sample_images import IMAGES
from second_check import Module, seal
from second_put import Draft
from second_walk import tables, takes, values

# the place of the record that put refuses by what it is itself: the second implementation of put takes such for granted
REFUSED = {"no_such_kind.img": 1, "wrong_length.img": 1, "bad_field.img": 1}


def kept(records):
    """The records that a draft keeps, up to the first that it refuses."""
    draft = Draft(sum(map(len, records)), len(records))
    for data in records:
        if draft.put(data).startswith("r"):
            break
    return draft.kept


def lines(module):
    for name, table in tables(module):
        depths, steady = values(table)
        for reading, words in (("depth", list(map(str, depths))), ("steady", ["yes" if yes else "no" for yes in steady])):
            yield f"walk of {name}, {reading}: items {len(table)}, takes {takes(table)}"
            for at in range(0, len(words), 16):
                yield "  " + " ".join(words[at:at + 16])


def stored():
    """For each image in the stored output the lines from its first walk on."""
    walks, name = {}, None
    for line in open("crates/modseal/stdout").read().splitlines():
        if line.startswith("image "):
            name = line.split()[1].removesuffix(":")
            walks[name] = []
        elif line.startswith("walk ") or walks.get(name):
            walks[name].append(line)
    return walks


FOUND = stored()
assert FOUND.keys() == IMAGES.keys(), FOUND.keys() ^ IMAGES.keys()
count = 0
for image, records in IMAGES.items():
    module = Module(kept(records[:REFUSED.get(image)]))
    wanted = list(lines(module)) if seal(module) == (0,) * 5 else []
    assert FOUND[image] == wanted, (image, FOUND[image], wanted)
    count += sum(line.startswith("walk ") for line in wanted)
print(count, "walks of", len(IMAGES), "images agree")
