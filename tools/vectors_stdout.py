#!/usr/bin/env python3
"""Adds to naga's answers in crates/vectors/stdout what sealing answers for the images of crates/vectors/stdin.

Run from the repository's root: python3 tools/vectors_stdout.py

naga's four numbers stand alone on a line, or where an earlier run put them, behind the word check. They stay. The five
numbers of sealing are those of the second implementations of put, of the check and of sealing, and of nothing in crates/:
where naga's line has a refusal of put, they are that refusal and four zeros.
"""
from format_page import KINDS
from second_check import Module, check, seal
from second_put import Draft

STDIN, STDOUT = "crates/vectors/stdin", "crates/vectors/stdout"
# refusals of put
PUT = range(1, 7)


def naga_numbers(line):
    """naga's numbers in a line: refusal, kind, first, second."""
    words = line.split()
    return tuple(map(int, words[1:5] if words[0] == "check" else words))


def records(image):
    """The records of an image that put accepts."""
    while image:
        length = KINDS[image[0]][2]
        yield image[:length]
        image = image[length:]


def kept(image):
    """The records that a draft keeps of it: all but types that equal kept ones."""
    draft = Draft(len(image), len(image))
    for data in records(image):
        answer = draft.put(data)
        assert not answer.startswith("r"), answer
    return draft.kept


def sealed(image, naga):
    """What sealing answers for an image for which naga's numbers are these."""
    if naga[0] in PUT:
        return (naga[0], 0, 0, 0, 0)
    module = Module(kept(image))
    assert check(module)[:4] == naga, (image.hex(), naga, check(module))
    answer = seal(module)
    assert naga == (0, 0, 0, 0) or answer == check(module), (image.hex(), naga, answer)
    return answer


def joined(numbers):
    return " ".join(map(str, numbers))


with open(STDIN) as images, open(STDOUT) as answers:
    pairs = [(bytes.fromhex(image), naga_numbers(line)) for image, line in zip(images, answers, strict=True)]
both = [(naga, sealed(image, naga)) for image, naga in pairs]
with open(STDOUT, "w") as answers:
    for naga, answer in both:
        answers.write(f"check {joined(naga)} seal {joined(answer)}\n")
print(len(both), "images; only sealing refuses", sum(naga != answer[:4] for naga, answer in both))
