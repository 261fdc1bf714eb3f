#!/usr/bin/env python3
"""Spells the names of goals and steps in Answers.antt and Invariants.antt as today's Rattle makes them.

usage: python3 tools/respell_goals.py [CRATE..]

In a name that Rattle makes, a dash joins the parts, and a part from the source keeps its spelling: `returns-in-err-answer`
is `returns-in_err-answer`, and `if-has-room` is `if-has_room`.
"""
import glob
import re
import sys

sys.path.insert(0, "tools")
from respell import DASHED, WORD, imports, is_of_a_function  # noqa: E402

MADE = ["in-err", "in-ok", "in-none", "in-some", "in-default", "overflow-add", "overflow-sub", "overflow-mul", "overflow-cast",
        "overflow-step", "slice-bounds", "offset-bounds", "invariant-of", "from-residual", "as-mut-slice", "as-slice", "as-str",
        "as-bytes", "copy-from-slice", "from-le-bytes", "type-inv", "in-empty", "is-empty"]
KEEP = {"in-empty"}


def main(crates):
    for crate in crates:
        sources = "\n".join(open(p, encoding="utf-8").read() for p in glob.glob(f"crates/{crate}/src/**/*.rt", recursive=True))
        names = {n.replace("_", "-") for n in re.findall(r"\b[a-z][a-z0-9]*(?:_[a-z0-9]+)+\b", sources)} | set(MADE) - KEEP
        parts = re.compile(r"(?<![A-Za-z0-9_])(" + "|".join(sorted(map(re.escape, names), key=len, reverse=True)) + r")(?![A-Za-z0-9_])")
        for path in glob.glob(f"crates/{crate}/proofs/**/*.antt", recursive=True):
            if not is_of_a_function(path):
                continue
            text = open(path, encoding="utf-8").read()
            own, other = imports(text)

            def turn(m):
                word = m.group(0)
                if not DASHED.match(word) or word in other or word in own:
                    return word
                return parts.sub(lambda p: p.group(0).replace("-", "_"), word)

            new = "\n".join(line if re.match(r"\s*use .*\.\{", line) and "Goals" not in line else WORD.sub(turn, line)
                            for line in text.split("\n"))
            if new != text:
                with open(path, "w", encoding="utf-8") as f:
                    f.write(new)
                print(path)


if __name__ == "__main__":
    main(sys.argv[1:] or sorted(p.split("/")[1] for p in glob.glob("crates/*/")))
