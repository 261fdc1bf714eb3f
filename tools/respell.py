#!/usr/bin/env python3
"""Spells the definitions and lemmas of this repository as the library of Rattle does.

usage: python3 tools/respell.py    once, at the top, after the kit's own port.py

Words are in snake case, and a name of a fact or of a type is in upper camel case. Names of functions, of what Rattle makes
and of the library stay. In Answers.antt and Invariants.antt only what is imported from this repository, its fields and what
a `let` binds are spelled anew: the names of goals and steps are not of this repository.
"""
import glob
import os
import re
import sys

# a name with a dash, cut as antt cuts words; the parts between dots are looked at one by one
WORD = re.compile(r"[^\s(){}\[\];,.@«»\"`λ:|]+")
DASHED = re.compile(r"^[A-Za-z_'+][A-Za-z0-9_'+]*(?:-[A-Za-z0-9_'+]+)+$")
USE = re.compile(r"use\s+(Rattle\.)?([\w.+·'-]+?)(?:\.\{([^}]*)\})?(?:\s+as\s+(\S+))?\s*;?\s*$", re.M)
OWN = {os.path.basename(p) for p in glob.glob("crates/*")}
FIELD = re.compile(r"^\s+pub ([^\s:]+(?: [^\s:]+)*) :", re.M)
BOUND = re.compile(r"\blet ([^\s:=]+)")
LOWER_TYPE = re.compile(r"^(?:abbrev|unfoldable) (?:pub )?([a-z][^\s:]*) :[^\n]*→ Type 0\s*$", re.M)


def snake(name):
    return name.replace("-", "_")


def camel(name):
    return "".join(part[:1].upper() + part[1:] for part in name.split("-"))


def spelled(name, types):
    if name in types or name[:1].isupper():
        return camel(name)
    return snake(name)


def files():
    for top in ("crates/*/specs/**/*.antt", "crates/*/proofs/**/*.antt", "crates/*/src/**/*.rt"):
        yield from sorted(glob.glob(top, recursive=True))


def imports(text):
    """The names that a file takes from this repository, and those that it takes from elsewhere."""
    own, other = set(), set()
    for m in USE.finditer(text):
        rattle, path, names, alias = m.groups()
        crate = path.split(".")[0]
        to = own if rattle and crate in OWN else other
        for name in (names or "").split(","):
            parts = name.split(" as ")
            if parts[0].strip():
                to.add(parts[0].strip())
                # a name given by the file itself
                own.update(p.strip() for p in parts[1:])
        if alias:
            own.add(alias.strip("; "))
    return own, other


def is_of_a_function(path):
    return os.path.basename(path) in ("Answers.antt", "Invariants.antt")


def main():
    texts = {p: open(p, encoding="utf-8").read() for p in files()}
    fields, types = set(), set()
    for path, text in texts.items():
        if path.endswith(".antt"):
            types.update(LOWER_TYPE.findall(text))
            if not is_of_a_function(path):
                for group in FIELD.findall(text):
                    fields.update(group.split())
    changed = {}
    for path, text in texts.items():
        own, other = imports(text)
        narrow = path.endswith(".rt") or is_of_a_function(path)
        bound = set(BOUND.findall(text))

        def turn(m):
            word = m.group(0)
            if word in types and (word in own or not narrow):
                return camel(word)
            if not DASHED.match(word):
                return word
            if word in other and word not in own:
                return word
            if narrow and word not in own | fields | bound:
                return word
            return spelled(word, types)

        lines = []
        for line in text.split("\n"):
            if path.endswith(".rt") and not re.search(r"ghost|requires|ensures|λ|≡|specs", line):
                lines.append(line)
                continue
            library = re.match(r"\s*(?:ghost )?use (?:pub )?(\S+?)\.\{", line)
            if library and not (library.group(1).startswith("Rattle.") and library.group(1).split(".")[1] in OWN):
                lines.append(line)
                continue
            head, comment = (line.split("-- ", 1) + [None])[:2] if path.endswith(".antt") and re.search(r"(^|\s)-- ", line) else (line, None)
            head = WORD.sub(turn, head)
            lines.append(head if comment is None else head + "-- " + comment)
        new = "\n".join(lines)
        before = set(WORD.findall(text))
        met = {}
        for word in before:
            if DASHED.match(word) or word in types:
                met.setdefault(spelled(word, types), set()).add(word)
        for to, words in met.items():
            if to in before:
                words = words | {to}
            if len(words) > 1 and to in set(WORD.findall(new)):
                print(f"{path}: {' and '.join(sorted(words))} fall together")
        if new != text:
            changed[path] = new
    for path, new in changed.items():
        with open(path, "w", encoding="utf-8") as f:
            f.write(new)
    print(f"{len(changed)} files respelled")


if __name__ == "__main__":
    sys.exit(main())
