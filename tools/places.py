"""Lists the places in crates/*/src that older forms of the language leave behind, point by point.

    python3 tools/places.py [FOLDER [POINT]]

FOLDER holds the crates (default: crates), POINT is a number from 1 to 7. Each point ends with a line
`point N: M places`. A place listed is one to read, and not yet one to change. Tests (#[cfg(test)]) are left
out.
"""
import pathlib
import re
import sys
from collections import defaultdict

WORD = re.compile(r"[A-Za-z_][A-Za-z_0-9]*|\d+|\"[^\"]*\"|'.'|\S")
KEYWORDS = set("as break const else enum fn for if impl in let loop match mod move mut pub ref return self Self "
               "static struct trait type use where while true false".split())


def sources(folder):
    for path in sorted(pathlib.Path(folder).glob("*/src/**/*.rt")):
        text = path.read_text()
        text = text.split("#[cfg(test)]")[0]
        yield path, text


def line_of(text, at):
    return text.count("\n", 0, at) + 1


def block(text, at):
    """The braces that open at or behind a place, and what they hold."""
    start = text.index("{", at)
    depth = 0
    for i in range(start, len(text)):
        depth += {"{": 1, "}": -1}.get(text[i], 0)
        if depth == 0:
            return start, i + 1
    return start, len(text)


def functions(text):
    """Each function: its place, name, header with clauses, and body."""
    for found in re.finditer(r"^( *)(?:pub(?:\(crate\))? )?(?:final )?fn (\w+)", text, re.M):
        # the body opens at a brace that ends a line or stands alone, clauses hold theirs on one line
        opening = re.compile(r"(?:^" + found[1] + r"\{$)|(?:\{$)", re.M).search(text, found.end())
        if not opening:
            continue
        start = text.index("{", opening.start()) if text[opening.start()] != "{" else opening.start()
        start, end = block(text, start)
        yield found.start(), found[2], text[found.start():start], text[start:end]


def show(path, text, at, what):
    print(f"  {path}:{line_of(text, at)}: {what}")


def point_1(folder):
    """Enums with a case that says 'none' or with one case that holds a value beside others, flags that stand
    beside a value, and bytes in signatures and fields, which may be numbers of kinds or refusals."""
    places = 0
    none = re.compile(r"\b(None|Nothing|Unnumbered|Empty|Past|Missing|Absent|Wrong|Settled|Unused|Unknown)\b")
    for path, text in sources(folder):
        for found in re.finditer(r"^(?:pub )?enum (\w+)", text, re.M):
            start, end = block(text, found.start())
            cases = [c for c in re.findall(r"^    (\w+)(?:\(|,|\n| =)", text[start:end], re.M)]
            if any(none.fullmatch(c) for c in cases):
                places += 1
                show(path, text, found.start(), f"enum {found[1]}: {', '.join(cases)}")
        for found in re.finditer(r"^    (?:pub )?\w+: bool,|let mut (\w+) = (?:false|true);", text, re.M):
            places += 1
            show(path, text, found.start(), found[0].strip())
        for found in re.finditer(r"(?:^|\W)(\w*(?:kind|number|code|refusal|low|high)\w*: u8\b|-> u8\b|\(u8, u8\))", text):
            places += 1
            show(path, text, found.start(1), found[1])
    return places


def shape(body):
    """The words of a body, with every name of a type, a field or a value, and every number, made alike."""
    words = []
    for word in WORD.findall(re.sub(r"//.*", "", body)):
        words.append(word if word in KEYWORDS or not re.match(r"[\w\"']", word) else "_")
    return tuple(words)


def point_2(folder):
    """Functions whose bodies have one shape, types whose fields have one shape, and functions of one name in
    one file."""
    places = 0
    bodies = defaultdict(list)
    for path, text in sources(folder):
        named = defaultdict(list)
        for at, name, _, body in functions(text):
            form = shape(body)
            named[name].append(line_of(text, at))
            if len(form) > 12:
                bodies[form].append(f"{path}:{line_of(text, at)}: fn {name}")
        for name, lines in named.items():
            if len(lines) > 1:
                places += len(lines)
                print(f"  {path}: fn {name} at lines {', '.join(map(str, lines))}")
        for found in re.finditer(r"^(?:pub )?struct (\w+)", text, re.M):
            if text[found.end()] in " <" and "{" in text[found.end():found.end() + 8]:
                start, end = block(text, found.start())
                bodies[("struct",) + shape(re.sub(r"ghost .*", "", text[start:end]))].append(
                    f"{path}:{line_of(text, found.start())}: struct {found[1]}")
    for alike in bodies.values():
        if len(alike) > 1:
            places += len(alike)
            print("  alike:")
            for one in alike:
                print(f"    {one}")
    return places


def point_3(folder):
    """Loops over numbers, loops that cut a rest by hand, and counters."""
    places = 0
    loop = re.compile(r"for \w+ in [^{\n]*\.\.|while let [^\n]*|while [^\n]*|\bloop \{|\w+ \+= 1;|= \w+\.saturating_add\(1\)"
                      r"|for \w+ in \w+ \{\n[^}]*= \w+\.?\w*\(")
    for path, text in sources(folder):
        for found in loop.finditer(text):
            places += 1
            show(path, text, found.start(), found[0].split("\n")[0])
    return places


def point_4(folder):
    """Functions that compare, convert or name by hand: by their names and results."""
    places = 0
    name = re.compile(r"same|equal|rank|from_|into_|to_|number|read|code|_name$|_words$|^named?$|decode|parse|nibble|^of$|^show_|^get$")
    for path, text in sources(folder):
        for at, fn, header, _ in functions(text):
            if name.search(fn):
                places += 1
                show(path, text, at, f"fn {fn}")
    return places


def point_5(folder):
    """Facts that the clauses of three or more functions name, and groups of three or more parameters that
    stand together in three or more functions."""
    places = 0
    facts, groups = defaultdict(list), defaultdict(list)
    for path, text in sources(folder):
        crate = path.parts[-3] if path.parts[-2] == "src" else path.parts[-4]
        for at, fn, header, _ in functions(text):
            where = f"{path}:{line_of(text, at)}: fn {fn}"
            for clause in re.findall(r"(?:requires|ensures)[^{]*\{(.*)\}", header):
                for fact in set(re.findall(r"(?<![\w.])([A-Z]\w+)(?= )|([\w.]+ ≤ \d+)", clause)):
                    word = fact[0] or re.sub(r"^\w+\.(?:now|old|new)\.", "", fact[1])
                    if word not in ("Some", "None", "Ok", "Err", "MatchOption", "MatchResult", "IfSome", "IfOk"):
                        facts[word].append(where)
            names = re.findall(r"(\w+): ", header.split("ensures")[0].split("requires")[0])
            for i in range(len(names)):
                for j in range(i + 2, len(names)):
                    if len(set(names[i:j + 1])) == 3:
                        groups[tuple(sorted(names[i:j + 1]))].append(where)
            if re.search(r"&(?:'a )?(?:mut )?self", header):
                for i in range(len(names) - 1):
                    groups[("self",) + tuple(sorted(names[i:i + 2]))].append(where)
    for word, where in sorted(facts.items()):
        if len(set(where)) > 2:
            places += 1
            print(f"  fact {word}: {len(set(where))} functions: " + "; ".join(w.split(": fn ")[1] for w in dict.fromkeys(where)))
    for names, where in sorted(groups.items()):
        if len(set(where)) > 2:
            places += 1
            print(f"  parameters {', '.join(names)}: {len(set(where))} functions: " + "; ".join(w.split(": fn ")[1] for w in dict.fromkeys(where)))
    return places


def point_6(folder):
    """Arrays of a fixed size, and fields that say how long something else is."""
    places = 0
    for path, text in sources(folder):
        for found in re.finditer(r"^ +(?:pub )?\w+: \[[^\]]*; [^\]]*\],|^ +(?:pub )?(?:depth|len|length|size|used|kept|waiting|start|count)\w*: usize,|^ +(?:pub )?\w+: Vec<[^\n]*", text, re.M):
            places += 1
            show(path, text, found.start() + 1, found[0].strip())
    return places


def point_7(folder):
    """Function pointers, dyn, boxed closures, and enums whose cases are steps that a match runs."""
    places = 0
    for path, text in sources(folder):
        for found in re.finditer(r"\bfn\(|\bdyn |Box<|enum (?:Call|Step|Op|Action|Command|Mode|Task)\b", text):
            places += 1
            show(path, text, found.start(), found[0])
    return places


def main():
    folder = sys.argv[1] if len(sys.argv) > 1 else "crates"
    wanted = sys.argv[2] if len(sys.argv) > 2 else "1234567"
    for number, point in enumerate((point_1, point_2, point_3, point_4, point_5, point_6, point_7), 1):
        if str(number) in wanted:
            print(f"point {number}: {' '.join(point.__doc__.split())}")
            print(f"point {number}: {point(folder)} places")


main()
