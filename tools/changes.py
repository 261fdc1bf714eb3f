"""Lists, as old and new lines, the public items and the definitions that differ from those of a commit.

    python3 tools/changes.py COMMIT

Of crates/*/src: the signature and clauses of each public function, the fields, cases and ghost fields of each
public type, and each impl's ghost members. Of crates/*/specs: each definition. What only moved is not listed.
"""
import difflib
import pathlib
import re
import subprocess
import sys


def git(*words):
    return subprocess.run(["git", *words], capture_output=True, text=True, check=True).stdout


def old_files(commit):
    for name in git("ls-tree", "-r", "--name-only", commit, "crates").split():
        if re.search(r"/(src|specs)/.*\.(rt|antt)$", name):
            yield name, git("show", f"{commit}:{name}")


def new_files():
    for path in sorted(pathlib.Path("crates").glob("*/src/**/*.rt")):
        yield str(path), path.read_text()
    for path in sorted(pathlib.Path("crates").glob("*/specs/**/*.antt")):
        yield str(path), path.read_text()


def definitions(text):
    """Blocks of a file of definitions by name, comments and imports left out."""
    found = {}
    for block in re.split(r"\n\s*\n", text):
        lines = [l for l in block.split("\n") if not re.match(r"\s*(--|use |pub use |pub mod )", l) and l.strip()]
        # what stands first in a module is listed with the module's parameters, under its own name
        first = next((l for l in lines if not re.match(r"\s*module _", l)), None)
        if not first:
            continue
        name = re.match(r"\s*(?:abbrev |unfoldable )?(?:pub )?(?:record )?(?:abbrev )?(?:pub )?([^\s:]+)", first)
        found[name[1]] = [l.rstrip() for l in lines]
    return found


def items(text):
    """Public functions, types and ghost members of a source file by name."""
    found = {}
    text = text.split("#[cfg(test)]")[0]
    owner = ""
    lines = text.split("\n")
    i = 0
    while i < len(lines):
        line = lines[i]
        impl = re.match(r"(?:pub )?(impl\b.*|trait .*) \{", line)
        inner = re.match(r"pub mod (\w+) \{", line)
        shape = re.match(r"( *)pub (?:struct|enum|type|const) (\w+)", line)
        if inner:
            owner = inner[1] + "::"
        elif impl:
            owner = re.sub(r"<'\w+>|<'_>", "", impl[1]).replace("impl ", "").strip() + "::"
        elif line == "}":
            owner = ""
        if re.match(r"\s*(pub fn|fn .*\bwhere\b|pub final fn)", line) or (owner.startswith("trait") and re.match(r"\s*fn", line)):
            name = re.search(r"fn (\w+)", line)[1]
            header = []
            while True:
                header.append(lines[i].strip())
                if re.match(r"^\s*\{$", lines[i]) or re.search(r"(?:[^{]|^)\{$", lines[i]) or lines[i].rstrip().endswith(";") or lines[i].rstrip().endswith("};"):
                    break
                i += 1
            text_ = re.sub(r"\s*\{$", "", " ".join(header)).replace("( ", "(").replace(", )", ")")
            parts = re.split(r" (?=(?:requires|ensures)\b)", text_)
            found[owner + name] = parts
        elif shape:
            indent = shape[1]
            body = [line[len(indent):]]
            if line.rstrip().endswith("{"):
                while lines[i] not in (indent + "}", indent + "};"):
                    i += 1
                    if not re.match(r"\s*(///|//)", lines[i]):
                        body.append(lines[i][len(indent):])
            found[owner + shape[2]] = body
        elif re.match(r"\s*ghost \w+", line) and " use " not in line:
            name = re.search(r"ghost (\w+)", line)[1]
            found[owner + "ghost " + name] = [line.strip()]
        i += 1
    return found


def gather(files):
    code, specs = {}, {}
    for name, text in files:
        crate = name.split("/")[1]
        if "/src/" in name:
            for key, value in items(text).items():
                code[(crate, key)] = value
        else:
            for key, value in definitions(text).items():
                specs[(crate, key)] = value
    return code, specs


def report(title, old, new):
    print(f"### {title}\n")
    for key in sorted(set(old) | set(new)):
        before, after = old.get(key), new.get(key)
        if before == after:
            continue
        crate, name = key
        print(f"`{crate}`: `{name}`" + ("" if before and after else ", gone" if before else ", new") + "\n\n```diff")
        diff = difflib.unified_diff(before or [], after or [], lineterm="", n=0)
        for line in diff:
            if not line.startswith(("---", "+++", "@@")):
                print(line)
        print("```\n")


def main():
    commit = sys.argv[1]
    old_code, old_specs = gather(old_files(commit))
    new_code, new_specs = gather(new_files())
    report("Public items of the code", old_code, new_code)
    report("Definitions", old_specs, new_specs)


main()
