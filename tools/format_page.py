"""The tables of docs/FORMAT.md: the kinds of records and the cases of cased fields."""
import re

ABSENT = 0xFFFFFFFF
PAGE = open("docs/FORMAT.md").read()


def sort_of(text):
    """The sort of a field, without its name and links."""
    return re.sub(r"\[(\w+)\]\(#\w+\)", r"\1", re.sub(r"^`[\w.]+` ", "", text))


def read_kinds():
    """For each kind its name, the sorts of its fields, and the length of the whole record."""
    kinds = {}
    for row in re.finditer(r"^\| (\d+) \| [0-9A-F]{2} \| `([\w:]+)` \| (.*) \| (\d+) \|$", PAGE, re.M):
        fields = [] if row[3] == "none" else [sort_of(field) for field in row[3].split("; ")]
        kinds[int(row[1])] = (row[2], fields, int(row[4]))
    return kinds


def read_cased():
    """For each cased field and each of its cases the sorts of the words behind the case byte."""
    cased = {}
    for table in re.finditer(r"^### (\w+)\n\nIn kinds? .*\n\n((?:\|.*\n)+)", PAGE, re.M):
        rows = [[cell.strip() for cell in line.strip("|").split("|")] for line in table[2].splitlines()][2:]
        if table[1] == "MeshInfo":
            cased[table[1]] = {case: [sort_of(row[1 + case]) for row in rows] for case in (0, 1)}
        else:
            cased[table[1]] = {int(row[0]): [sort_of(cell) for cell in row[2:]] for row in rows}
    return cased


KINDS = read_kinds()
CASED = read_cased()
assert len(KINDS) == 91 and len(CASED) == 8
