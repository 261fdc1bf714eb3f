"""A second implementation of the node tables and of both readings.

It is written from docs/WALK.md and docs/CHECK.md, over the modules of second_check.py.
"""
from format_page import KINDS
from second_check import EXPRESSIONS, FILTERS, FUNCTIONS, TYPES

STEADY = {"Literal", "Constant", "ZeroValue", "Compose", "Access", "AccessIndex", "Splat", "Swizzle", "Unary", "Binary",
          "Select", "Relational", "Math", "As"}
CALL_RESULT, CALL = 87, 144


def nodes(items, table):
    return [(item.kind, item.numbers(table)) for item in items]


def callees(body):
    calls = [e for e in body.expressions if e.kind == CALL_RESULT] + [s for s in body.statements if s.kind == CALL]
    return [number for item in calls for table, number in item.own() if table == FUNCTIONS]


def tables(module):
    """Each table by name, as the kind and the operands of each item."""
    yield "types", nodes(module.types, TYPES)
    yield "filters", nodes(module.filters, FILTERS)
    yield "functions", [(body.opener.kind, callees(body)) for body in module.functions]
    yield "global expressions", nodes(module.expressions, EXPRESSIONS)
    for name, bodies in (("function", module.functions), ("entry point", module.entries)):
        for number, body in enumerate(bodies):
            yield f"{name} {number}", nodes(body.expressions, EXPRESSIONS)


def is_steady(kind):
    sort, _, name = KINDS[kind][0].partition("::")
    return sort == "Expression" and name in STEADY


def values(table):
    """The depth of each item, and whether it is steady."""
    depths, steady = [], []
    for kind, operands in table:
        depths.append(1 + max((depths[k] for k in operands), default=0))
        steady.append(is_steady(kind) and all(steady[k] for k in operands))
    return depths, steady


def takes(table):
    return sum(len(operands) for _, operands in table)
