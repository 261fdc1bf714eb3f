#!/usr/bin/env python3
"""Prints what examples/c/walk.c must print for crates/modseal/data/sealed.img, by the second implementation of walks.

Run from the repository's root: python3 tools/c_walks.py > examples/c/walk.stdout
"""
from sample_images import SEALED
from second_walk import tables, takes, values


def show(name, table):
    depths, steady = values(table)
    print(f"{name}: {len(table)} items, {takes(table)} operands")
    if table:
        print("   depth ", *depths)
        print("   steady", *map(int, steady))


for name, table in tables(SEALED):
    body = name.startswith(("function ", "entry point "))
    if name == "function 0":
        print("global expressions, one place too few: refused with 15")
    if name == "entry point 0":
        print(f"body of function {len(SEALED.functions)}: refused with 14")
    show(f"body of {name}" if body else name, table)
print(f"body of entry point {len(SEALED.entries)}: refused with 14")
print("table 6: refused with 14")
