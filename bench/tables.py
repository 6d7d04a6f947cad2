#!/usr/bin/env python3
"""The tables that the compiler has put into an archive, and their rows: request 04 allows no array indexed by code or of more than 64 rows.

    tables.py ARCHIVE...

A table is what a `match` becomes: constants, in a section of its own whose alignment is the width of a row, or jumps, four bytes each, in the section of
the function's constants. Stops with 1 where a table has more than 64 rows; one that is indexed by code has 76, from 1 to 76. Constants of 16 bytes, for
moves, are no table.
"""
import re
import subprocess
import sys

MOST = 64


def objdump(*words):
    return subprocess.run(["objdump", *words], check=True, capture_output=True, text=True).stdout


def sections(archive):
    return re.findall(r"^ *\d+ (\S+) +([0-9a-f]{8}) .*? 2\*\*(\d+) ", objdump("-h", "-w", archive), re.M)


def jump_tables(archive, name, size):
    """The rows of each table of jumps in a section: it ends where the next begins."""
    starts = {0, size}
    for place in re.findall(re.escape(name) + r"([+-]0x[0-9a-f]+)?$", objdump("-r", "-w", archive), re.M):
        # a distance is counted from the end of the instruction's four bytes
        starts.add((int(place, 16) if place else 0) + 4)
    starts = sorted(s for s in starts if 0 <= s <= size and s % 4 == 0)
    return [(b - a) // 4 for a, b in zip(starts, starts[1:])]


def tables(archive):
    for name, size, align in sections(archive):
        size, align = int(size, 16), 2 ** int(align)
        if name.startswith(".rodata..Lswitch.table"):
            yield name, size // align, "constants"
        elif name.startswith(".rodata.") and not name.startswith(".rodata.cst"):
            for rows in jump_tables(archive, name, size):
                yield name, rows, "jumps"
        elif name.startswith((".rodata", ".data")) and not name.startswith(".rodata.cst"):
            sys.exit(f"{archive}: {name} is not known here")


wrong = 0
for archive in sys.argv[1:]:
    found = list(tables(archive))
    for name, rows, of in found:
        if rows > MOST:
            print(f"{archive}: {name}: {rows} {of}")
            wrong += 1
    print(f"{archive}: {len(found)} tables, the largest of {max((r for _, r, _ in found), default=0)} rows")
sys.exit(1 if wrong else 0)
