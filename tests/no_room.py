#!/usr/bin/env python3
"""Request 12, from its words: every cutting of the pieces is tried, plan by plan, and what the second writer does is held to it.

"11 is given, all earlier checks passed, exactly when no permitted plan has any cutting of the pieces, in order, into one consecutive run, perhaps empty, per field .. such that each run
fits with its END, and 52 where the plan is not 0. The plan used is the lowest-numbered with such a cutting."
The sheets of crates/sheets/stdin and sheets made at random go through it; then the table of docs/NO-ROOM.md."""

import random
import re
import sys
from pathlib import Path

HERE = Path(__file__).resolve().parent
sys.path.append(str(HERE))
sys.path.append(str(HERE / "sheets"))
import check
from reader import Refused

PLANS = {0: (0,), 1: (0, 1), 2: (0, 2), 3: (0, 1, 2, 3)}


def pieces_of(sheet):
    """The bytes that each piece takes, in order: 2 and its data."""
    taken, at = [], 0
    while at < len(sheet):
        length = int.from_bytes(sheet[at + 1:at + 3], "big")
        while length > 255:
            taken.append(257)
            length -= 255
        taken.append(2 + length)
        at += 3 + int.from_bytes(sheet[at + 1:at + 3], "big")
    return taken


def has_cutting(plan, options, taken):
    """Is there any? Every cut is tried: the first run ends at i, the second at j."""
    head = 3 if plan else 0
    file, sname = plan in (1, 3), plan in (2, 3)
    sums = [0]
    for n in taken:
        sums.append(sums[-1] + n)
    last = len(taken)
    for i in range(last + 1):
        for j in range(i, last + 1):
            fits = head + sums[i] + 1 <= options
            fits = fits and (sums[j] - sums[i] + 1 <= 128 if file else i == j)
            fits = fits and (sums[last] - sums[j] + 1 <= 64 if sname else j == last)
            if fits:
                return True
    return False


def by_cuttings(sheet, size, permission):
    """The plan, or None for an 11, all earlier checks passed."""
    taken = pieces_of(sheet)
    for plan in PLANS[permission]:
        if has_cutting(plan, size - 240, taken):
            return plan
    return None


def differs(sheet, size, permission):
    """Does the second writer say something else? None where an earlier check refuses."""
    try:
        plan = check.write(sheet, bytes(size), permission)[0]
    except Refused as refusal:
        number, place = refusal.args
        if number != 11:
            return None
        if place != size:
            return True
        plan = None
    return plan != by_cuttings(sheet, size, permission)


def made(rnd):
    """A sheet without a code that has a kind, so that sizes alone decide."""
    codes = rnd.sample(range(128, 254), rnd.randrange(1, 9))
    sheet = b""
    for code in codes:
        length = rnd.choice((0, 1, 4, 20, 45, 61, 62, 63, 100, 125, 126, 127, 200, 254, 255, 256, 300, 316, 510, 511)) + rnd.choice((0, 0, 0, 1, -1))
        sheet += bytes((code,)) + max(length, 0).to_bytes(2, "big") + bytes(max(length, 0))
    return sheet


def example(long_at):
    """The nine settings of docs/NO-ROOM.md, with option 43 at this turn."""
    others = [(53, 1), (54, 4), (51, 4), (1, 4), (3, 4), (2, 4), (66, 24), (15, 26)]
    value = {53: b"\x02", 66: b"temperatures.example.org", 15: b"clinics.valley.example.org"}
    listed = others[:long_at] + [(43, 300)] + others[long_at:]
    return b"".join(bytes((c,)) + n.to_bytes(2, "big") + value.get(c, bytes((1,)) * n) for c, n in listed)


def least(sheet, permission):
    return next(size for size in range(240, 1473) if by_cuttings(sheet, size, permission) is not None)


def page():
    """The rows of the page: where option 43 stands, and the least size for each permission."""
    wrong = 0
    rows = re.findall(r"^\| [^|]*\((\d)\) \| (\d+) \| (\d+) \| (\d+) \| (\d+) \|$", (HERE.parent / "docs" / "NO-ROOM.md").read_text(), re.M)
    for turn, *sizes in rows:
        sheet = example(int(turn) - 1)
        for permission, size in enumerate(sizes):
            if least(sheet, permission) != int(size) or differs(sheet, int(size), permission) or differs(sheet, int(size) - 1, permission):
                wrong += 1
                print(f"docs/NO-ROOM.md: 43 at {turn}, permission {permission}: {least(sheet, permission)}, the page has {size}")
    return len(rows), wrong


def main():
    tried, differing, room, none = 0, 0, 0, 0
    rnd = random.Random(12)
    cases = [(sheet, len(m), permission) for permission, m, sheet in check.cases((check.OUT / "stdin").read_bytes())]
    for _ in range(6000):
        sheet = made(rnd)
        total = sum(pieces_of(sheet)) + 241
        size = min(1472, max(240, total - rnd.choice((0, 0, 3, 60, 64, 124, 128, 180, 192, 250)) + rnd.randrange(-5, 6)))
        cases += [(sheet, size, permission) for permission in range(4)]
    for sheet, size, permission in cases:
        answer = differs(sheet, size, permission)
        if answer is None:
            continue
        tried += 1
        if by_cuttings(sheet, size, permission) is None:
            none += 1
        else:
            room += 1
        if answer:
            differing += 1
            print(f"permission {permission}, {size} bytes, sheet {sheet.hex()}")
    rows, wrong = page()
    print(f"{tried} sheets by every cutting, {room} with room and {none} without; {rows} rows of the page; {differing + wrong} differ")
    return 1 if differing or wrong or not rows or not room or not none else 0


if __name__ == "__main__":
    sys.exit(main())
