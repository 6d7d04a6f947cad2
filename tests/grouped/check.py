#!/usr/bin/env python3
"""Make every call of crates/grouped/stdin by request 08 of document 02 anew and hold every line of crates/grouped/stdout to it."""

import sys
from pathlib import Path

HERE = Path(__file__).resolve().parent
OUT = HERE.parent.parent / "crates" / "grouped"

LONGEST_FILE, LONGEST_SHEET, DEEPEST = 4100, 4096, 4
CHECK, CHOOSE, MOVE, BACK = range(4)


class Refused(Exception):
    """Number and place."""


def item(given, at, end):
    """Tag, data and end of the record or group at this place; None where it does not fit before `end`."""
    if at + 3 > end:
        return None
    data = at + 3
    after = data + int.from_bytes(given[at + 1:at + 3], "big")
    return (given[at], data, after) if after <= end else None


def group(given, at, data, after, depth, around):
    """The records of the group with its tag at `at`, each with the names of the groups around it."""
    if data == after or data + 1 + given[data] > after:
        raise Refused(20, at)
    if depth > DEEPEST:
        raise Refused(21, at)
    members = data + 1 + given[data]
    names = around + [given[data + 1:members]]
    found = []
    while members < after:
        met = item(given, members, after)
        if met is None:
            raise Refused(20, members)
        tag, first, last = met
        if tag == 0:
            found += group(given, members, first, last, depth + 1, names)
        elif tag in (52, 255):
            raise Refused(10, members)
        else:
            found.append((given[members:last], names))
        members = last
    return found


def read(given):
    """The records of a file, in written order, with the names around them."""
    if len(given) > LONGEST_FILE:
        raise Refused(16, len(given))
    if not given or given[0] != 0:
        raise Refused(20, 0)
    met = item(given, 0, len(given))
    if met is None:
        raise Refused(20, 0)
    found = group(given, 0, met[1], met[2], 1, [])
    if met[2] < len(given):
        raise Refused(20, met[2])
    return found


def choose(given, class_):
    return b"".join(record for record, names in read(given) if all(name in (b"", class_) for name in names))


def move(sheet):
    if len(sheet) > LONGEST_SHEET:
        raise Refused(16, len(sheet))
    at = 0
    while at < len(sheet):
        met = item(sheet, at, len(sheet))
        if met is None:
            raise Refused(12, at)
        if met[0] in (0, 52, 255):
            raise Refused(10, at)
        at = met[2]
    return b"\0" + (len(sheet) + 1).to_bytes(2, "big") + b"\0" + sheet


def back(given):
    if any(names != [b""] for _, names in read(given)) or given[3] != 0 or has_group(given):
        raise Refused(22, 0)
    return given[4:]


def has_group(given):
    """Whether a group stands in the outermost one, which may hold no record at all."""
    at = 4 + given[3]
    while at < len(given):
        if given[at] == 0:
            return True
        at = item(given, at, len(given))[2]
    return False


def total(bytes_):
    number = 0
    for byte in bytes_:
        number = (31 * number + byte) % 1000003
    return number


def printed(which, old, class_, given):
    try:
        if which == CHECK:
            read(given)
            return "passed\n-\n"
        gives = choose(given, class_) if which == CHOOSE else move(given) if which == MOVE else back(given)
        if len(old) < len(gives):
            raise Refused(11, len(old))
    except Refused as refusal:
        return "refused {} {}\n".format(*refusal.args) + f"buffer sum {total(old)}\n-\n"
    return f"given {len(gives)}\nbytes {gives.hex()}\nrest sum {total(old[len(gives):])}\n-\n"


def cases(given):
    at = 0
    while at < len(given):
        which, room, fill = given[at], int.from_bytes(given[at + 1:at + 3], "big"), given[at + 3]
        letters, size = int.from_bytes(given[at + 4:at + 6], "big"), int.from_bytes(given[at + 6:at + 8], "big")
        class_, at = given[at + 8:at + 8 + letters], at + 8 + letters
        assert at + size <= len(given)
        yield which, bytes((fill + i) & 255 for i in range(room)), class_, given[at:at + size]
        at += size


def main():
    found = list(cases((OUT / "stdin").read_bytes()))
    expected = (OUT / "stdout").read_text().split("-\n")
    differing = abs(len(expected) - 1 - len(found))
    for i, (case, want) in enumerate(zip(found, expected)):
        have = printed(*case)
        if have != want + "-\n":
            differing += 1
            print(f"case {i}: call {case[0]}, class {case[2].hex()}, {len(case[1])} bytes lent, given {case[3].hex()}\nmade:\n{have}expected:\n{want}-")
    print(f"{len(found)} cases, {differing} differ")
    return 1 if differing else 0


if __name__ == "__main__":
    sys.exit(main())
