#!/usr/bin/env python3
"""Read and write every case of crates/items/stdin by requests 05 and 09 of document 02 anew and hold every line of crates/items/stdout to it."""

import sys
from pathlib import Path

HERE = Path(__file__).resolve().parent
sys.path.append(str(HERE.parent))
from reader import Refused, split

OUT = HERE.parent.parent / "crates" / "items"


def items(data):
    """The items inside an option 43: "0 is a pad; 255 ends; the bytes running out between items also ends"."""
    at, met = 0, []
    while at < len(data) and data[at] != 255:
        if data[at] == 0:
            at += 1
            continue
        length = data[at + 1] if at + 1 < len(data) else 256
        if at + 2 + length > len(data):
            raise Refused(17, at)
        met.append((data[at], data[at + 2:at + 2 + length]))
        at += 2 + length
    return met


def sub_options(data):
    """The sub-options inside an option 82: "no pads, no END"."""
    met, past = split(data)
    if past is not None:
        raise Refused(8, past)
    if not met:
        raise Refused(8, 0)
    return met


def read_relay(data, room):
    """The records, and circuit id and remote id as (start, length) or None."""
    met = sub_options(data)
    listed = b"".join(bytes([code, 0, len(d)]) + d for code, _, d in met)
    if len(listed) > room:
        raise Refused(11, room)
    ids = [[(start, len(d)) for code, start, d in met if code == wanted] for wanted in (1, 2)]
    return listed, *(found[0] if found else None for found in ids)


def write_relay(sheet, room):
    if len(sheet) > 4096:
        raise Refused(16, len(sheet))
    at, given = 0, b""
    while at < len(sheet):
        length = int.from_bytes(sheet[at + 1:at + 3], "big")
        if at + 3 + length > len(sheet):
            raise Refused(12, at)
        if length > 255:
            raise Refused(13, at)
        given += bytes([sheet[at], length]) + sheet[at + 3:at + 3 + length]
        at += 3 + length
    if given == b"":
        raise Refused(8, 0)
    if len(given) > 255 or len(given) > room:
        raise Refused(11, room)
    return given


def read(data, room):
    listed = b"".join(bytes([code]) + len(d).to_bytes(2, "big") + d for code, d in items(data))
    if len(listed) > room:
        raise Refused(11, room)
    return listed


def write(sheet, room):
    if len(sheet) > 4096:
        raise Refused(16, len(sheet))
    at, given = 0, b""
    while at < len(sheet):
        length = int.from_bytes(sheet[at + 1:at + 3], "big")
        if at + 3 > len(sheet) or at + 3 + length > len(sheet):
            raise Refused(12, at)
        if sheet[at] in (0, 255):
            raise Refused(10, at)
        if length > 255:
            raise Refused(13, at)
        given += bytes([sheet[at], length]) + sheet[at + 3:at + 3 + length]
        at += 3 + length
    if len(given) > min(room, 255):
        raise Refused(11, room)
    return given


def mixed(data):
    number = 0
    for byte in data:
        number = (31 * number + byte) % 1000003
    return number


def named(name, part):
    return f"{name} absent\n" if part is None else "{} {} {}\n".format(name, *part)


def back(reader, given, sheet):
    """Whether what was written reads as the sheet."""
    try:
        return "same" if reader(given, len(sheet)) == sheet else "differs"
    except Refused as refusal:
        return "refused {} {}".format(*refusal.args)


def printed(call, old, data):
    ids = []
    try:
        if call == 2:
            given, *ids = read_relay(data, len(old))
        else:
            given = {0: read, 1: write, 3: write_relay}[call](data, len(old))
    except Refused as refusal:
        return "refused {} {}".format(*refusal.args) + f" rest sum {mixed(old)}\n-\n"
    text = f"given {len(given)} {given.hex()} rest sum {mixed(old[len(given):])}\n"
    if call == 1:
        text += f"back {back(read, given, data)}\n"
    if call == 3:
        text += f"back {back(lambda *a: read_relay(*a)[0], given, data)}\n"
    return text + "".join(named(name, part) for name, part in zip(("circuit", "remote"), ids)) + "-\n"


def cases(given):
    at = 0
    while at < len(given):
        call, room, fill = given[at], int.from_bytes(given[at + 1:at + 3], "big"), given[at + 3]
        size = int.from_bytes(given[at + 6:at + 8], "big")
        assert given[at + 4:at + 6] == b"\0\0" and at + 8 + size <= len(given)
        yield call, bytes((fill + i) & 255 for i in range(room)), given[at + 8:at + 8 + size]
        at += 8 + size


def main():
    found = list(cases((OUT / "stdin").read_bytes()))
    expected = (OUT / "stdout").read_text().split("-\n")
    differing = abs(len(expected) - 1 - len(found))
    for i, (case, want) in enumerate(zip(found, expected)):
        have = printed(*case)
        if have != want + "-\n":
            differing += 1
            print(f"case {i}: call {case[0]}, room {len(case[1])}, {case[2].hex()}\nfound:\n{have}expected:\n{want}-")
    print(f"{len(found)} cases, {differing} differ")
    return 1 if differing else 0


if __name__ == "__main__":
    sys.exit(main())
