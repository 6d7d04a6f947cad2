#!/usr/bin/env python3
"""Write every sheet of crates/sheets/stdin by document 01 and requests 02, 03, 09 and 14 anew and hold every line of crates/sheets/stdout to it."""

import sys
from pathlib import Path

HERE = Path(__file__).resolve().parent
sys.path.append(str(HERE.parent))
import reader
from reader import Refused, code_line, join, read, records

OUT = HERE.parent.parent / "crates" / "sheets"

FIELDS = {"options": (240, 1472), "file": (108, 236), "sname": (44, 108)}  # in reading order
PERMITTED = {0: (0,), 1: (0, 1), 2: (0, 2), 3: (0, 1, 2, 3)}


def fault(sheet, at, met):
    """The number of the first rule that the record at this place breaks, or None."""
    head = sheet[at:at + 3]
    if len(head) < 3:
        return 12
    tag, length = head[0], int.from_bytes(head[1:], "big")
    data = sheet[at + 3:at + 3 + length]
    if len(data) < length:
        return 12
    if tag in (0, 52, 255):
        return 10
    if length > 1024:
        return 13
    if tag in met:
        return 7
    return reader.fault(tag, data)


def judge(sheet):
    """The records as {tag: data}, in order."""
    at, met, places = 0, {}, {}
    while at < len(sheet):
        number = fault(sheet, at, met)
        if number:
            raise Refused(number, at)
        tag, length = sheet[at], int.from_bytes(sheet[at + 1:at + 3], "big")
        met[tag], places[tag] = sheet[at + 3:at + 3 + length], at
        at += 3 + length
    if 1 in places and 3 in places and places[3] < places[1]:
        raise Refused(14, places[3])
    if 82 in places and list(met)[-1] != 82:
        raise Refused(23, places[82])
    return met


def pieces(tag, data):
    """The options that a record becomes: one, or pieces of 255 bytes and a last one."""
    while len(data) > 255:
        yield bytes((tag, 255)) + data[:255]
        data = data[255:]
    yield bytes((tag, len(data))) + data


def place(records, plan, length):
    """What each field of the plan holds, END included; None where a piece or an END finds no room."""
    rooms = {"options": length - 240}
    rooms.update({name: FIELDS[name][1] - FIELDS[name][0] for name, bit in (("file", 1), ("sname", 2)) if plan & bit})
    held = {name: b"" for name in rooms}
    if plan:
        held["options"] = bytes((52, 1, plan))
    names = list(rooms)
    for option in (piece for record in records.items() for piece in pieces(*record)):
        while names and len(held[names[0]] + option) >= rooms[names[0]]:
            names.pop(0)  # the next field, and never this one again
        if not names:
            return None
        held[names[0]] += option
    held = {name: bytes_ + b"\xff" for name, bytes_ in held.items()}
    return held if all(len(held[name]) <= rooms[name] for name in held) else None


def write(sheet, m, permission):
    """The plan, and the buffer written."""
    if len(m) < 240:
        raise Refused(1, len(m))
    if len(m) > 1472:
        raise Refused(2, len(m))
    if permission > 3:
        raise Refused(15, 0)
    if len(sheet) > 4096:
        raise Refused(16, len(sheet))
    judged = judge(sheet)
    for plan in PERMITTED[permission]:
        held = place(judged, plan, len(m))
        if held:
            written = bytearray(m)
            written[236:240] = (99, 130, 83, 99)
            for name, bytes_ in held.items():
                start, end = FIELDS[name]
                end = min(end, len(m))
                written[start:end] = bytes_.ljust(end - start, b"\0")
            assert len(written) == len(m)
            return plan, bytes(written)
    raise Refused(11, len(m))


def back(m):
    """The records of a message, and the number of its pieces."""
    met = read(m)
    return records(join(met)), len(met)


def mixed(bytes_):
    number = 0
    for byte in bytes_:
        number = (31 * number + byte) % 1000003
    return f"sum {number}"


def shown(bytes_):
    kept = bytes_.rstrip(b"\0")
    return f"{kept.hex()} zeros {len(bytes_) - len(kept)}"


def printed(permission, old, sheet):
    try:
        plan, m = write(sheet, old, permission)
    except Refused as refusal:
        return "refused {} {}\n".format(*refusal.args) + f"buffer {mixed(old)}\n-\n"
    taken, count = back(m)
    sname, file = (shown if plan & 2 else mixed)(m[44:108]), (shown if plan & 1 else mixed)(m[108:236])
    codes = "".join(code_line(m, code) + "\n" for code in (*judge(sheet), 52, 222))
    return (f"plan {plan}\nheader {mixed(m[:44])}\nsname {sname}\nfile {file}\ncookie {shown(m[236:240])}\n"
            f"options {shown(m[240:])}\nback {'same' if taken == sheet else 'differs'}\naccepted {count}\n{codes}-\n")


def cases(given):
    at = 0
    while at < len(given):
        permission, length, fill = given[at], int.from_bytes(given[at + 1:at + 3], "big"), given[at + 3]
        size = int.from_bytes(given[at + 6:at + 8], "big")
        assert given[at + 4:at + 6] == b"\0\0" and at + 8 + size <= len(given)
        yield permission, bytes((fill + i) & 255 for i in range(length)), given[at + 8:at + 8 + size]
        at += 8 + size


def main():
    found = list(cases((OUT / "stdin").read_bytes()))
    expected = (OUT / "stdout").read_text().split("-\n")
    differing = abs(len(expected) - 1 - len(found))
    for i, (case, want) in enumerate(zip(found, expected)):
        have = printed(*case)
        if have != want + "-\n":
            differing += 1
            print(f"case {i}: permission {case[0]}, {len(case[1])} bytes, sheet {case[2].hex()}\nwritten:\n{have}expected:\n{want}-")
    print(f"{len(found)} cases, {differing} differ")
    return 1 if differing else 0


if __name__ == "__main__":
    sys.exit(main())
