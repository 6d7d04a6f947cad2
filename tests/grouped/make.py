#!/usr/bin/env python3
"""Write crates/grouped/stdin (grouped files, old sheets and classes) and crates/grouped/stdout (what is to be printed for them)."""

import sys
from pathlib import Path

HERE = Path(__file__).resolve().parent
sys.path.append(str(HERE.parent))
from codes import ramp, total

OUT = HERE.parent.parent / "crates" / "grouped"
FILL = 160
CHECK, CHOOSE, MOVE, BACK = range(4)

# --- Parts of the cases ------------------------------------------------------------------------------------------------


def record(tag, data=""):
    """A record, in hex."""
    return f"{tag:02X} {len(bytes.fromhex(data)):04X} {data} "


def group(name, *members):
    """A group with a name, a byte for each character, in hex."""
    inside = "".join(members)
    size = 1 + len(name) + len(bytes.fromhex(inside))
    return f"00 {size:04X} {len(name):02X} {name.encode('latin-1').hex()} {inside} "


def size(text):
    return len(bytes.fromhex(text))


TYPE = record(53, "05")            # 4 bytes
LEASE = record(51, "00000E10")     # 7 bytes
NAME = record(12, "6162")          # 5 bytes
MASK = record(1, "FFFFFF00")       # 7 bytes
EMPTY = record(254)                # 3 bytes
ZEROS = record(43, "00 00 00 00")  # data that would read as a group: 7 bytes

# A file as that of docs/C-API.md: what all have, what meters, scales and printers have, and a nested group.
CLINIC = group("", LEASE, group("meter", record(60, "6D31"), group("", EMPTY)), group("scale", record(60, "73")), TYPE, group("printer", NAME))

# Classes that are near to each other: the middle, the last byte, a high bit, a zero or a blank behind, a byte less, a zero within.
NEAR_NAMES = ["meter", "meder", "metes", "met\xe5r", "\xedeter", "mete\xf2", "meter\0", "meter\0\0", "meter ", " meter", "mete", "met\0r", "METER"]
NEAR_FILE = group("", TYPE, *(group(name, record(200 + i, f"{i:02X}")) for i, name in enumerate(NEAR_NAMES)))

# --- Choosing ----------------------------------------------------------------------------------------------------------
# Reason, file, class, room, what is expected: the bytes given, or a refusal.

CHOOSING = [
    ("the empty file", "00 0001 00", "meter", 8, ""),
    ("the empty file, no room", "00 0001 00", "", 0, ""),
    ("one record", group("", TYPE), "meter", 8, TYPE),
    ("a record whose data reads as a group", group("", ZEROS, TYPE), "x", 16, ZEROS + TYPE),
    ("meters", CLINIC, "meter", 64, LEASE + record(60, "6D31") + EMPTY + TYPE),
    ("scales", CLINIC, "scale", 64, LEASE + record(60, "73") + TYPE),
    ("printers", CLINIC, "printer", 64, LEASE + TYPE + NAME),
    ("a class that no group has", CLINIC, "pump", 64, LEASE + TYPE),
    ("no class", CLINIC, "", 64, LEASE + TYPE),
    ("a class that begins as a name", CLINIC, "mete", 64, LEASE + TYPE),
    ("a class that a name begins", CLINIC, "meters", 64, LEASE + TYPE),
    ("a class of the same length", CLINIC, "scalf", 64, LEASE + TYPE),
    ("another letter first", CLINIC, "tcale", 64, LEASE + TYPE),
    ("a capital letter", CLINIC, "Meter", 64, LEASE + TYPE),
    ("room for all of it", CLINIC, "meter", 19, LEASE + record(60, "6D31") + EMPTY + TYPE),
    ("one byte too little", CLINIC, "meter", 18, "refused 11 18"),
    ("no room", CLINIC, "meter", 0, "refused 11 0"),
    ("the outermost group is named", group("meter", TYPE, LEASE), "meter", 16, TYPE + LEASE),
    ("the outermost group is another class's", group("meter", TYPE, LEASE), "scale", 16, ""),
    ("the outermost group is named, and no class", group("meter", TYPE, LEASE), "", 16, ""),
    ("a nameless group in another class's", group("", group("meter", TYPE, group("", LEASE))), "scale", 16, ""),
    ("a group of the class in another class's", group("", group("meter", group("scale", LEASE)), TYPE), "scale", 16, TYPE),
    ("a group of the class in a nameless one", group("", group("", group("scale", LEASE)), TYPE), "scale", 16, LEASE + TYPE),
    ("a group of the class in one of the class", group("scale", group("scale", LEASE), TYPE), "scale", 16, LEASE + TYPE),
    ("written order: before, inside, behind", group("", TYPE, group("", MASK, group("", NAME), LEASE), EMPTY), "a", 64, TYPE + MASK + NAME + LEASE + EMPTY),
    ("the same tag in two groups", group("", TYPE, group("a", TYPE)), "a", 64, TYPE + TYPE),
    ("two groups of one class", group("", group("a", TYPE), MASK, group("a", LEASE)), "a", 64, TYPE + MASK + LEASE),
    ("four deep", group("", group("", group("", group("", TYPE)))), "a", 64, TYPE),
    ("four deep, named all", group("a", group("a", group("a", group("a", TYPE)))), "a", 64, TYPE),
    ("a name of 255 bytes", group("n" * 255, TYPE), "n" * 255, 64, TYPE),
    ("a name of 255 bytes, the last differs", group("n" * 255, TYPE), "n" * 254 + "m", 64, ""),
    ("a class of 256 bytes", group("", TYPE, group("n" * 255, LEASE)), "n" * 256, 64, TYPE),
    ("a name with a zero", "00 0007 02 61 00 35 0001 05", "a\0", 64, TYPE),
    # Names that differ from the class in one thing only: NEAR_NAMES has a group for each, and one for the class itself.
    *((f"near names: {class_!r}", NEAR_FILE, class_, 64, TYPE + record(200 + i, f"{i:02X}")) for i, class_ in enumerate(NEAR_NAMES)),
    ("near names: none of them", NEAR_FILE, "metre", 64, TYPE),
    ("a high bit in a name of one byte", group("", TYPE, group("\x80", LEASE)), "\0", 64, TYPE),
    ("a name of a zero, and no class", group("", TYPE, group("\0", LEASE)), "", 64, TYPE),
    ("a name of 255 bytes, the middle differs", group("n" * 255, TYPE), "n" * 127 + "m" + "n" * 127, 64, ""),
    ("a name of 255 bytes, a zero for the last", group("n" * 255, TYPE), "n" * 254 + "\0", 64, ""),
    ("a name of 255 bytes, without the last", group("n" * 255, TYPE), "n" * 254, 64, ""),
    # The name of the fourth group counts as any other.
    ("four deep, the fourth is the class's", group("", group("", group("", TYPE, group("a", LEASE)))), "a", 64, TYPE + LEASE),
    ("four deep, the fourth is another class's", group("", group("", group("", TYPE, group("b", LEASE)))), "a", 64, TYPE),
    ("four deep, the third is another class's", group("", group("", TYPE, group("b", group("a", LEASE)), MASK)), "a", 64, TYPE + MASK),
    ("four deep, the outermost is another class's", group("b", group("a", group("a", group("a", LEASE)))), "a", 64, ""),
    ("four deep, two of the fourth", group("a", group("", group("a", group("b", LEASE), group("a", MASK), TYPE))), "a", 64, MASK + TYPE),
    ("a record of 1,025 bytes is chosen", group("", record(43, ramp(1025))), "a", 2000, record(43, ramp(1025))),
    ("the longest file: one record of 4,093 bytes", group("", record(43, ramp(4093))), "a", 4096, record(43, ramp(4093))),
    ("the longest file, one byte too little", group("", record(43, ramp(4093))), "a", 4095, "refused 11 4095"),
    ("the longest file, of empty records", group("", *[record(1 + i % 51) for i in range(1365)]), "a", 5000, "".join(record(1 + i % 51) for i in range(1365))),
]

# --- What is refused, over the whole file ------------------------------------------------------------------------------

FAULTS = [
    ("20: an empty file", "", "refused 20 0"),
    ("20: a first tag other than 0", TYPE, "refused 20 0"),
    ("20: a first tag 52", "34 0001 01", "refused 20 0"),
    ("20: a first tag 255", "FF", "refused 20 0"),
    ("20: a tag alone", "00", "refused 20 0"),
    ("20: half a length", "00 00", "refused 20 0"),
    ("20: no n", "00 0000", "refused 20 0"),
    ("20: no n, and bytes behind", "00 0000 00", "refused 20 0"),
    ("20: a length past the file", "00 0002 00", "refused 20 0"),
    ("20: a name past the group", "00 0001 01", "refused 20 0"),
    ("20: a name past the group, though not past the file", "00 0001 01 61", "refused 20 0"),
    ("a name that fills the group", "00 0002 01 61", "passed"),
    ("20: a byte behind", "00 0001 00 00", "refused 20 4"),
    ("20: a second group behind", group("", TYPE) + group("a", LEASE), "refused 20 8"),
    ("20: a record behind", group("", TYPE) + LEASE, "refused 20 8"),
    ("20: behind a named group", group("meter", TYPE) + "FF", "refused 20 13"),
    ("20: a record's head past its group", "00 0003 00 35 00", "refused 20 4"),
    ("20: a record's data past its group", "00 0005 00 35 0002 05", "refused 20 4"),
    ("20: a record past its group, though not past the one around it", "00 000C 00 00 0005 00 35 0002 05 FE 0000", "refused 20 8"),
    ("20: a group past its group", "00 0005 00 00 0002 00", "refused 20 4"),
    ("20: a group without n inside", "00 0004 00 00 0000", "refused 20 4"),
    ("20: a name past its group inside", "00 0006 00 00 0002 02 61", "refused 20 4"),
    ("10: 52", group("", TYPE, record(52, "01")), "refused 10 8"),
    ("10: 255", group("", TYPE, record(255)), "refused 10 8"),
    ("20 before 10: 52 past its group", "00 0005 00 34 0002 01", "refused 20 4"),
    ("20 before 10: 255, its head past the group", "00 0002 00 FF", "refused 20 4"),
    ("10 before a later 20", "00 0007 00 34 0001 01 35 00", "refused 10 4"),
    ("20 before a later 10", "00 000A 00 00 0002 02 61 34 0001 01", "refused 20 4"),
    ("21: a fifth depth", group("", group("", group("", group("", group(""))))), "refused 21 16"),
    ("21: a fifth depth, named", group("a", group("b", group("c", group("d", group("e", TYPE))))), "refused 21 20"),
    ("21: at the group's own tag, whatever is in it", group("", group("", group("", group("", group("", "FF 0000"))))), "refused 21 16"),
    ("20 before 21: a fifth depth without n", group("", group("", group("", group("", "00 0000")))), "refused 20 16"),
    # A fifth group that does not fit: 20 and 21 apply at one tag, and 20 is given.
    ("20 before 21: a fifth depth past its group", group("", group("", group("", group("", "00 0002 00")))), "refused 20 16"),
    ("20 before 21: a fifth depth, its head past its group", group("", group("", group("", group("", "00 00")))), "refused 20 16"),
    ("20 before 21: a fifth depth, its tag alone", group("", group("", group("", group("", "00")))), "refused 20 16"),
    ("20 before 21: a fifth depth, a name past it", group("", group("", group("", group("", "00 0002 02 61")))), "refused 20 16"),
    ("20 before 21: behind a record", group("a", group("b", group("c", group("d", TYPE, "00 0001 01")))), "refused 20 24"),
    ("21 before a later 20: in the fifth group itself", group("", group("", group("", group("", group("", "35 00"))))), "refused 21 16"),
    ("21 before a later 10", group("", group("", group("", group("", group("")))), record(52, "01")), "refused 21 16"),
    ("10 before a later 21", group("", record(52, "01"), group("", group("", group("", group(""))))), "refused 10 4"),
    ("in a group that is not entered: 10", group("", group("zzz", TYPE, record(255))), "refused 10 15"),
    ("in a group that is not entered: 20", "00 000B 00 00 0007 03 7A7A7A 35 00 05", "refused 20 11"),
    ("in a group that is not entered: 21", group("", group("zzz", group("", group("", group(""))))), "refused 21 19"),
    ("bytes behind come last", group("", record(52, "01")) + "FF", "refused 10 4"),
    ("4,100 bytes", group("", record(43, ramp(4093))), "passed"),
    ("16: 4,101 bytes", group("", record(43, ramp(4094))), "refused 16 4101"),
    ("16 before 20: 4,101 bytes of 255", "FF" * 4101, "refused 16 4101"),
    ("16: 5,000 bytes", "00" * 5000, "refused 16 5000"),
    ("4,100 bytes of zeros", "00" * 4100, "refused 20 0"),
    ("0 as a class name's byte", "00 0005 01 00 FE 0000", "passed"),
]

# --- Moving an old sheet, and the way back -----------------------------------------------------------------------------

MOVING = [
    ("the empty sheet", "", 5, "00 0001 00"),
    ("the empty sheet, just enough", "", 4, "00 0001 00"),
    ("the empty sheet, too little", "", 3, "refused 11 3"),
    ("one record", TYPE, 8, "00 0005 00" + TYPE),
    ("one record, too little", TYPE, 7, "refused 11 7"),
    ("a tag twice", TYPE + TYPE, 64, "00 0009 00" + TYPE + TYPE),
    ("data that breaks its kind", record(53, "FF FF"), 64, "00 0006 00" + record(53, "FF FF")),
    ("1,025 bytes of data", record(43, ramp(1025)), 2000, "00 0405 00" + record(43, ramp(1025))),
    ("255 bytes: the length's low byte is 0", record(43, ramp(252)), 300, "00 0100 00" + record(43, ramp(252))),
    ("12: a head past the sheet", TYPE + "33 00", 64, "refused 12 4"),
    ("12: data past the sheet", TYPE + "33 0004 00", 64, "refused 12 4"),
    ("12 before 10: 52 past the sheet", "34 0002 01", 64, "refused 12 0"),
    ("10: 0", TYPE + "00 0000", 64, "refused 10 4"),
    ("10: 0, a whole group", group("", TYPE), 64, "refused 10 0"),
    ("10: 52", TYPE + record(52, "01"), 64, "refused 10 4"),
    ("10: 255", record(255), 64, "refused 10 0"),
    ("10 before a later 12", record(255) + "35", 64, "refused 10 0"),
    ("10 before 11", record(255), 0, "refused 10 0"),
    ("4,096 bytes", record(43, ramp(4093)), 4100, "00 1001 00" + record(43, ramp(4093))),
    ("4,096 bytes, too little", record(43, ramp(4093)), 4099, "refused 11 4099"),
    ("16: 4,097 bytes", record(43, ramp(4094)), 5000, "refused 16 4097"),
    ("16 before 12", "FF" * 4097, 5000, "refused 16 4097"),
]

GOING_BACK = [
    ("the empty file", "00 0001 00", 0, ""),
    ("one record", group("", TYPE), 5, TYPE),
    ("one record, too little", group("", TYPE), 3, "refused 11 3"),
    ("a tag twice, and data that breaks its kind", group("", TYPE, TYPE, record(53, "FF FF")), 64, TYPE + TYPE + record(53, "FF FF")),
    ("data that reads as a group", group("", ZEROS), 64, ZEROS),
    ("22: a name", group("a", TYPE), 64, "refused 22 0"),
    ("22: a name alone", "00 0002 01 61", 64, "refused 22 0"),
    ("22: a group inside", group("", TYPE, group("", LEASE)), 64, "refused 22 0"),
    ("22: an empty group inside", group("", group("")), 64, "refused 22 0"),
    ("22: an empty group, last", group("", TYPE, "00 0001 00"), 64, "refused 22 0"),
    ("22 before 11", group("a", TYPE), 0, "refused 22 0"),
    ("10 before 22", group("a", record(52, "01")), 64, "refused 10 5"),
    ("20 before 22: behind a named group", group("a", TYPE) + "00", 64, "refused 20 9"),
    ("21 before 22", group("", group("", group("", group("", group(""))))), 64, "refused 21 16"),
    ("20: an empty file", "", 64, "refused 20 0"),
    ("4,100 bytes", group("", record(43, ramp(4093))), 4096, record(43, ramp(4093))),
    ("4,100 bytes, too little", group("", record(43, ramp(4093))), 4095, "refused 11 4095"),
    ("16: 4,101 bytes", group("", record(43, ramp(4094))), 5000, "refused 16 4101"),
]


def every_cut():
    """The worked file, cut behind each of its bytes: the outermost group does not fit."""
    whole = bytes.fromhex(CLINIC)
    return [(f"cut behind {n} bytes", whole[:n].hex(), "refused 20 0") for n in range(len(whole))]


def all_cases():
    """Reason, call, class, room, what is handed over, what is expected."""
    for reason, file, class_, room, expected in CHOOSING:
        yield reason, CHOOSE, class_, room, file, expected
    for reason, file, expected in FAULTS + every_cut():
        yield reason, CHECK, "", 8, file, expected
        if expected != "passed":
            yield reason, CHOOSE, "zz", 8, file, expected
            yield reason, BACK, "", 8, file, expected
    for reason, sheet, room, expected in MOVING:
        yield reason, MOVE, "", room, sheet, expected
    for reason, file, room, expected in GOING_BACK:
        yield reason, BACK, "", room, file, expected


def lines(room, expected):
    old = bytes((FILL + i) % 256 for i in range(room))
    if expected == "passed":
        return ["passed"]
    if expected.startswith("refused"):
        return [expected, f"buffer sum {total(old)}"]
    gives = bytes.fromhex(expected)
    return [f"given {len(gives)}", f"bytes {gives.hex()}", f"rest sum {total(old[len(gives):])}"]


def main():
    given, printed, count = b"", [], 0
    for reason, which, class_, room, file, expected in all_cases():
        bytes_, name = bytes.fromhex(file), class_.encode("latin-1")
        given += bytes((which,)) + room.to_bytes(2, "big") + bytes((FILL,)) + len(name).to_bytes(2, "big") + len(bytes_).to_bytes(2, "big") + name + bytes_
        printed += lines(room, expected) + ["-"]
        count += 1
    (OUT / "stdin").write_bytes(given)
    (OUT / "stdout").write_text("\n".join(printed) + "\n")
    print(f"{count} cases, {len(given)} bytes of stdin")


if __name__ == "__main__":
    main()
