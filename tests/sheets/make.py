#!/usr/bin/env python3
"""Write crates/sheets/stdin (sheets to be written, with their buffers) and crates/sheets/stdout (what is to be printed for them)."""

import sys
from collections import Counter
from pathlib import Path

HERE = Path(__file__).resolve().parent
sys.path.append(str(HERE.parent))
from codes import ADDRESS, ADDRESSES, FLAG, OPAQUE, RETIRED, TEXT, UNKNOWN, UNSIGNED32, ramp, total
from reader import code_line

OUT = HERE.parent.parent / "crates" / "sheets"

# --- What is printed ---------------------------------------------------------------------------------------------------

PLACES = {"sname": (44, 108), "file": (108, 236), "cookie": (236, 240), "options": (240, None)}
USED = {"plan 0": ["options"], "plan 1": ["options", "file"], "plan 2": ["options", "sname"],
        "plan 3": ["options", "file", "sname"]}


def tags(sheet):
    """The tags of a sheet's records, in order."""
    at = 0
    while at < len(sheet):
        yield sheet[at]
        at += 3 + int.from_bytes(sheet[at + 1:at + 3], "big")


def lines(length, fill, sheet, expected):
    """The lines of a case.

    expected is 'refused N PLACE'; or 'plan P', then each field of the plan with its bytes up to END (and the number of
    zeros behind, where it is worth writing down), then 'accepted N', the number of options in the message. What the codes of the
    records, 52 and 222 are looked up as is read from these bytes by the second reader."""
    old = bytes((fill + i) % 256 for i in range(length))
    head, *parts = expected.split(" | ")
    if head.startswith("refused"):
        return [head, f"buffer sum {total(old)}"]
    given = dict(part.split(" ", 1) for part in parts)
    count = given.pop("accepted")
    assert list(given) == USED[head], expected
    shown = [head, f"header sum {total(old[:44])}"]
    given["cookie"] = "63 82 53 63"
    message = old[:44]
    for name, (start, end) in PLACES.items():
        shown.append(field(name, old[start:end], given.get(name)))
        message += bytes.fromhex(given[name].partition(" zeros ")[0]).ljust(len(old[start:end]), b"\0") if name in given else old[start:end]
    return shown + ["back same", f"accepted {count}"] + [code_line(message, code) for code in (*tags(sheet), 52, 222)]


def field(name, old, given):
    """The line of a field: as it was when nothing is given."""
    if given is None:
        return f"{name} sum {total(old)}"
    text, _, zeros = given.partition(" zeros ")
    written = bytes.fromhex(text)
    left = len(old) - len(written)
    assert name == "cookie" or written[-1] == 255, given
    assert left >= 0 and (not zeros or left == int(zeros)), (given, left)
    return f"{name} {written.hex()} zeros {left}"


# --- Parts of the cases ------------------------------------------------------------------------------------------------

def record(tag, data):
    """A record of a sheet, in hex."""
    return f"{tag:02X} {len(bytes.fromhex(data)):04X} {data} "


def option(tag, data):
    """The same as an option of a message."""
    return f"{tag:02X} {len(bytes.fromhex(data)):02X} {data} "


def pieces(tag, data, *lengths):
    """The same as pieces of these lengths."""
    given, at, text = bytes.fromhex(data), 0, ""
    for length in lengths:
        text += option(tag, given[at:at + length].hex())
        at += length
    assert at == len(given)
    return text


def size(text):
    return len(bytes.fromhex(text))


def taken(records):
    """The bytes that the options of these records take, {code: data}."""
    return sum(size(option(code, data)) for code, data in records.items())


def every_permission(reason, length, sheet, *expected):
    """A case for each permission: with one expectation for all of them, or one for each."""
    return [(f"{reason}, permission {p}", p, length, sheet, expected[p % len(expected)]) for p in range(4)]


EMPTY = ""
BARE = "FE 00 00 "                # 254 without data: an option of 2 bytes
TYPE = "35 00 01 05 "             # 53 is 5: 3 bytes
NAME = "0C 00 02 61 62 "          # 12, a text: 4 bytes
LEASE = "33 00 04 00 00 0E 10 "   # 51 is 3600: 6 bytes
MASK = "01 00 04 FF FF FF 00 "    # 1: 6 bytes
ROUTER = "03 00 04 0A 00 00 01 "  # 3: 6 bytes
BROKEN = "35 00 01 FF "           # 53 with a value that is wrong by any rule of a message type: 9
DOMAIN = "0F 00 01 61 "           # 15, a text: 3 bytes
BARE_40 = "".join(record(c, "") for c in UNKNOWN[:40])  # 40 records without data: 120 bytes

NAME_IN_FILE = "plan 1 | options 34 01 01 FF zeros 0 | file 0C 02 61 62 FF zeros 123 | accepted 2"
NAME_IN_SNAME = "plan 2 | options 34 01 02 FF zeros 0 | sname 0C 02 61 62 FF zeros 59 | accepted 2"

# A record that fills file, one that fills sname, and the two fields with them.
FILLS_FILE = "C8 00 7D" + ramp(125)
FILLS_SNAME = "C9 00 3D" + ramp(61)
FULL_FILE = "C8 7D" + ramp(125) + "FF zeros 0"
FULL_SNAME = "C9 3D" + ramp(61) + "FF zeros 0"

# --- The cases ---------------------------------------------------------------------------------------------------------
# Reason, permission, buffer length, sheet, what is expected; and the buffer's first byte, where it is not FILL.
FILL = 160

OWN_CASES = [
    ("9: fits to the byte", 0, 244, TYPE, "plan 0 | options 35 01 05 FF zeros 0 | accepted 1"),
    ("9: one byte short", 0, 243, TYPE, "refused 11 243"),
    ("10: 52 and END alone in options", 1, 244, LEASE,
     "plan 1 | options 34 01 01 FF zeros 0 | file 33 04 00 00 0E 10 FF zeros 121 | accepted 2"),
    ("10 with permission 0", 0, 244, LEASE, "refused 11 244"),
    ("10 with permission 2", 2, 244, LEASE,
     "plan 2 | options 34 01 02 FF zeros 0 | sname 33 04 00 00 0E 10 FF zeros 57 | accepted 2"),
    ("10 with permission 3: plan 1 is tried before plan 2", 3, 244, LEASE,
     "plan 1 | options 34 01 01 FF zeros 0 | file 33 04 00 00 0E 10 FF zeros 121 | accepted 2"),
    *every_permission("10, no room for 52 and END", 243, LEASE, "refused 11 243"),
]

LENGTHS = [
    ("no buffer", 0, 0, EMPTY, "refused 1 0"),
    ("one byte", 3, 1, TYPE, "refused 1 1"),
    ("the header alone", 3, 44, TYPE, "refused 1 44"),
    ("up to the cookie", 3, 236, TYPE, "refused 1 236"),
    *every_permission("239: nothing", 239, EMPTY, "refused 1 239"),
    *every_permission("239: a record", 239, TYPE, "refused 1 239"),
    *every_permission("240: no room for END", 240, EMPTY, "refused 11 240"),
    *every_permission("240: a record", 240, BARE, "refused 11 240"),
    *every_permission("241: END alone", 241, EMPTY, "plan 0 | options FF zeros 0 | accepted 0"),
    *every_permission("241: an option without data", 241, BARE, "refused 11 241"),
    *every_permission("241: an option of one byte", 241, TYPE, "refused 11 241"),
    *every_permission("242: END and a zero", 242, EMPTY, "plan 0 | options FF zeros 1 | accepted 0"),
    *every_permission("242: no room for END", 242, BARE, "refused 11 242"),
    *every_permission("242: an option of one byte", 242, TYPE, "refused 11 242"),
    *every_permission("243: END and zeros", 243, EMPTY, "plan 0 | options FF zeros 2 | accepted 0"),
    *every_permission("243: an option without data", 243, BARE, "plan 0 | options FE 00 FF zeros 0 | accepted 1"),
    # 52 would fit, but not with END
    *every_permission("243: no room for END", 243, TYPE, "refused 11 243"),
    *every_permission("243: an option of two bytes", 243, NAME, "refused 11 243"),
    *every_permission("244: END and zeros", 244, EMPTY, "plan 0 | options FF zeros 3 | accepted 0"),
    *every_permission("244: an option without data", 244, BARE, "plan 0 | options FE 00 FF zeros 1 | accepted 1"),
    *every_permission("244: an option of one byte", 244, TYPE, "plan 0 | options 35 01 05 FF zeros 0 | accepted 1"),
    *every_permission("244: 52 and END", 244, NAME, "refused 11 244", NAME_IN_FILE, NAME_IN_SNAME, NAME_IN_FILE),
    *every_permission("245: an option of two bytes", 245, NAME, "plan 0 | options 0C 02 61 62 FF zeros 0 | accepted 1"),
    *every_permission("300: nothing to write", 300, EMPTY, "plan 0 | options FF zeros 59 | accepted 0"),
    ("1,471: nothing to write", 0, 1471, EMPTY, "plan 0 | options FF zeros 1230 | accepted 0"),
    ("1,472: nothing to write", 3, 1472, EMPTY, "plan 0 | options FF zeros 1231 | accepted 0"),
    ("1,472: a record", 0, 1472, TYPE, "plan 0 | options 35 01 05 FF zeros 1228 | accepted 1"),
    *every_permission("1,473: nothing to write", 1473, EMPTY, "refused 2 1473"),
    *every_permission("1,473: a record", 1473, TYPE, "refused 2 1473"),
    ("1,474", 0, 1474, TYPE, "refused 2 1474"),
    ("1,600", 3, 1600, EMPTY, "refused 2 1600"),
]

PERMISSIONS = [
    ("permission 4", 4, 300, TYPE, "refused 15 0"),
    ("permission 5", 5, 300, TYPE, "refused 15 0"),
    ("permission 7: not its low bits", 7, 300, TYPE, "refused 15 0"),
    ("permission 128", 128, 300, TYPE, "refused 15 0"),
    ("permission 254", 254, 300, TYPE, "refused 15 0"),
    ("permission 255", 255, 300, TYPE, "refused 15 0"),
    ("permission 4, nothing to write", 4, 300, EMPTY, "refused 15 0"),
    ("permission 255, nothing to write", 255, 1472, EMPTY, "refused 15 0"),
]

# Rooms for options and END: the buffer's length less 240 (and less 3 with 52), 128 and 64.
# What fits plan 2 fits plan 1: both put the same records beside 52, and file is the longer. So with permission 3 the plan is
# 0, 1 or 3. Where plan 0 does not fit, some record has no room beside 52; where plan 1 does not fit either, some has none in
# file. So of the fields of the plan that is used, options alone can be without a record.
PLANS = [
    # Plan 0.
    *every_permission("plan 0: just fits", 247, LEASE, "plan 0 | options 33 04 00 00 0E 10 FF zeros 0 | accepted 1"),
    *every_permission("plan 0: one byte short", 246, LEASE, "refused 11 246",
                      "plan 1 | options 34 01 01 FF zeros 2 | file 33 04 00 00 0E 10 FF zeros 121 | accepted 2",
                      "plan 2 | options 34 01 02 FF zeros 2 | sname 33 04 00 00 0E 10 FF zeros 57 | accepted 2",
                      "plan 1 | options 34 01 01 FF zeros 2 | file 33 04 00 00 0E 10 FF zeros 121 | accepted 2"),
    *every_permission("plan 0: the second just fits", 250, TYPE + LEASE,
                      "plan 0 | options 35 01 05 33 04 00 00 0E 10 FF zeros 0 | accepted 2"),
    *every_permission("plan 0: the second one byte short", 249, TYPE + LEASE, "refused 11 249",
                      "plan 1 | options 34 01 01 35 01 05 FF zeros 2 | file 33 04 00 00 0E 10 FF | accepted 3",
                      "plan 2 | options 34 01 02 35 01 05 FF zeros 2 | sname 33 04 00 00 0E 10 FF | accepted 3",
                      "plan 1 | options 34 01 01 35 01 05 FF zeros 2 | file 33 04 00 00 0E 10 FF | accepted 3"),
    ("plan 0: room to spare", 3, 260, TYPE + LEASE, "plan 0 | options 35 01 05 33 04 00 00 0E 10 FF zeros 10 | accepted 2"),
    *every_permission("255 bytes just fit", 498, "C8 00 FF" + ramp(255),
                      "plan 0 | options C8 FF" + ramp(255) + "FF zeros 0 | accepted 1"),
    *every_permission("255 bytes, one byte short: too large for file and sname", 497, "C8 00 FF" + ramp(255), "refused 11 497"),

    # Plan 1: beside 52, and in file.
    ("beside 52: just fits, file full", 1, 250, LEASE + FILLS_FILE,
     "plan 1 | options 34 01 01 33 04 00 00 0E 10 FF zeros 0 | file " + FULL_FILE + " | accepted 3"),
    ("beside 52: one byte short, no room in file", 1, 249, LEASE + FILLS_FILE, "refused 11 249"),
    ("beside 52: one byte short, both fill file", 1, 249, LEASE + "C8 00 77" + ramp(119),
     "plan 1 | options 34 01 01 FF zeros 5 | file 33 04 00 00 0E 10 C8 77" + ramp(119) + "FF zeros 0 | accepted 3"),
    ("beside 52: one byte short, both one byte too long for file", 1, 249, LEASE + "C8 00 78" + ramp(120), "refused 11 249"),
    *every_permission("file full", 244, FILLS_FILE, "refused 11 244",
                      "plan 1 | options 34 01 01 FF | file " + FULL_FILE + " | accepted 2", "refused 11 244",
                      "plan 1 | options 34 01 01 FF | file " + FULL_FILE + " | accepted 2"),
    *every_permission("one byte too long for file", 244, "C8 00 7E" + ramp(126), "refused 11 244"),
    ("file full by two", 1, 244, "C8 00 3C" + ramp(60) + "C9 00 3F" + ramp(63),
     "plan 1 | options 34 01 01 FF | file C8 3C" + ramp(60) + "C9 3F" + ramp(63) + "FF zeros 0 | accepted 3"),
    ("one byte too long for file by two", 1, 244, "C8 00 3C" + ramp(60) + "C9 00 40" + ramp(64), "refused 11 244"),
    ("one byte too long for file by two, the second for sname as well", 3, 244, "C8 00 3C" + ramp(60) + "C9 00 40" + ramp(64),
     "refused 11 244"),

    # Plan 2.
    *every_permission("sname full", 244, FILLS_SNAME, "refused 11 244",
                      "plan 1 | options 34 01 01 FF | file C9 3D" + ramp(61) + "FF zeros 64 | accepted 2",
                      "plan 2 | options 34 01 02 FF | sname " + FULL_SNAME + " | accepted 2",
                      "plan 1 | options 34 01 01 FF | file C9 3D" + ramp(61) + "FF zeros 64 | accepted 2"),
    *every_permission("one byte too long for sname", 244, "C9 00 3E" + ramp(62), "refused 11 244",
                      "plan 1 | options 34 01 01 FF | file C9 3E" + ramp(62) + "FF zeros 63 | accepted 2", "refused 11 244",
                      "plan 1 | options 34 01 01 FF | file C9 3E" + ramp(62) + "FF zeros 63 | accepted 2"),
    ("sname full by two", 2, 244, "C8 00 1E" + ramp(30) + "C9 00 1D" + ramp(29),
     "plan 2 | options 34 01 02 FF | sname C8 1E" + ramp(30) + "C9 1D" + ramp(29) + "FF zeros 0 | accepted 3"),
    ("one byte too long for sname by two", 2, 244, "C8 00 1E" + ramp(30) + "C9 00 1E" + ramp(30), "refused 11 244"),
    ("beside 52: just fits, sname full", 2, 250, LEASE + FILLS_SNAME,
     "plan 2 | options 34 01 02 33 04 00 00 0E 10 FF zeros 0 | sname " + FULL_SNAME + " | accepted 3"),
    ("beside 52: one byte short, no room in sname", 2, 249, LEASE + FILLS_SNAME, "refused 11 249"),
    ("beside 52: one byte short, both fill sname", 2, 249, LEASE + "C9 00 37" + ramp(55),
     "plan 2 | options 34 01 02 FF zeros 5 | sname 33 04 00 00 0E 10 C9 37" + ramp(55) + "FF zeros 0 | accepted 3"),
    ("beside 52: one byte short, both one byte too long for sname", 2, 249, LEASE + "C9 00 38" + ramp(56), "refused 11 249"),

    # Plan 3.
    *every_permission("file and sname full", 244, FILLS_FILE + FILLS_SNAME, "refused 11 244", "refused 11 244", "refused 11 244",
                      "plan 3 | options 34 01 03 FF zeros 0 | file " + FULL_FILE + " | sname " + FULL_SNAME + " | accepted 3"),
    ("file full, one byte too long for sname", 3, 244, FILLS_FILE + "C9 00 3E" + ramp(62), "refused 11 244"),
    ("one byte too long for file, sname's would fit", 3, 244, "C8 00 7E" + ramp(126) + FILLS_SNAME, "refused 11 244"),
    ("sname's record first: file holds both no more", 3, 244, FILLS_SNAME + FILLS_FILE, "refused 11 244"),
    ("all three full", 3, 250, LEASE + FILLS_FILE + FILLS_SNAME,
     "plan 3 | options 34 01 03 33 04 00 00 0E 10 FF zeros 0 | file " + FULL_FILE + " | sname " + FULL_SNAME + " | accepted 4"),
    ("all three full, less one byte of options", 3, 249, LEASE + FILLS_FILE + FILLS_SNAME, "refused 11 249"),
    ("beside 52: one byte short, file and sname full", 3, 249, LEASE + "C8 00 77" + ramp(119) + FILLS_SNAME,
     "plan 3 | options 34 01 03 FF zeros 5 | file 33 04 00 00 0E 10 C8 77" + ramp(119) + "FF zeros 0 | sname " + FULL_SNAME
     + " | accepted 4"),
    ("the last that fits file: plan 1", 3, 244, "C8 00 64" + ramp(100) + "C9 00 17" + ramp(23),
     "plan 1 | options 34 01 01 FF | file C8 64" + ramp(100) + "C9 17" + ramp(23) + "FF zeros 0 | accepted 3"),
    ("one byte longer goes to sname: plan 3", 3, 244, "C8 00 64" + ramp(100) + "C9 00 18" + ramp(24),
     "plan 3 | options 34 01 03 FF | file C8 64" + ramp(100) + "FF zeros 25 | sname C9 18" + ramp(24) + "FF zeros 37 | accepted 3"),
    ("the same with permission 1", 1, 244, "C8 00 64" + ramp(100) + "C9 00 18" + ramp(24), "refused 11 244"),
    ("the same with permission 2", 2, 244, "C8 00 64" + ramp(100) + "C9 00 18" + ramp(24), "refused 11 244"),
    ("sname full by two, file full", 3, 244, FILLS_FILE + "C9 00 1E" + ramp(30) + "CA 00 1D" + ramp(29),
     "plan 3 | options 34 01 03 FF | file " + FULL_FILE + " | sname C9 1E" + ramp(30) + "CA 1D" + ramp(29)
     + "FF zeros 0 | accepted 4"),
    ("one byte too long for sname by two, file full", 3, 244, FILLS_FILE + "C9 00 1E" + ramp(30) + "CA 00 1E" + ramp(30),
     "refused 11 244"),

    # No going back, and no splitting but of what is over 255 bytes.
    ("a small record stays behind the large one, in file", 1, 260, TYPE + "C8 00 1E" + ramp(30) + DOMAIN,
     "plan 1 | options 34 01 01 35 01 05 FF zeros 13 | file C8 1E" + ramp(30) + "0F 01 61 FF zeros 92 | accepted 4"),
    ("a small record stays behind the large one, in sname", 2, 260, TYPE + "C8 00 1E" + ramp(30) + DOMAIN,
     "plan 2 | options 34 01 02 35 01 05 FF zeros 13 | sname C8 1E" + ramp(30) + "0F 01 61 FF zeros 28 | accepted 4"),
    ("not back to file or options", 3, 260, TYPE + "C8 00 64" + ramp(100) + "C9 00 18" + ramp(24) + DOMAIN,
     "plan 3 | options 34 01 03 35 01 05 FF zeros 13 | file C8 64" + ramp(100) + "FF zeros 25 | sname C9 18" + ramp(24)
     + "0F 01 61 FF zeros 34 | accepted 5"),
    ("it would fit options alone", 1, 260, TYPE + "C8 00 7B" + ramp(123) + DOMAIN, "refused 11 260"),
    ("it would fit options, and goes to sname", 3, 260, TYPE + "C8 00 7B" + ramp(123) + DOMAIN,
     "plan 3 | options 34 01 03 35 01 05 FF zeros 13 | file C8 7B" + ramp(123) + "FF zeros 2 | sname 0F 01 61 FF zeros 60"
     " | accepted 4"),
    ("it would fit options alone, sname has one byte left", 3, 260, FILLS_FILE + "C9 00 3C" + ramp(60) + DOMAIN, "refused 11 260"),
    ("it would fit file alone", 3, 260, "C8 00 64" + ramp(100) + FILLS_SNAME + DOMAIN, "refused 11 260"),
    ("order decides: small, large", 1, 250, LEASE + FILLS_FILE,
     "plan 1 | options 34 01 01 33 04 00 00 0E 10 FF | file " + FULL_FILE + " | accepted 3"),
    ("order decides: large, small", 1, 250, FILLS_FILE + LEASE, "refused 11 250"),
    ("order decides: large, small, with sname", 3, 250, FILLS_FILE + LEASE,
     "plan 3 | options 34 01 03 FF zeros 6 | file " + FULL_FILE + " | sname 33 04 00 00 0E 10 FF zeros 57 | accepted 3"),
    *every_permission("room enough, but in parts", 300, "C8 00 96" + ramp(150), "refused 11 300"),
    *every_permission("one byte too long for file, room enough in parts", 260, "C8 00 7E" + ramp(126), "refused 11 260"),

    # 1,472 bytes: 4 options of 257 bytes, and what is left.
    *every_permission("1,472: full", 1472, "".join(record(c, ramp(255)) for c in (200, 201, 202, 203)) + "CC 00 C9" + ramp(201),
                      "plan 0 | options " + "".join(option(c, ramp(255)) for c in (200, 201, 202, 203)) + "CC C9" + ramp(201)
                      + "FF zeros 0 | accepted 5"),
    *every_permission("1,472: one byte short", 1472,
                      "".join(record(c, ramp(255)) for c in (200, 201, 202, 203)) + "CC 00 CA" + ramp(202), "refused 11 1472"),
    ("1,472: full beside 52, file full", 1, 1472,
     "".join(record(c, ramp(255)) for c in (203, 202, 201, 207)) + "CC 00 C6" + ramp(198) + FILLS_FILE,
     "plan 1 | options 34 01 01" + "".join(option(c, ramp(255)) for c in (203, 202, 201, 207)) + "CC C6" + ramp(198)
     + "FF zeros 0 | file " + FULL_FILE + " | accepted 7"),
    ("1,472: one byte too long beside 52, file full", 1, 1472,
     "".join(record(c, ramp(255)) for c in (203, 202, 201, 207)) + "CC 00 C7" + ramp(199) + FILLS_FILE, "refused 11 1472"),
]

CONTENT = [
    # All data bytes are written, whatever they are.
    ("zeros at the end of a text", 0, 246, "0C 00 03 61 62 00", "plan 0 | options 0C 03 61 62 00 FF zeros 0 | accepted 1"),
    ("a text of zeros", 0, 300, "0F 00 02 00 00", "plan 0 | options 0F 02 00 00 FF zeros 55 | accepted 1"),
    ("a text of one zero, in sname", 2, 244, "0F 00 01 00 42 00 01 61",
     "plan 2 | options 34 01 02 FF | sname 0F 01 00 42 01 61 FF zeros 57 | accepted 3"),
    ("255 and 0 as data", 0, 300, "C8 00 05 FF 00 FF FF 00", "plan 0 | options C8 05 FF 00 FF FF 00 FF zeros 52 | accepted 1"),
    ("255 as data, in file", 1, 244, "C8 00 03 FF FF FF" + DOMAIN,
     "plan 1 | options 34 01 01 FF | file C8 03 FF FF FF 0F 01 61 FF zeros 119 | accepted 3"),
    ("data that looks like 52 and END", 1, 300, "2B 00 04 34 01 01 FF", "plan 0 | options 2B 04 34 01 01 FF FF zeros 53 | accepted 1"),
    ("data that looks like a record", 0, 300, "2B 00 04 35 00 01 09", "plan 0 | options 2B 04 35 00 01 09 FF | accepted 1"),
    ("an empty list at the end", 0, 243, "44 00 00", "plan 0 | options 44 00 FF zeros 0 | accepted 1"),
    ("no data between two with data", 0, 300, TYPE + "44 00 00" + DOMAIN, "plan 0 | options 35 01 05 44 00 0F 01 61 FF | accepted 3"),
    # The order is the sheet's.
    ("tags falling", 0, 300, "FE 00 01 01 C8 00 00" + LEASE + DOMAIN + MASK,
     "plan 0 | options FE 01 01 C8 00 33 04 00 00 0E 10 0F 01 61 01 04 FF FF FF 00 FF | accepted 5"),
    ("neither rising nor falling, over three fields", 3, 247,
     TYPE + "FE 00 64" + ramp(100) + BARE.replace("FE", "4D") + "02 00 04 FF FF F1 F0" + "C8 00 28" + ramp(40) + MASK,
     "plan 3 | options 34 01 03 35 01 05 FF zeros 0 | file FE 64" + ramp(100) + "4D 00 02 04 FF FF F1 F0 FF zeros 17"
     " | sname C8 28" + ramp(40) + "01 04 FF FF FF 00 FF zeros 15 | accepted 7"),
    # What the buffer held makes no difference, and the header and unused fields keep it.
    *[(f"buffer from {fill} on", 3, 250, TYPE, "plan 0 | options 35 01 05 FF zeros 6 | accepted 1", fill)
      for fill in (0, 1, 119, 255)],  # from 119 on: the cookie's first byte is there
    *[(f"buffer from {fill} on, file used", 1, 244, NAME, NAME_IN_FILE, fill) for fill in (0, 119, 148, 255)],
    *[(f"buffer from {fill} on, sname used", 2, 244, NAME, NAME_IN_SNAME, fill) for fill in (0, 119, 212, 255)],
    ("buffer from 0 on, refused", 0, 244, NAME, "refused 11 244", 0),
    ("buffer from 255 on, refused", 3, 1472, BROKEN, "refused 9 0", 255),
]

# A record's faults in the order 12, 10, 13, 7, 8, 9: each with its place, alone and beside the later ones.
FAULTS = [
    # 12
    ("12: tag alone", 0, 300, "35", "refused 12 0"),
    ("12: tag and half a length", 0, 300, "35 00", "refused 12 0"),
    ("12: head alone", 0, 300, "35 00 01", "refused 12 0"),
    ("12: one byte missing", 0, 300, "C8 00 05 01 02 03 04", "refused 12 0"),
    ("12: length of one byte where two belong", 0, 300, "35 01 05", "refused 12 0"),
    ("12: length low byte first", 0, 300, "35 01 00 05", "refused 12 0"),
    ("12: 65,535", 3, 1472, "C8 FF FF", "refused 12 0"),
    ("12: 65,535, some there", 3, 1472, "C8 FF FF" + ramp(300), "refused 12 0"),
    ("12: 255, one byte missing", 0, 300, "C8 00 FF" + ramp(254), "refused 12 0"),
    ("12: one byte left over", 0, 300, TYPE + "C8", "refused 12 4"),
    ("12: two bytes left over", 0, 300, TYPE + "C8 00", "refused 12 4"),
    ("12: zero left over", 0, 300, TYPE + "00", "refused 12 4"),
    ("12: 255 left over is no END", 0, 300, TYPE + "FF", "refused 12 4"),
    ("12: later record cut", 0, 300, TYPE + "C8 00 02 01", "refused 12 4"),
    ("12: later record of 65,535", 0, 300, TYPE + LEASE + "C8 FF FF 01", "refused 12 11"),
    ("12 before 10: tag 0 cut", 0, 300, "00 00 05 01", "refused 12 0"),
    ("12 before 10: tag 255 cut", 0, 300, TYPE + "FF 00 01", "refused 12 4"),
    ("12 before 10: tag 52 of 65,535", 0, 300, TYPE + "34 FF FF 01", "refused 12 4"),
    ("12: 256, one byte missing", 0, 300, "C8 01 00" + ramp(255), "refused 12 0"),
    ("12 before 7", 0, 300, TYPE + "35 00 02 05", "refused 12 4"),
    ("12 before 8", 0, 300, MASK + "36 00 05 01 02 03 04", "refused 12 7"),
    ("12 before 9", 0, 300, "0C 00 01 61 35 00 02 09", "refused 12 4"),
    # 10
    ("10: tag 0", 0, 300, "00 00 01 05", "refused 10 0"),
    ("10: tag 0 without data", 0, 300, "00 00 00", "refused 10 0"),
    ("10: tag 52, a right value", 3, 300, "34 00 01 01", "refused 10 0"),
    ("10: tag 255", 0, 300, "FF 00 01 05", "refused 10 0"),
    ("10: tag 0 later", 0, 300, TYPE + "00 00 00", "refused 10 4"),
    ("10: tag 52 later", 1, 300, TYPE + LEASE + "34 00 01 01", "refused 10 11"),
    ("10: tag 255 later", 0, 300, TYPE + "FF 00 00" + LEASE, "refused 10 4"),
    ("10: tag 52 without data", 0, 300, "34 00 00", "refused 10 0"),
    ("10: tag 0 of 256 bytes", 0, 300, "00 01 00" + ramp(256), "refused 10 0"),
    ("10: tag 52 of 256 bytes", 0, 300, TYPE + "34 01 00" + ramp(256), "refused 10 4"),
    ("10: tag 255 of 256 bytes", 0, 300, "FF 01 00" + ramp(256), "refused 10 0"),
    ("10 before 8: tag 52 of two bytes", 0, 300, "34 00 02 01 01", "refused 10 0"),
    ("10 before 9: tag 52 is 4", 0, 300, "34 00 01 04", "refused 10 0"),
    # 13
    ("13: 1,025 bytes", 3, 1472, "C8 04 01" + ramp(1025), "refused 13 0"),
    ("13: 1,026 bytes", 3, 1472, "C8 04 02" + ramp(1026), "refused 13 0"),
    ("13: 1,280 bytes, low byte 0", 3, 1472, "C8 05 00" + ramp(1280), "refused 13 0"),
    ("13: 2,048 bytes", 3, 1472, "2B 08 00" + ramp(2048), "refused 13 0"),
    ("13: 4,093 bytes, all of the sheet", 3, 1472, "C8 0F FD" + ramp(4093), "refused 13 0"),
    ("12: 4,094 bytes, one more than the sheet", 3, 1472, "C8 0F FE" + ramp(4093), "refused 12 0"),
    ("13: later record", 3, 1472, TYPE + "C8 04 01" + ramp(1025) + LEASE, "refused 13 4"),
    ("13: a text of 1,025 bytes", 3, 1472, TYPE + LEASE + "0C 04 01" + "61" * 1025, "refused 13 11"),
    ("13: 1,028 bytes, a multiple of 4", 3, 1472, "03 04 04" + "01" * 1028, "refused 13 0"),
    ("13: a small buffer", 0, 241, "C8 04 01" + ramp(1025), "refused 13 0"),
    ("12 before 13: 1,025, one byte missing", 3, 1472, "C8 04 01" + ramp(1024), "refused 12 0"),
    ("10 before 13: tag 0 of 1,025", 0, 300, "00 04 01" + ramp(1025), "refused 10 0"),
    ("10 before 13: tag 52 of 1,025", 0, 300, TYPE + "34 04 01" + ramp(1025), "refused 10 4"),
    ("10 before 13: tag 255 of 1,025", 0, 300, "FF 04 01" + ramp(1025), "refused 10 0"),
    ("13 before 7", 3, 1472, BARE + "FE 04 01" + ramp(1025), "refused 13 3"),
    ("13 before 8", 3, 1472, "01 04 04" + "01" * 1028, "refused 13 0"),
    ("13 before 8, where 8 would see 1", 3, 1472, "13 04 01" + "01" * 1025, "refused 13 0"),
    ("13 before 9", 3, 1472, "21 04 08" + "00" * 1032, "refused 13 0"),
    # Up to request 02 more than 255 bytes were a 13. Now a record of up to 1,024 is split.
    ("was 13: 256 bytes", 3, 1472, "C8 01 00" + ramp(256),
     "plan 0 | options " + pieces(200, ramp(256), 255, 1) + "FF zeros 971 | accepted 2"),
    ("was 13: 257 bytes", 3, 1472, "C8 01 01" + ramp(257),
     "plan 0 | options " + pieces(200, ramp(257), 255, 2) + "FF zeros 970 | accepted 2"),
    ("was 13: 512 bytes, low byte 0", 3, 1472, "C8 02 00" + ramp(512),
     "plan 0 | options " + pieces(200, ramp(512), 255, 255, 2) + "FF zeros 713 | accepted 3"),
    ("was 13: later record", 3, 1472, TYPE + "C8 01 00" + ramp(256) + LEASE,
     "plan 0 | options 35 01 05" + pieces(200, ramp(256), 255, 1) + "33 04 00 00 0E 10 FF | accepted 4"),
    ("was 13: a text of 256 bytes", 3, 1472, TYPE + LEASE + "0C 01 00" + "61" * 256,
     "plan 0 | options 35 01 05 33 04 00 00 0E 10" + pieces(12, "61" * 256, 255, 1) + "FF | accepted 4"),
    ("was 13: 260 bytes, a multiple of 4", 3, 1472, "03 01 04" + "01" * 260,
     "plan 0 | options " + pieces(3, "01" * 260, 255, 5) + "FF | accepted 2"),
    ("was 13 before 7, and is 7", 3, 1472, BARE + "FE 01 00" + ramp(256), "refused 7 3"),
    ("was 13 before 8, and is 8", 3, 1472, "01 01 00" + "01" * 256, "refused 8 0"),
    ("was 13 before 8, and is 8: its low byte is 1", 3, 1472, "13 01 01" + "01" * 257, "refused 8 0"),
    ("was 13 before 9, and is 9", 3, 1472, "21 01 00" + "00" * 256, "refused 9 0"),
    # 7
    ("7: at once", 0, 300, TYPE + TYPE, "refused 7 4"),
    ("7: other data", 0, 300, TYPE + "35 00 01 02", "refused 7 4"),
    ("7: a code without a row", 0, 300, BARE + BARE, "refused 7 3"),
    ("7: other lengths", 0, 300, "C8 00 00 C8 00 02 01 02", "refused 7 3"),
    ("7: two between", 0, 300, TYPE + LEASE + DOMAIN + TYPE, "refused 7 15"),
    ("7: the second of three", 0, 300, TYPE + TYPE + TYPE, "refused 7 4"),
    ("7: the first repetition of two", 0, 300, TYPE + DOMAIN + DOMAIN + TYPE, "refused 7 8"),
    ("7: an empty list", 0, 300, "44 00 00 44 00 00", "refused 7 3"),
    ("7: 63 and 64 are not 127 and 128", 0, 300, "3F 00 00 40 00 01 61 7F 00 00 80 00 00 BF 00 00 C0 00 00 FE 00 00 3E 00 00",
     "plan 0 | options 3F 00 40 01 61 7F 00 80 00 BF 00 C0 00 FE 00 3E 00 FF | accepted 8"),
    ("7: 64 again", 0, 300, "40 00 01 61 80 00 00 C0 00 00 40 00 01 61", "refused 7 10"),
    # The tag that is met again stands far behind: 40 records of 3 bytes between.
    ("7: behind 40 others", 3, 600, TYPE + BARE_40 + TYPE, "refused 7 124"),
    ("7: a code without a row behind 40 others", 3, 600, BARE + BARE_40 + BARE, "refused 7 123"),
    ("7: the 20th of 40 behind the others", 3, 600, BARE_40 + TYPE + record(UNKNOWN[19], "01"), "refused 7 124"),
    ("no 7: 41 tags", 0, 330, BARE_40 + TYPE,
     "plan 0 | options " + "".join(option(c, "") for c in UNKNOWN[:40]) + "35 01 05 FF zeros 6 | accepted 41"),
    ("7: 128 again", 0, 300, "80 00 00 40 00 01 61 80 00 00", "refused 7 7"),
    ("7 before 8: length 2", 0, 300, TYPE + "35 00 02 05 05", "refused 7 4"),
    ("7 before 8: length 0", 0, 300, TYPE + "35 00 00", "refused 7 4"),
    ("7 before 9", 0, 300, TYPE + BROKEN, "refused 7 4"),
    # 8, 9: see KINDS for each code
    ("8: first", 0, 300, "35 00 02 05 00", "refused 8 0"),
    ("8: later", 0, 300, LEASE + "35 00 02 05 00", "refused 8 7"),
    ("9: first", 0, 300, BROKEN, "refused 9 0"),
    ("9: later", 0, 300, LEASE + DOMAIN + "35 00 01 00", "refused 9 11"),
    ("9: a raw 200 in a host name", 0, 300, "0C 00 05 6D C8 74 65 72", "refused 9 0"),
    ("9: a text, later", 0, 300, LEASE + NAME + "0F 00 03 61 C3 A9", "refused 9 12"),
    ("9: a text, no room for it", 0, 241, "0C 00 01 80", "refused 9 0"),
    ("9 before 14: a text", 0, 300, ROUTER + MASK + "0C 00 01 80", "refused 9 14"),
    ("7 before 9: a text again", 0, 300, NAME + "0C 00 01 80", "refused 7 5"),
    ("12 before 9: a text", 0, 300, "0C 00 02 80", "refused 12 0"),
    ("13 before 9: a text", 3, 1472, "0C 04 01" + "80" * 1025, "refused 13 0"),
    ("8 before 9", 0, 300, "35 00 02 00 00", "refused 8 0"),
    ("8 before 9, later", 0, 300, TYPE + "21 00 04 00 00 00 00", "refused 8 4"),

    # Two faulty records: the first counts, whatever its number.
    ("9, then 12", 0, 300, BROKEN + "C8", "refused 9 0"),
    ("8, then 12", 0, 300, "35 00 00 C8 00", "refused 8 0"),
    ("7, then 12", 0, 300, BARE + BARE + "C8 FF FF", "refused 7 3"),
    ("13, then 12", 3, 1472, "C8 04 01" + ramp(1025) + "C9", "refused 13 0"),
    ("was 13, then 12, and is 12", 3, 1472, "C8 01 00" + ramp(256) + "C9", "refused 12 259"),
    ("10, then 12", 0, 300, "34 00 01 01 35", "refused 10 0"),
    ("9, then 10", 0, 300, BROKEN + "00 00 00", "refused 9 0"),
    ("8, then 10", 0, 300, "01 00 03 01 02 03 FF 00 00", "refused 8 0"),
    ("7, then 10", 0, 300, TYPE + TYPE + "00 00 00", "refused 7 4"),
    ("13, then 10", 3, 1472, "C8 04 01" + ramp(1025) + "00 00 00", "refused 13 0"),
    ("was 13, then 10, and is 10", 3, 1472, "C8 01 00" + ramp(256) + "00 00 00", "refused 10 259"),
    ("9, then 13", 3, 1472, "2E 00 01 03 C8 04 01" + ramp(1025), "refused 9 0"),
    ("8, then 13", 3, 1472, TYPE + "3D 00 01 01 C8 04 01" + ramp(1025), "refused 8 4"),
    ("7, then 13", 3, 1472, TYPE + TYPE + "C8 04 01" + ramp(1025), "refused 7 4"),
    ("9, then 256 bytes", 3, 1472, "2E 00 01 03 C8 01 00" + ramp(256), "refused 9 0"),
    ("8, then 256 bytes", 3, 1472, TYPE + "3D 00 01 01 C8 01 00" + ramp(256), "refused 8 4"),
    ("7, then 256 bytes", 3, 1472, TYPE + TYPE + "C8 01 00" + ramp(256), "refused 7 4"),
    ("7: a long record again", 3, 1472, "C8 01 00" + ramp(256) + "C8 01 00" + ramp(256), "refused 7 259"),
    ("7: a long record, then the same tag with none", 3, 1472, "C8 01 2C" + ramp(300) + "C8 00 00", "refused 7 303"),
    ("9, then 7", 0, 300, TYPE + "2E 00 01 03" + TYPE, "refused 9 4"),
    ("8, then 7", 0, 300, TYPE + "2E 00 00" + TYPE, "refused 8 4"),
    ("9, then 7 of the same tag", 0, 300, BROKEN + TYPE, "refused 9 0"),
    ("9, then 8", 0, 300, BROKEN + "2E 00 00", "refused 9 0"),
    ("8, then 9", 0, 300, "2E 00 00" + BROKEN, "refused 8 0"),
    ("10 twice", 0, 300, TYPE + "FF 00 00 00 00 00", "refused 10 4"),
]

# 14 comes after every record, and before 11.
ROUTER_FIRST = [
    ("14: 3, then 1", 0, 300, ROUTER + MASK, "refused 14 0"),
    ("14: one before them", 0, 300, TYPE + ROUTER + MASK, "refused 14 4"),
    ("14: one between them", 0, 300, TYPE + LEASE + ROUTER + DOMAIN + MASK, "refused 14 11"),
    ("14: one behind them", 3, 300, ROUTER + MASK + TYPE, "refused 14 0"),
    ("14: two routers", 0, 300, "03 00 08 0A 00 00 01 0A 00 00 02" + LEASE + MASK, "refused 14 0"),
    ("1, then 3", 0, 300, MASK + ROUTER, "plan 0 | options 01 04 FF FF FF 00 03 04 0A 00 00 01 FF | accepted 2"),
    ("1, others, 3", 0, 300, MASK + TYPE + ROUTER,
     "plan 0 | options 01 04 FF FF FF 00 35 01 05 03 04 0A 00 00 01 FF | accepted 3"),
    ("1 in options, 3 in file", 1, 250, MASK + ROUTER,
     "plan 1 | options 34 01 01 01 04 FF FF FF 00 FF zeros 0 | file 03 04 0A 00 00 01 FF zeros 121 | accepted 3"),
    ("3 alone", 0, 300, ROUTER, "plan 0 | options 03 04 0A 00 00 01 FF | accepted 1"),
    ("3 without 1", 0, 300, TYPE + ROUTER + LEASE, "plan 0 | options 35 01 05 03 04 0A 00 00 01 33 04 00 00 0E 10 FF | accepted 3"),
    ("1 alone", 0, 300, MASK, "plan 0 | options 01 04 FF FF FF 00 FF | accepted 1"),
    ("4 before 1", 0, 300, "04 00 04 0A 00 00 01" + MASK, "plan 0 | options 04 04 0A 00 00 01 01 04 FF FF FF 00 FF | accepted 2"),
    ("data 3 and 1 are no tags", 0, 300, "2B 00 02 03 01" + MASK, "plan 0 | options 2B 02 03 01 01 04 FF FF FF 00 FF | accepted 2"),
    ("12 before 14", 0, 300, ROUTER + MASK + "C8", "refused 12 14"),
    ("12 before 14: tag 1 cut", 0, 300, ROUTER + "01 00 04 FF FF FF", "refused 12 7"),
    ("10 before 14", 0, 300, ROUTER + MASK + "34 00 01 01", "refused 10 14"),
    ("13 before 14", 3, 1472, ROUTER + MASK + "C8 04 01" + ramp(1025), "refused 13 14"),
    ("was 13 before 14, and is 14", 3, 1472, ROUTER + MASK + "C8 01 00" + ramp(256), "refused 14 0"),
    ("14: 3 of 260 bytes", 3, 1472, "03 01 04" + "01" * 260 + MASK, "refused 14 0"),
    ("14: a long record between them", 3, 1472, TYPE + ROUTER + "C8 01 00" + ramp(256) + MASK, "refused 14 4"),
    ("1, then 3 of 260 bytes", 3, 1472, MASK + "03 01 04" + "01" * 260,
     "plan 0 | options 01 04 FF FF FF 00" + pieces(3, "01" * 260, 255, 5) + "FF | accepted 3"),
    ("7 before 14: 3 again", 0, 300, ROUTER + MASK + ROUTER, "refused 7 14"),
    ("7 before 14: 1 again", 0, 300, ROUTER + MASK + MASK, "refused 7 14"),
    ("8 before 14: tag 1 broken", 0, 300, ROUTER + "01 00 03 FF FF FF", "refused 8 7"),
    ("8 before 14: tag 3 broken", 0, 300, "03 00 03 0A 00 00" + MASK, "refused 8 0"),
    ("9 before 14", 0, 300, ROUTER + MASK + BROKEN, "refused 9 14"),
    ("9 between 3 and 1", 0, 300, ROUTER + BROKEN + MASK, "refused 9 7"),
    ("14 before 11: no room for END", 0, 240, ROUTER + MASK, "refused 14 0"),
    ("14 before 11: one byte short", 0, 252, ROUTER + MASK, "refused 14 0"),
    ("14 before 11: with every plan", 3, 241, TYPE + ROUTER + MASK, "refused 14 4"),
    ("11 where 14 is not: 1, then 3, one byte short", 0, 252, MASK + ROUTER, "refused 11 252"),
    *[(f"{number} before 11", 0, 240, sheet, f"refused {number} {place}") for number, place, sheet in (
        (12, 0, "35"), (10, 0, "34 00 01 01"), (13, 0, "C8 04 01" + ramp(1025)), (7, 4, TYPE + TYPE), (8, 0, "35 00 00"),
        (9, 0, "35 00 01 00"))],
    ("was 13 before 11, and is 11", 0, 240, "C8 01 00" + ramp(256), "refused 11 240"),
]

# 15 records of 258 bytes: 3,870 of a sheet's 4,096.
LONG = "".join(record(c, ramp(255)) for c in range(200, 215))
SHEETS = [
    ("4,096 bytes, right but for room", 3, 1472, LONG + "D7 00 DF" + ramp(223), "refused 11 1472"),
    ("4,096 bytes, a small buffer", 0, 241, LONG + "D7 00 DF" + ramp(223), "refused 11 241"),
    ("4,096 bytes, one left over", 3, 1472, LONG + "D7 00 DE" + ramp(222) + "35", "refused 12 4095"),
    ("4,096 bytes, two left over", 3, 1472, LONG + "D7 00 DD" + ramp(221) + "35 00", "refused 12 4094"),
    ("4,096 bytes, the last one byte too long", 3, 1472, LONG + "D7 00 E0" + ramp(223), "refused 12 3870"),
    ("4,096 bytes, tag 0 at the end", 3, 1472, LONG + "D7 00 DC" + ramp(220) + "00 00 00", "refused 10 4093"),
    # 14 of the records take 3,612, 11 of them 2,838
    ("4,096 bytes, 256 of data at the end: was 13", 3, 1472,
     "".join(record(c, ramp(255)) for c in range(200, 214)) + "D7 00 DE" + ramp(222) + "D8 01 00" + ramp(256), "refused 11 1472"),
    ("4,096 bytes, 1,025 of data at the end", 3, 1472,
     "".join(record(c, ramp(255)) for c in range(200, 211)) + "D7 00 E3" + ramp(227) + "D8 04 01" + ramp(1025), "refused 13 3068"),
    ("4,096 bytes of four records", 3, 1472, "".join(record(c, ramp(1021)) for c in range(200, 204)), "refused 11 1472"),
    ("4,097 bytes of four records", 3, 1472, "".join(record(c, ramp(1021)) for c in range(200, 203)) + record(203, ramp(1022)),
     "refused 16 4097"),
    ("4,096 bytes, met again at the end", 3, 1472, LONG + "C8 00 DF" + ramp(223), "refused 7 3870"),
    ("4,096 bytes, 8 at the end", 3, 1472, LONG + "D7 00 DB" + ramp(219) + "01 00 01 FF", "refused 8 4092"),
    ("4,096 bytes, 9 at the end", 3, 1472, LONG + "D7 00 DB" + ramp(219) + BROKEN, "refused 9 4092"),
    ("4,096 bytes, 3 first and 1 last", 3, 1472, ROUTER + LONG + "D7 00 D1" + ramp(209) + MASK, "refused 14 0"),
    ("4,096 bytes, 1 first and 3 last", 3, 1472, MASK + LONG + "D7 00 D1" + ramp(209) + ROUTER, "refused 11 1472"),
    ("4,095 bytes", 3, 1472, LONG + "D7 00 DE" + ramp(222), "refused 11 1472"),
    ("4,096 zeros", 3, 1472, "00" * 4096, "refused 10 0"),
    ("4,097 bytes, else right", 3, 1472, LONG + "D7 00 E0" + ramp(224), "refused 16 4097"),
    ("4,097 bytes, right up to 4,096", 3, 1472, LONG + "D7 00 DF" + ramp(223) + "C8", "refused 16 4097"),
    ("4,097 zeros: 16 before 10", 0, 300, "00" * 4097, "refused 16 4097"),
    ("4,097 of 255: 16 before 12", 0, 300, "FF" * 4097, "refused 16 4097"),
    ("16 before 13, 14 and 11", 0, 240, ROUTER + MASK + "C8 0F F0" + ramp(4080), "refused 16 4097"),
    ("4,098 bytes", 3, 1472, LONG + "D7 00 E1" + ramp(225), "refused 16 4098"),
    ("5,000 bytes", 3, 300, "C8 13 85" + ramp(4997), "refused 16 5000"),

    # 1, 2, 15, 16, then the records.
    ("1 before 15", 4, 239, TYPE, "refused 1 239"),
    ("1 before 16", 0, 239, "00" * 4097, "refused 1 239"),
    ("1 before 15 and 16", 255, 0, "00" * 4097, "refused 1 0"),
    ("1 before a record's fault", 0, 239, "35", "refused 1 239"),
    ("2 before 15", 4, 1473, TYPE, "refused 2 1473"),
    ("2 before 16", 0, 1473, "00" * 4097, "refused 2 1473"),
    ("2 before 15 and 16", 4, 1500, "00" * 4097, "refused 2 1500"),
    ("2 before a record's fault", 3, 1473, BROKEN, "refused 2 1473"),
    ("15 before 16", 4, 300, "00" * 4097, "refused 15 0"),
    ("15 before a record's fault", 4, 300, TYPE + "35", "refused 15 0"),
    ("15 before 14", 255, 300, ROUTER + MASK, "refused 15 0"),
    ("15 before 11", 4, 240, EMPTY, "refused 15 0"),
    ("2 before 14", 3, 1473, ROUTER + MASK, "refused 2 1473"),
]

# Records over 255 bytes: pieces of 255 bytes, each 257 as an option, and a last one. Rooms are as with PLANS; a piece of 255 has room in
# options alone, so that of one record at most the last piece leaves options.
LONG_RECORDS = [
    # The smallest buffer of plan 0, by the number of pieces: 241, the data, and 2 for each piece.
    *[case for length, *lengths in ((256, 255, 1), (257, 255, 2), (258, 255, 3), (300, 255, 45), (509, 255, 254), (510, 255, 255),
                                    (511, 255, 255, 1), (764, 255, 255, 254), (765, 255, 255, 255), (766, 255, 255, 255, 1),
                                    (1020, 255, 255, 255, 255), (1021, 255, 255, 255, 255, 1), (1023, 255, 255, 255, 255, 3),
                                    (1024, 255, 255, 255, 255, 4))
      for case in every_permission(f"{length} bytes just fit", 241 + length + 2 * len(lengths), record(200, ramp(length)),
                                   "plan 0 | options " + pieces(200, ramp(length), *lengths) + f"FF zeros 0 | accepted {len(lengths)}")],
    # One byte less. A last piece of 1 byte takes 3 as an option, as much as 52: nothing is won.
    *[case for length, room in ((256, 500), (510, 754), (511, 757), (765, 1011), (766, 1014), (1020, 1268), (1021, 1271))
      for case in every_permission(f"{length} bytes, one byte short", room, record(200, ramp(length)), f"refused 11 {room}")],
    *every_permission("257 bytes, one byte short", 501, record(200, ramp(257)), "refused 11 501",
                      "plan 1 | options 34 01 01 C8 FF" + ramp(255) + "FF zeros 0 | file C8 02 00 01 FF zeros 123 | accepted 3",
                      "plan 2 | options 34 01 02 C8 FF" + ramp(255) + "FF zeros 0 | sname C8 02 00 01 FF zeros 59 | accepted 3",
                      "plan 1 | options 34 01 01 C8 FF" + ramp(255) + "FF zeros 0 | file C8 02 00 01 FF zeros 123 | accepted 3"),
    *every_permission("257 bytes, two bytes short", 500, record(200, ramp(257)), "refused 11 500"),
    *every_permission("1,024 bytes, one byte short", 1274, record(43, ramp(1024)), "refused 11 1274",
                      "plan 1 | options 34 01 01" + pieces(43, ramp(1020), 255, 255, 255, 255) + "FF zeros 2 | file 2B 04 FD FE FF 00 FF"
                      " zeros 121 | accepted 6",
                      "plan 2 | options 34 01 02" + pieces(43, ramp(1020), 255, 255, 255, 255) + "FF zeros 2 | sname 2B 04 FD FE FF 00 FF"
                      " zeros 57 | accepted 6",
                      "plan 1 | options 34 01 01" + pieces(43, ramp(1020), 255, 255, 255, 255) + "FF zeros 2 | file 2B 04 FD FE FF 00 FF"
                      " zeros 121 | accepted 6"),
    *every_permission("1,024 bytes, no room for the fourth piece", 1271, record(43, ramp(1024)), "refused 11 1271"),
    *every_permission("1,024 bytes into 1,472", 1472, record(43, ramp(1024)),
                      "plan 0 | options " + pieces(43, ramp(1024), 255, 255, 255, 255, 4) + "FF zeros 197 | accepted 5"),
    *every_permission("1,025 bytes into 1,472", 1472, record(43, ramp(1025)), "refused 13 0"),

    # The last piece in file or sname.
    *every_permission("300 bytes, one byte short", 544, record(43, ramp(300)), "refused 11 544",
                      "plan 1 | options 34 01 01 2B FF" + ramp(255) + "FF zeros 43 | file 2B 2D 00" + ramp(44) + "FF zeros 80 | accepted 3",
                      "plan 2 | options 34 01 02 2B FF" + ramp(255) + "FF zeros 43 | sname 2B 2D 00" + ramp(44) + "FF zeros 16 | accepted 3",
                      "plan 1 | options 34 01 01 2B FF" + ramp(255) + "FF zeros 43 | file 2B 2D 00" + ramp(44) + "FF zeros 80 | accepted 3"),
    *every_permission("300 bytes, the first piece just fits", 501, record(43, ramp(300)), "refused 11 501",
                      "plan 1 | options 34 01 01 2B FF" + ramp(255) + "FF zeros 0 | file 2B 2D 00" + ramp(44) + "FF | accepted 3",
                      "plan 2 | options 34 01 02 2B FF" + ramp(255) + "FF zeros 0 | sname 2B 2D 00" + ramp(44) + "FF | accepted 3",
                      "plan 1 | options 34 01 01 2B FF" + ramp(255) + "FF zeros 0 | file 2B 2D 00" + ramp(44) + "FF | accepted 3"),
    *every_permission("300 bytes, the first piece fits nowhere", 500, record(43, ramp(300)), "refused 11 500"),
    *every_permission("300 bytes: room enough, but in parts", 300, record(43, ramp(300)), "refused 11 300"),
    *every_permission("the last piece fills file", 501, record(43, ramp(380)), "refused 11 501",
                      "plan 1 | options 34 01 01 2B FF" + ramp(255) + "FF zeros 0 | file 2B 7D 00" + ramp(124) + "FF zeros 0 | accepted 3",
                      "refused 11 501",
                      "plan 1 | options 34 01 01 2B FF" + ramp(255) + "FF zeros 0 | file 2B 7D 00" + ramp(124) + "FF zeros 0 | accepted 3"),
    *every_permission("the last piece one byte too long for file", 501, record(43, ramp(381)), "refused 11 501"),
    *every_permission("the last piece fills sname", 501, record(43, ramp(316)), "refused 11 501",
                      "plan 1 | options 34 01 01 2B FF" + ramp(255) + "FF zeros 0 | file 2B 3D 00" + ramp(60) + "FF zeros 64 | accepted 3",
                      "plan 2 | options 34 01 02 2B FF" + ramp(255) + "FF zeros 0 | sname 2B 3D 00" + ramp(60) + "FF zeros 0 | accepted 3",
                      "plan 1 | options 34 01 01 2B FF" + ramp(255) + "FF zeros 0 | file 2B 3D 00" + ramp(60) + "FF zeros 64 | accepted 3"),
    *every_permission("the last piece one byte too long for sname", 501, record(43, ramp(317)), "refused 11 501",
                      "plan 1 | options 34 01 01 2B FF" + ramp(255) + "FF zeros 0 | file 2B 3E 00" + ramp(61) + "FF zeros 63 | accepted 3",
                      "refused 11 501",
                      "plan 1 | options 34 01 01 2B FF" + ramp(255) + "FF zeros 0 | file 2B 3E 00" + ramp(61) + "FF zeros 63 | accepted 3"),
    ("the third piece in file", 1, 758, record(43, ramp(555)),
     "plan 1 | options 34 01 01 2B FF" + ramp(255) + "2B FF 00" + ramp(254) + "FF zeros 0 | file 2B 2D FF 00" + ramp(43) + "FF | accepted 4"),
    ("the second piece has room nowhere, the third in file", 3, 757, record(43, ramp(555)), "refused 11 757"),
    ("two full pieces, the second for options alone", 3, 754, record(43, ramp(510)), "refused 11 754"),

    # With other records, before and behind.
    ("a piece in file, and a record behind it", 1, 510, TYPE + LEASE + record(43, ramp(300)) + NAME,
     "plan 1 | options 34 01 01 35 01 05 33 04 00 00 0E 10 2B FF" + ramp(255) + "FF zeros 0 | file 2B 2D 00" + ramp(44)
     + "0C 02 61 62 FF zeros 76 | accepted 6"),
    ("a small record stays behind the piece in file", 1, 520, record(43, ramp(300)) + TYPE,
     "plan 1 | options 34 01 01 2B FF" + ramp(255) + "FF zeros 19 | file 2B 2D 00" + ramp(44) + "35 01 05 FF zeros 77 | accepted 4"),
    ("a piece fills file, a record goes to sname", 3, 501, record(43, ramp(380)) + TYPE,
     "plan 3 | options 34 01 03 2B FF" + ramp(255) + "FF zeros 0 | file 2B 7D 00" + ramp(124) + "FF zeros 0 | sname 35 01 05 FF zeros 60"
     " | accepted 4"),
    ("all three full, a piece in options and one in file", 3, 507, LEASE + record(43, ramp(380)) + FILLS_SNAME,
     "plan 3 | options 34 01 03 33 04 00 00 0E 10 2B FF" + ramp(255) + "FF zeros 0 | file 2B 7D 00" + ramp(124) + "FF zeros 0 | sname "
     + FULL_SNAME + " | accepted 5"),
    ("all three full, less one byte of options", 3, 506, LEASE + record(43, ramp(380)) + FILLS_SNAME, "refused 11 506"),
    ("a first piece without room behind another record", 3, 511, record(200, ramp(100)) + record(43, ramp(300)),
     "refused 11 511"),
    ("the same order with room in options", 3, 603, record(200, ramp(100)) + record(43, ramp(300)),
     "plan 1 | options 34 01 01 C8 64" + ramp(100) + "2B FF" + ramp(255) + "FF zeros 0 | file 2B 2D 00" + ramp(44) + "FF | accepted 4"),
    ("long, then short: the short one fits options, and stays behind", 2, 505, record(43, ramp(300)) + "FE 00 00",
     "plan 2 | options 34 01 02 2B FF" + ramp(255) + "FF zeros 4 | sname 2B 2D 00" + ramp(44) + "FE 00 FF zeros 14 | accepted 4"),
    ("two long records, the second's last piece in file", 3, 805, record(43, ramp(300)) + record(200, ramp(300)),
     "plan 1 | options 34 01 01" + pieces(43, ramp(300), 255, 45) + "C8 FF" + ramp(255) + "FF zeros 0 | file C8 2D 00" + ramp(44)
     + "FF | accepted 5"),
    ("two long records, one byte less", 3, 804, record(43, ramp(300)) + record(200, ramp(300)), "refused 11 804"),
    ("two long records just fit", 0, 849, record(43, ramp(300)) + record(200, ramp(300)),
     "plan 0 | options " + pieces(43, ramp(300), 255, 45) + pieces(200, ramp(300), 255, 45) + "FF zeros 0 | accepted 4"),
    ("1,472: 1,024 bytes and 195", 0, 1472, record(43, ramp(1024)) + record(200, ramp(195)),
     "plan 0 | options " + pieces(43, ramp(1024), 255, 255, 255, 255, 4) + "C8 C3" + ramp(195) + "FF zeros 0 | accepted 6"),
    ("1,472: 1,024 bytes and 196", 0, 1472, record(43, ramp(1024)) + record(200, ramp(196)), "refused 11 1472"),
    ("1,472: every byte of all fields", 3, 1472, record(43, ramp(1024)) + record(202, ramp(192)) + FILLS_FILE + FILLS_SNAME,
     "plan 3 | options 34 01 03" + pieces(43, ramp(1024), 255, 255, 255, 255, 4) + "CA C0" + ramp(192) + "FF zeros 0 | file " + FULL_FILE
     + " | sname " + FULL_SNAME + " | accepted 9"),
    ("1,472: two of 511 bytes and one of 130", 3, 1472, record(43, ramp(511)) + record(200, ramp(511)) + record(201, ramp(130)),
     "plan 0 | options " + pieces(43, ramp(511), 255, 255, 1) + pieces(200, ramp(511), 255, 255, 1) + "C9 82" + ramp(130)
     + "FF zeros 65 | accepted 7"),

    # All data bytes are written in order, and come back.
    ("a text of 300 bytes, the last 50 zeros", 0, 545, record(12, "61" * 250 + "00" * 50),
     "plan 0 | options 0C FF" + "61" * 250 + "00" * 5 + "0C 2D" + "00" * 45 + "FF zeros 0 | accepted 2"),
    ("a text of 300 zeros, in file", 1, 501, record(12, "00" * 300),
     "plan 1 | options 34 01 01 0C FF" + "00" * 255 + "FF zeros 0 | file 0C 2D" + "00" * 45 + "FF zeros 80 | accepted 3"),
    ("a text of 300 bytes, 127 in the second piece", 0, 545, record(12, "61" * 260 + "7F" * 40),
     "plan 0 | options 0C FF" + "61" * 255 + "0C 2D" + "61" * 5 + "7F" * 40 + "FF zeros 0 | accepted 2"),
    ("300 of 255", 0, 545, record(200, "FF" * 300), "plan 0 | options C8 FF" + "FF" * 255 + "C8 2D" + "FF" * 45 + "FF zeros 0 | accepted 2"),
    ("data that looks like 52, in the second piece", 1, 501, record(43, ramp(255) + "34 01 02 FF"),
     "plan 1 | options 34 01 01 2B FF" + ramp(255) + "FF zeros 0 | file 2B 04 34 01 02 FF FF zeros 121 | accepted 3"),

    # Kinds judge the whole record.
    ("65 addresses", 0, 505, record(3, "01020304" * 65), "plan 0 | options " + pieces(3, "01020304" * 65, 255, 5) + "FF zeros 0 | accepted 2"),
    ("256 addresses", 0, 1275, record(6, "01020304" * 256),
     "plan 0 | options " + pieces(6, "01020304" * 256, 255, 255, 255, 255, 4) + "FF zeros 0 | accepted 5"),
    ("258 bytes of addresses", 3, 1472, record(3, ramp(258)), "refused 8 0"),
    ("260 bytes of one address", 3, 1472, record(1, ramp(260)), "refused 8 0"),
    ("256 bytes of a message type", 3, 1472, TYPE.replace("35", "C8") + record(53, "01" * 256), "refused 8 4"),
    ("33 pairs", 0, 509, record(33, "CB0071070A4D0001" * 33),
     "plan 0 | options " + pieces(33, "CB0071070A4D0001" * 33, 255, 9) + "FF zeros 0 | accepted 2"),
    ("33 pairs, the last destination zero", 3, 1472, record(33, "CB0071070A4D0001" * 32 + "000000000A4D0001"), "refused 9 0"),
    ("33 pairs, a destination zero where it is cut", 3, 1472, record(33, "CB0071070A4D0001" * 31 + "00" * 8 + "CB0071070A4D0001"), "refused 9 0"),
    ("260 bytes of pairs", 3, 1472, record(33, "CB007107" * 65), "refused 8 0"),
    ("33 pairs of zeros, 21", 0, 509, record(21, "00" * 264), "plan 0 | options " + pieces(21, "00" * 264, 255, 9) + "FF zeros 0 | accepted 2"),
    ("25: 129 numbers", 0, 503, record(25, "0044" * 128 + "0045"),
     "plan 0 | options " + pieces(25, "0044" * 128 + "0045", 255, 3) + "FF zeros 0 | accepted 2"),
    ("25: the last of 129 falls", 3, 1472, record(25, "0045" * 128 + "0044"), "refused 9 0"),
    ("25: the number that is cut falls", 3, 1472, record(25, "0145" * 127 + "0144" + "0145"), "refused 9 0"),
    ("25: 257 bytes", 3, 1472, record(25, "44" * 257), "refused 8 0"),
    ("a text of 300 bytes, the last 128", 3, 1472, record(12, "61" * 299 + "80"), "refused 9 0"),
    ("a text of 300 bytes, 128 before zeros in the second piece", 3, 1472, record(12, "61" * 260 + "80" + "00" * 39), "refused 9 0"),
    ("a text of 300 bytes, a zero where it is cut", 3, 1472, record(12, "61" * 255 + "00" + "61" * 44), "refused 9 0"),
    ("a text of 300 bytes, 128 first", 3, 1472, record(12, "80" + "61" * 299), "refused 9 0"),
    ("61 of 256 bytes", 0, 501, record(61, ramp(256)), "plan 0 | options " + pieces(61, ramp(256), 255, 1) + "FF zeros 0 | accepted 2"),
    ("68 of 256 bytes", 0, 501, record(68, ramp(256)), "plan 0 | options " + pieces(68, ramp(256), 255, 1) + "FF zeros 0 | accepted 2"),
    ("10: 34 of 256 bytes", 0, 501, record(34, ramp(256)), "plan 0 | options " + pieces(34, ramp(256), 255, 1) + "FF zeros 0 | accepted 2"),
    ("10: 8 of 1,024 bytes", 0, 1275, record(8, ramp(1024)), "plan 0 | options " + pieces(8, ramp(1024), 255, 255, 255, 255, 4) + "FF zeros 0 | accepted 5"),
    ("10: 10 of 1,025 bytes", 3, 1472, record(10, ramp(1025)), "refused 13 0"),
    ("8 at a long record behind others", 3, 1472, TYPE + LEASE + record(42, ramp(270)), "refused 8 11"),
    ("9 behind a long record", 3, 1472, record(43, ramp(300)) + BROKEN, "refused 9 303"),
    ("12 behind a long record", 3, 1472, record(43, ramp(300)) + "C8 00", "refused 12 303"),
    ("12: 256, none there", 3, 1472, "2B 01 00", "refused 12 0"),
    ("12: 1,024, one byte missing", 3, 1472, "2B 04 00" + ramp(1023), "refused 12 0"),
]

# --- Option 82, relay agent information (request 09) --------------------------------------------------------------------

BOTH = "01 02 0A 0B 02 01 0C"  # circuit id and remote id: 7 bytes
RELAY = record(82, BOTH)           # 10 bytes
RELAY_2 = record(82, "01 00")      # 5 bytes
IN_OPTIONS = option(82, BOTH)      # 9 bytes
LONG = "09 FF" + ramp(255) + "0A 20" + ramp(32)  # 291 bytes of two sub-options

RELAY_INFORMATION = [
    # "In a settings sheet 82 must come last."
    ("82 alone", 0, 300, RELAY, f"plan 0 | options {IN_OPTIONS}FF zeros 50 | accepted 1"),
    ("82 last of three", 0, 300, TYPE + LEASE + RELAY, f"plan 0 | options 35 01 05 33 04 00 00 0E 10 {IN_OPTIONS}FF zeros 41 | accepted 3"),
    ("82 of 2 bytes", 0, 300, RELAY_2, "plan 0 | options 52 02 01 00 FF zeros 55 | accepted 1"),
    ("82 with sub-codes 0 and 255", 0, 300, record(82, "00 00 FF 01 FF"), "plan 0 | options 52 05 00 00 FF 01 FF FF zeros 52 | accepted 1"),
    # "23 for 82 not last, at its tag, after 14"
    ("23: 82 first of two", 0, 300, RELAY + TYPE, "refused 23 0"),
    ("23: 82 in the middle", 0, 300, TYPE + RELAY + LEASE, "refused 23 4"),
    ("23: one record behind, without data", 0, 300, TYPE + LEASE + RELAY + BARE, "refused 23 11"),
    ("23: many records behind", 0, 600, RELAY_2 + "".join(record(c, "") for c in range(200, 254)), "refused 23 0"),
    ("23: 81 and 83 may stand anywhere, 82 may not", 0, 300, record(81, "") + record(83, "") + RELAY + record(84, ""), "refused 23 6"),
    ("81 and 83 behind nothing", 0, 300, record(83, "") + record(81, "") + RELAY, f"plan 0 | options 53 00 51 00 {IN_OPTIONS}FF zeros 46 | accepted 3"),
    *every_permission("23, any permission", 300, RELAY + TYPE, "refused 23 0"),
    # after 14
    ("14 before 23", 0, 300, ROUTER + RELAY + MASK, "refused 14 0"),
    ("14 before 23, 82 first", 0, 300, RELAY + ROUTER + MASK, "refused 14 10"),
    ("23 where 1 and 3 are in order", 0, 300, MASK + RELAY + ROUTER, "refused 23 7"),
    ("14, 82 last", 0, 300, ROUTER + MASK + RELAY, "refused 14 0"),
    # behind the first faulty record
    ("12 before 23", 0, 300, RELAY + "35 00 01", "refused 12 10"),
    ("12 before 23: a byte behind 82 is a record cut short", 0, 300, RELAY + "35", "refused 12 10"),
    ("10 before 23", 0, 300, RELAY + "34 00 01 01", "refused 10 10"),
    ("13 before 23", 0, 300, RELAY + record(200, ramp(1025)), "refused 13 10"),
    ("7 before 23: 82 again", 0, 300, RELAY + RELAY, "refused 7 10"),
    ("7 before 23: 82 again, last", 0, 300, RELAY + TYPE + RELAY, "refused 7 14"),
    ("8 before 23", 0, 300, RELAY + "35 00 00", "refused 8 10"),
    ("9 before 23", 0, 300, RELAY + BROKEN, "refused 9 10"),
    ("9 of an earlier record before 23", 0, 300, BROKEN + RELAY + TYPE, "refused 9 0"),
    ("1 before 23", 0, 239, RELAY + TYPE, "refused 1 239"),
    ("2 before 23", 0, 1473, RELAY + TYPE, "refused 2 1473"),
    ("15 before 23", 4, 300, RELAY + TYPE, "refused 15 0"),
    ("16 before 23", 0, 300, RELAY + "00" * 4087, "refused 16 4097"),
    # before 11
    ("23 before 11", 0, 240, RELAY + TYPE, "refused 23 0"),
    ("23 before 11: 82 would fit, the other would not", 0, 250, RELAY + record(200, ramp(255)), "refused 23 0"),
    ("11: 82 last, and a byte short", 0, 249, RELAY, "refused 11 249"),
    ("82 last, just enough", 0, 250, RELAY, f"plan 0 | options {IN_OPTIONS}FF zeros 0 | accepted 1"),
    # "8 where sub-options don't fill the data exactly or are under 2 bytes"
    ("8: no data", 0, 300, record(82, ""), "refused 8 0"),
    ("8: one byte", 0, 300, TYPE + record(82, "01"), "refused 8 4"),
    ("8: a byte left over", 0, 300, TYPE + record(82, "01 00 02"), "refused 8 4"),
    ("8: a pad left over", 0, 300, record(82, "01 00 00"), "refused 8 0"),
    ("8: an END left over", 0, 300, record(82, "01 00 FF"), "refused 8 0"),
    ("8: the last sub-option runs past", 0, 300, record(82, "01 02 0A"), "refused 8 0"),
    ("8 of 82 itself, not last", 0, 300, record(82, "01") + TYPE, "refused 8 0"),
    ("7 before 8: 82 again, broken", 0, 300, RELAY + record(82, "01"), "refused 7 10"),
    ("12 before 8", 0, 300, "52 00 03 01 00", "refused 12 0"),
    ("13 before 8", 0, 300, record(82, ramp(1025)), "refused 13 0"),
    ("8 before 11", 0, 240, record(82, "01"), "refused 8 0"),
    # A long 82 is split as any other, also within a sub-option.
    ("82 of 291 bytes", 0, 600, TYPE + record(82, LONG), "plan 0 | options 35 01 05" + pieces(82, LONG, 255, 36) + "FF zeros 61 | accepted 3"),
    ("82 of 1,024 bytes", 0, 1472, record(82, "09 FF" + ramp(255) + "09 FF" + ramp(255) + "09 FF" + ramp(255) + "09 FB" + ramp(251)),
     "plan 0 | options " + pieces(82, "09 FF" + ramp(255) + "09 FF" + ramp(255) + "09 FF" + ramp(255) + "09 FB" + ramp(251), 255, 255, 255, 255, 4)
     + "FF zeros 197 | accepted 5"),
    ("8: 82 of 291 bytes, the last sub-option runs past", 0, 600, TYPE + record(82, "09 FF" + ramp(255) + "0A 21" + ramp(32)), "refused 8 4"),
    # Nothing keeps 82 out of file or sname: the plans are document 01's.
    ("82 in file", 1, 247, TYPE + RELAY, f"plan 1 | options 34 01 01 35 01 05 FF zeros 0 | file {IN_OPTIONS}FF zeros 118 | accepted 3"),
    ("82 in sname", 2, 247, TYPE + RELAY, f"plan 2 | options 34 01 02 35 01 05 FF zeros 0 | sname {IN_OPTIONS}FF zeros 54 | accepted 3"),
    ("82 in pieces over options and file", 1, 501, record(82, LONG),
     "plan 1 | options 34 01 01" + option(82, "09 FF" + ramp(253)) + "FF zeros 0 | file " + option(82, "FE FF 0A 20" + ramp(32)) + "FF zeros 89 | accepted 3"),
]

# --- Option 121, classless routes (request 14) --------------------------------------------------------------------------

GATE = "0A 4D 00 01"                 # a router
NET = f"18 C0 00 02 {GATE}"          # 192.0.2.0/24: 8 bytes
DEFAULT = f"00 {GATE}"               # 0.0.0.0/0: 5 bytes
HOST = f"20 C0 00 02 07 {GATE}"      # 192.0.2.7/32: 9 bytes
WIDE = f"21 C0 00 02 07 {GATE}"      # 33: 9 bytes
ROUTES = record(121, DEFAULT)        # 8 bytes

CLASSLESS_ROUTES = [
    ("121 alone", 0, 300, ROUTES, f"plan 0 | options 79 05 {DEFAULT} FF zeros 52 | accepted 1"),
    ("121 of three routes, before and behind others", 0, 300, TYPE + record(121, NET + DEFAULT + HOST) + LEASE,
     f"plan 0 | options 35 01 05 79 16 {NET}{DEFAULT}{HOST} 33 04 00 00 0E 10 FF zeros 26 | accepted 3"),
    ("121 before 82, which is last", 0, 300, ROUTES + RELAY_2, f"plan 0 | options 79 05 {DEFAULT} 52 02 01 00 FF zeros 48 | accepted 2"),
    ("121 behind 82", 0, 300, RELAY_2 + ROUTES, "refused 23 0"),
    ("121 beside 3 and 33: all are written", 0, 300, MASK + ROUTER + ROUTES + record(33, "0A0000010A4D0001"),
     f"plan 0 | options 01 04 FF FF FF 00 03 04 0A 00 00 01 79 05 {DEFAULT} 21 08 0A0000010A4D0001 FF zeros 30 | accepted 4"),
    ("120 and 122 are not judged", 0, 300, record(120, "21") + ROUTES + record(122, "21"),
     f"plan 0 | options 78 01 21 79 05 {DEFAULT} 7A 01 21 FF zeros 46 | accepted 3"),
    # Only the writer of routes asks for cleared bits: here the bytes stand as they were given.
    ("121: bits past the width are written", 0, 300, record(121, f"01 FF {GATE} 19 C0 00 02 FF {GATE}"),
     f"plan 0 | options 79 0F 01 FF {GATE} 19 C0 00 02 FF {GATE} FF zeros 42 | accepted 1"),
    # "8 for a length under 5, then, the earlier route first, 9 for a width over 32 and 8 for a route cut short"
    ("8: 121 without data", 0, 300, TYPE + record(121, ""), "refused 8 4"),
    ("8 before 9: one byte, 33", 0, 300, record(121, "21"), "refused 8 0"),
    ("8 before 9: four bytes, 33 each", 0, 300, record(121, "21 21 21 21"), "refused 8 0"),
    ("9: a wide width", 0, 300, TYPE + record(121, WIDE), "refused 9 4"),
    ("9: a wide width behind a route, at the tag", 0, 300, TYPE + LEASE + record(121, NET + WIDE), "refused 9 11"),
    ("9: a lone 33 behind a route", 0, 300, record(121, NET + "21"), "refused 9 0"),
    ("8: a lone 32 behind a route", 0, 300, record(121, NET + "20"), "refused 8 0"),
    ("9: a wide one, then one cut short", 0, 300, record(121, WIDE + "18 C0"), "refused 9 0"),
    ("8: one cut short, whose bytes are 33", 0, 300, record(121, DEFAULT + "18 21 21 21 21 21"), "refused 8 0"),
    ("7 before 8: 121 again, broken", 0, 300, ROUTES + record(121, ""), "refused 7 8"),
    ("12 before 8", 0, 300, "79 00 05 00 0A 4D 00", "refused 12 0"),
    ("13 before 9", 0, 300, record(121, "21" * 1025), "refused 13 0"),
    ("9 before 14", 0, 300, ROUTER + MASK + record(121, WIDE), "refused 9 14"),
    ("9 before 23", 0, 300, RELAY + record(121, WIDE), "refused 9 10"),
    ("9 before 11", 0, 240, record(121, WIDE), "refused 9 0"),
    ("11: 121, and a byte short", 0, 247, ROUTES, "refused 11 247"),
    ("121, just enough", 0, 248, ROUTES, f"plan 0 | options 79 05 {DEFAULT} FF zeros 0 | accepted 1"),
    # A long 121 is split as any other, also within a route.
    ("121 of 261 bytes", 0, 600, record(121, HOST * 29), "plan 0 | options " + pieces(121, HOST * 29, 255, 6) + "FF zeros 94 | accepted 2"),
    ("121 of 1,024 bytes", 0, 1472, record(121, HOST * 111 + DEFAULT * 5), "plan 0 | options " + pieces(121, HOST * 111 + DEFAULT * 5, 255, 255, 255, 255, 4)
     + "FF zeros 197 | accepted 5"),
    ("13: 121 of 114 right routes, 1,026 bytes", 0, 1472, record(121, HOST * 114), "refused 13 0"),
    ("9: 121 of 261 bytes, the last route wide", 0, 600, record(121, HOST * 28 + WIDE), "refused 9 0"),
    ("8: 121 of 260 bytes, the last route cut short", 0, 600, record(121, (HOST * 29)[:-2]), "refused 8 0"),
    ("121 in file", 1, 247, TYPE + record(121, NET), f"plan 1 | options 34 01 01 35 01 05 FF zeros 0 | file 79 08 {NET} FF zeros 117 | accepted 3"),
    ("121 in sname", 2, 247, TYPE + record(121, NET), f"plan 2 | options 34 01 02 35 01 05 FF zeros 0 | sname 79 08 {NET} FF zeros 53 | accepted 3"),
    ("121 in pieces over options and file, cut in a route", 1, 501, record(121, HOST * 29),
     "plan 1 | options 34 01 01" + option(121, HOST * 28 + "20 C0 00") + "FF zeros 0 | file " + option(121, f"02 07 {GATE}") + "FF zeros 119 | accepted 3"),
]

# The shortest right data for each code that has a row; in code order, so that 1 stands before 3. 82 is to be the last of a sheet.
SHORTEST = {c: "01020304" for c in ADDRESS + ADDRESSES + UNSIGNED32 + [2]}
SHORTEST.update({c: "01" for c in FLAG + TEXT + OPAQUE + [23, 37, 46, 53]})
SHORTEST.update({13: "0102", 22: "0240", 26: "0044", 57: "0240", 25: "0044", 61: "0102", 68: "",
                 21: "0102030405060708", 33: "0102030405060708", 82: "0900", 121: "000A4D0001"})
ROWS = sorted(SHORTEST, key=lambda c: (c == 82, c))
# Beside 52 and END the options have 1,228 bytes. Every tag but 52 has a record; 254 is for file and 82, which is to be last, for sname; the first three codes without
# a row take as data what the others leave of the 1,228 bytes. Counts and places are counted here, since codes get and lose rows.
FILLERS, IN_FILE, IN_SNAME = UNKNOWN[:3], 254, 82
MOST = {c: SHORTEST.get(c, "") for c in sorted(ROWS + UNKNOWN) if c not in (IN_FILE, IN_SNAME)}
ONE_61, ONE_62 = "09 3B" + ramp(59), "09 3C" + ramp(60)  # a sub-option that takes so many bytes
LEFT = 1228 - taken(MOST)
MOST.update(zip(FILLERS, (ramp(255), ramp(255), ramp(LEFT - 510))))
MOST_SHEET = "".join(record(c, MOST[c]) for c in sorted(MOST))
MOST_OPTIONS = "".join(option(c, MOST[c]) for c in sorted(MOST))
WHOLE = MOST_SHEET + record(IN_FILE, ramp(125)) + record(IN_SNAME, ONE_61)
assert len(MOST) == 251 and taken(MOST) == 1228 and size(WHOLE) == 1671
FROM_100 = [c for c in UNKNOWN if c >= 100][:47]
ROWS_BACKWARDS = list(reversed(ROWS))
MANY = [
    # 253 records; their options fill 1,228 + 127 + 63 bytes, and a record takes one more each: 1,671. No longer sheet is accepted.
    *every_permission("every tag, every byte of all fields: the longest sheet that is accepted", 1472, WHOLE,
                      "refused 11 1472", "refused 11 1472", "refused 11 1472",
                      "plan 3 | options 34 01 03" + MOST_OPTIONS + "FF zeros 0 | file " + option(IN_FILE, ramp(125))
                      + "FF zeros 0 | sname " + option(IN_SNAME, ONE_61) + "FF zeros 0 | accepted 254"),
    ("every tag, one byte more in sname", 3, 1472, MOST_SHEET + record(IN_FILE, ramp(125)) + record(IN_SNAME, ONE_62), "refused 11 1472"),
    ("every tag, one byte more in file", 3, 1472, MOST_SHEET + record(IN_FILE, ramp(126)) + record(IN_SNAME, ONE_61), "refused 11 1472"),
    ("every tag, one byte less of options", 3, 1471, WHOLE, "refused 11 1471"),
    ("every tag, one again at the end", 3, 1472, MOST_SHEET + record(IN_FILE, "") + RELAY_2 + record(IN_FILE, ""), f"refused 7 {size(MOST_SHEET) + 8}"),
    ("every tag, 82 before 254", 3, 1472, MOST_SHEET + RELAY_2 + record(IN_FILE, ""), f"refused 23 {size(MOST_SHEET)}"),
    ("every code without a row, no data", 0, 241 + 2 * len(UNKNOWN), "".join(record(c, "") for c in UNKNOWN),
     "plan 0 | options " + "".join(option(c, "") for c in UNKNOWN) + f"FF zeros 0 | accepted {len(UNKNOWN)}"),
    ("every code without a row, 4 bytes", 0, 241 + 6 * len(UNKNOWN), "".join(record(c, "00FF00FF") for c in UNKNOWN),
     "plan 0 | options " + "".join(option(c, "00FF00FF") for c in UNKNOWN) + f"FF zeros 0 | accepted {len(UNKNOWN)}"),
    ("codes without a row, 0 to 46 bytes", 0, 1416, "".join(record(c, ramp(n)) for n, c in enumerate(FROM_100)),
     "plan 0 | options " + "".join(option(c, ramp(n)) for n, c in enumerate(FROM_100)) + "FF zeros 0 | accepted 47"),
    ("codes without a row, some greater lengths", 0, 1246, "".join(record(n, ramp(n)) for n in (100, 127, 128, 129, 254))
     + "FD 00 FF" + ramp(255), "plan 0 | options " + "".join(option(n, ramp(n)) for n in (100, 127, 128, 129, 254))
     + "FD FF" + ramp(255) + "FF zeros 0 | accepted 6"),
    ("every code with a row", 0, 241 + taken(SHORTEST), "".join(record(c, SHORTEST[c]) for c in ROWS),
     "plan 0 | options " + "".join(option(c, SHORTEST[c]) for c in ROWS) + f"FF zeros 0 | accepted {len(ROWS)}"),
    ("every code with a row, 1 last", 0, 241 + taken(SHORTEST), "".join(record(c, SHORTEST[c]) for c in ROWS_BACKWARDS),
     f"refused 14 {size(''.join(record(c, SHORTEST[c]) for c in ROWS_BACKWARDS[:ROWS_BACKWARDS.index(3)]))}"),
    ("the longest address lists", 0, 1257, "".join(record(c, ramp(252)) for c in (3, 41, 68, 76)),
     "plan 0 | options " + "".join(option(c, ramp(252)) for c in (3, 41, 68, 76)) + "FF zeros 0 | accepted 4"),
    ("the longest text, opaque and 16-bit list", 0, 1011, record(12, "61" * 255) + record(61, ramp(255)) + record(25, "0044" * 127),
     "plan 0 | options 0C FF" + "61" * 255 + "3D FF" + ramp(255) + "19 FE" + "0044" * 127 + "FF zeros 0 | accepted 3"),
]

# Document 01, "The kinds, by code", and requests 09 and 14: codes, right data, data of a wrong length (8), data of a wrong value (9).
KINDS = [
    ("one address", ADDRESS, ["00000000", "FFFFFFFF"], ["", "01", "010203", "0102030405", "0102030405060708"], []),
    ("address list", ADDRESSES, ["01020304", "00" * 8], ["", "01", "010203", "0102030405", "010203040506"], []),
    ("address list that may be empty", [68], ["", "01020304", "0102030405060708"], ["01", "010203", "0102030405"], []),
    ("pairs", [21], ["00" * 8, "01" * 16], ["", "01020304", "01" * 7, "01" * 9, "01" * 12], []),
    ("pairs, no destination 0.0.0.0", [33], ["0A00000100000000", "00000001010203040000000200000000", "01000000" * 4],
     ["", "01020304", "01" * 7, "01" * 9, "01" * 12, "00" * 4, "00" * 12],
     ["00" * 8, "000000000A000001", "0A0000010A000002000000000A000001", "000000000A0000020A0000010A000001"]),
    ("flag", FLAG, ["00", "01"], ["", "0001", "0202"], ["02", "FF"]),
    ("time to live", [23, 37], ["01", "FF"], ["", "0101", "0000"], ["00"]),
    ("node type", [46], ["01", "02", "04", "08"], ["", "0101", "0000"], ["00", "03", "05", "06", "07", "09", "10", "FF"]),
    ("message type", [53], ["01", "02", "03", "04", "05", "06", "07", "08"], ["", "0101", "0000"], ["00", "09", "FF"]),
    ("16-bit", [13], ["0000", "FFFF"], ["", "01", "010101", "00000000"], []),
    ("16-bit, at least 576", [22, 57], ["0240", "FFFF"], ["", "03", "030303", "00000000"], ["0000", "0044", "023F"]),
    ("16-bit, at least 68", [26], ["0044", "0100", "FFFF"], ["", "44", "004400", "00000000"], ["0000", "0043"]),
    ("16-bit list", [25], ["0044", "00440044", "00FF0100FFFF", "7FFF8000"], ["", "44", "004400", "000000"],
     ["0000", "0043", "00450044", "004400450044", "010000440200", "00430044", "80007FFF"]),
    ("unsigned", UNSIGNED32, ["00000000", "FFFFFFFF"], ["", "010203", "0102030405", "0102030405060708"], []),
    ("signed", [2], ["00000000", "7FFFFFFF", "80000000", "FFFFFFFF"], ["", "010203", "0102030405"], []),
    ("text", TEXT, ["61", "00", "610000", "7F", "01097F1F0000"], [""], ["80", "61C862", "61800000", "610062", "0061"]),
    ("opaque", OPAQUE, ["00", "010203", "000000", "80FF0061"], [""], []),
    ("10: retired row", RETIRED, ["", "02", "0102", "01020304", "0102030405"], [], []),
    ("opaque of two or more", [61], ["0102", "000000", "80FF0061"], ["", "01"], []),
    ("classless routes", [121], ["000A4D0001", "01FF0A4D0001", "18C000020A4D0001000A4D0001", "20C00002070A4D0001", "09FFFF0A4D0001"],
     ["", "00", "21", "000A4D00", "21212121", "010A4D0001", "20C00002070A4D00", "000A4D000100", "18C000020A4D000120"],
     ["21C00002070A4D0001", "FF0A4D0001", "000A4D000121", "80C00002070A4D0001", "18C000020A4D0001FF"]),
    ("relay information", [82], ["0100", "00000000", "FF01FF", "01020A0B02010C"], ["", "01", "FF", "010002", "01020A", "0100FF"], []),
]


def kind_cases():
    """For each row: all codes with right data, in the buffer that they fill; then each code with wrong data, the earlier ones right."""
    cases = []
    for name, codes, right, wrong_length, wrong_value in KINDS:
        for data in right:
            size = len(bytes.fromhex(data))
            cases.append((f"{name}: {data}", 0, 241 + len(codes) * (2 + size), "".join(record(c, data) for c in codes),
                          "plan 0 | options " + "".join(option(c, data) for c in codes) + f"FF zeros 0 | accepted {len(codes)}"))
        step = 3 + len(bytes.fromhex(right[0]))
        for number, wrong in ((8, wrong_length), (9, wrong_value)):
            for data in wrong:
                for i, code in enumerate(codes):
                    before = "".join(record(c, right[0]) for c in codes[:i])
                    cases.append((f"{name}: {code} with {data}", 0, 600, before + record(code, data), f"refused {number} {i * step}"))
    return cases


def left_over(first, second):
    """The options of 200 and 201 that take so many bytes: as records of a sheet, and as they are written."""
    return record(200, ramp(first - 2)) + record(201, ramp(second - 2)), option(200, ramp(first - 2)), option(201, ramp(second - 2))


def beside_lease(plan, *fields):
    """What is expected where options has 52 and the lease, and no room more."""
    return f"plan {plan} | options 34 01 0{plan} 33 04 00 00 0E 10 FF zeros 0 | " + " | ".join(fields) + " | accepted 4"


def without_plan_2():
    """Request 06, at the edges of sname (63 bytes of options and END) and file (127): what options leaves over, by the permission.

    With permission 3 it is plan 1 wherever it would be plan 2; sname then stays as it was. The buffer of 250 bytes has room for 52 and the
    lease. 200 and 201 are left over."""
    cases = []
    for size in (61, 62, 63, 64, 125, 126, 127, 128):
        sheet, one, two = left_over(22, size - 22)
        file = beside_lease(1, f"file {one}{two}FF zeros {127 - size}") if size < 128 else "refused 11 250"
        sname = beside_lease(2, f"sname {one}{two}FF zeros {63 - size}") if size < 64 else "refused 11 250"
        cases += every_permission(f"06: {size} bytes left over", 250, LEASE + sheet, "refused 11 250", file, sname, file)
    # Too much for file by one byte or more: what file leaves over has to fit sname.
    for first, second in ((66, 62), (65, 63), (127, 62), (127, 63), (126, 3)):
        sheet, one, two = left_over(first, second)
        both = beside_lease(3, f"file {one}FF zeros {127 - first}", f"sname {two}FF zeros {63 - second}")
        cases += every_permission(f"06: {first} bytes left over for file, {second} for sname", 250, LEASE + sheet, "refused 11 250",
                                  "refused 11 250", "refused 11 250", both)
    for first, second in ((64, 64), (127, 64), (128, 62), (62, 128)):
        cases += every_permission(f"06: {first} and {second} bytes left over", 250, LEASE + left_over(first, second)[0], "refused 11 250")
    # A last piece is what is left over: of 62 bytes, of 126.
    start = " C8 FF" + ramp(255) + "FF zeros 0 | "
    for size in (62, 126):
        sheet, last = record(200, ramp(253 + size)), pieces(200, ramp(253 + size), 255, size - 2)[len(option(200, ramp(255))):]
        file = "plan 1 | options 34 01 01" + start + f"file {last}FF zeros {127 - size} | accepted 3"
        sname = "plan 2 | options 34 01 02" + start + f"sname {last}FF zeros {63 - size} | accepted 3" if size < 64 else "refused 11 501"
        cases += every_permission(f"06: a last piece of {size} bytes left over", 501, sheet, "refused 11 501", file, sname, file)
    return cases


PLAN_2 = without_plan_2()


def main():
    hand = OWN_CASES + LENGTHS + PERMISSIONS + PLANS + CONTENT + FAULTS + ROUTER_FIRST + SHEETS + LONG_RECORDS + RELAY_INFORMATION + CLASSLESS_ROUTES + MANY + PLAN_2
    cases = hand + kind_cases()
    given, printed = b"", []
    for reason, permission, length, text, expected, *first in cases:
        sheet, fill = bytes.fromhex(text), first[0] if first else FILL
        given += bytes([permission]) + length.to_bytes(2, "big") + bytes([fill, 0, 0]) + len(sheet).to_bytes(2, "big") + sheet
        printed += lines(length, fill, sheet, expected) + ["-"]
    OUT.mkdir(parents=True, exist_ok=True)
    (OUT / "stdin").write_bytes(given)
    (OUT / "stdout").write_text("\n".join(printed) + "\n")
    heads = Counter(tuple(case[4].split()[:2]) for case in cases)
    tally = sorted(heads.items(), key=lambda item: (item[0][0], int(item[0][1])))
    print(f"{len(cases)} cases, {len(hand)} of them one by one: " + ", ".join(f"{w} {n}: {count}" for (w, n), count in tally))


if __name__ == "__main__":
    main()
