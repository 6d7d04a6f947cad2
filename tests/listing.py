#!/usr/bin/env python3
"""
The stored input and output of the listing program: a message of 1,472 bytes, which fills what the program reads, with options in file.
    listing.py          holds crates/list_options/stdout to the second reader (reader.py), and both files to the message below
    listing.py make     writes both files
Each place is counted while the message is laid out; the second reader finds the places by itself.
"""

import sys
from pathlib import Path

from codes import ramp
from reader import read

OUT = Path(__file__).resolve().parent.parent / "crates" / "list_options"
LONGEST = 1472
PAD, END = b"\0", b"\xff"


def option(code, data):
    return bytes([code, len(data)]) + data


OPTIONS = [
    option(53, b"\5"), option(54, bytes([192, 0, 2, 1])), option(51, bytes([0, 0, 14, 16])), option(1, bytes([255, 255, 255, 0])),
    option(3, bytes([192, 0, 2, 1, 192, 0, 2, 2])), PAD, PAD, option(52, b"\1"), option(15, b"clinic.example"), option(43, bytes.fromhex(ramp(255))),
    option(6, bytes([192, 0, 2, 53])), option(43, bytes.fromhex(ramp(45))), option(80, b""), option(119, b"\xff" * 200), PAD,
    option(224, bytes.fromhex(ramp(255))), option(12, b"meter-17\0"), option(225, b"\0" * 128), option(226, b"\x34\1\2\xff" * 32),
]
FILE = [PAD, option(66, b"boot.clinic.example"), option(43, bytes.fromhex(ramp(30))), PAD, option(67, b"images/meter.bin"), END, option(60, b"behind END")]
SNAME = [option(12, b"an inactive field"), b"\x35"]


def listed(parts, first, name):
    """The lines of the parts of a field that begins there."""
    lines, at = [], first
    for part in parts:
        if part == END:
            break
        if part != PAD:
            lines.append(f"{part[0]} {at + 2} {len(part) - 2} {name}")
        at += len(part)
    return lines


def made():
    """The message, and what is to be printed for it. The last option takes what is left: END is the message's last byte."""
    left = LONGEST - 240 - sum(map(len, OPTIONS)) - 3
    options = OPTIONS + [option(254, bytes.fromhex(ramp(left))), END]
    message = bytes(range(1, 45)) + b"".join(SNAME).ljust(64, PAD) + b"".join(FILE).ljust(128, PAD) + bytes([99, 130, 83, 99]) + b"".join(options)
    assert len(message) == LONGEST and message[-1] == 255
    lines = listed(options, 240, "options") + listed(FILE, 108, "file")
    return message, "".join(line + "\n" for line in [f"accepted {len(lines)}"] + lines)


def main():
    message, text = made()
    if sys.argv[1:] == ["make"]:
        (OUT / "stdin").write_bytes(message)
        (OUT / "stdout").write_text(text)
    met = read(message)
    second = f"accepted {len(met)}\n" + "".join(f"{p.code} {p.start} {len(p.data)} {p.field}\n" for p in met)
    same = (OUT / "stdin").read_bytes() == message and (OUT / "stdout").read_text() == text == second
    print(f"listing: {len(message)} bytes, {len(met)} options, " + ("the stored output is the second reader's" if same else "DIFFERENT"))
    return 0 if same else 1


if __name__ == "__main__":
    sys.exit(main())
