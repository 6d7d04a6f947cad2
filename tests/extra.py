#!/usr/bin/env python3
"""
The calls of libdhcpopt_extra.a (the listing, the place of END, the copy through an index) against the second reader (reader.py) and what documents 01 and 02 say
of them: the messages of bench/messages and the captures, and generated ones; rooms that are enough, just enough and too small; fresh indexes and any others.
    extra.py [CASES [FOLDER OF ARCHIVES]]
"""

import ctypes
import random
import subprocess
import sys
from pathlib import Path

from index import Filled, built, head, message
from reader import FIELDS, Refused, join, read

ROOT = Path(__file__).resolve().parent.parent


class End(ctypes.Structure):
    _fields_ = [("refusal", ctypes.c_uint32), ("place", ctypes.c_size_t)]


def library(folder):
    out = ROOT / "target" / "extra.so"
    archives = [str(Path(folder) / f"lib{name}.a") for name in ("dhcpopt_extra", "dhcpopt_index", "dhcpopt_reader")]
    subprocess.run(["gcc", "-shared", "-o", str(out), "-Wl,--whole-archive", archives[0], "-Wl,--no-whole-archive", *archives[1:]], check=True)
    calls = ctypes.CDLL(str(out))
    calls.dhcpopt_list.restype = calls.dhcpopt_index_copy.restype = Filled
    calls.dhcpopt_options_end.restype = End
    return calls


# ---- the rules


def text(m):
    """"the number of options walked, then code, data start and length of each", and the field's name; "A refusal is one line"."""
    try:
        pieces = read(m)
    except Refused as fault:
        return "refused %d %d\n" % fault.args
    return "accepted %d\n" % len(pieces) + "".join("%d %d %d %s\n" % (p.code, p.start, len(p.data), p.field) for p in pieces)


def filled(out, given):
    """The buffer and the answer (refusal, size, place) where these bytes are given."""
    if len(out) < len(given):
        return (11, 0, len(out)), out
    return (0, len(given), 0), given + out[len(given):]


def end(m):
    """The first 255 of the options field that begins an item."""
    try:
        read(m)
    except Refused as fault:
        return fault.args
    i = 240
    while m[i] != 255:
        i += 1 if m[i] == 0 else 2 + m[i + 1]
    return (0, i)


def plain_copy(m, code, out):
    try:
        options = join(read(m))
    except Refused as fault:
        return (fault.args[0], 0, fault.args[1]), out
    return filled(out, options[code].data) if code in options else ((11, 0, 0), out)


def copy(m, index, code, out):
    if code in (0, 255):
        return (10, 0, 0), out
    try:
        head(m, len(index))
    except Refused as fault:
        return (fault.args[0], 0, fault.args[1]), out
    e = index[code]
    if e == 0:
        return (11, 0, 0), out
    if e == 65535:
        return plain_copy(m, code, out)
    for first, last in FIELDS.values():
        last = last or len(m)
        if first <= e < last and m[e] == code and e + 1 < last and e + 2 + m[e + 1] <= last:
            return filled(out, m[e + 2:e + 2 + m[e + 1]])
    return (19, 0, e), out


# ---- the calls


class Checks:
    def __init__(self, calls):
        self.calls, self.cases, self.faults = calls, 0, 0

    def same(self, what, got, wanted):
        self.cases += 1
        if got != wanted:
            self.faults += 1
            if self.faults <= 10:
                print("differs:", what, got, wanted, sep="\n  ")

    def fill(self, call, room, *args):
        before = bytes(range(7, 7 + min(room, 200))) + b"\xa5" * max(0, room - 200)
        out = (ctypes.c_uint8 * (room + 1))(*before, 0xEE)
        a = call(*args, out, ctypes.c_size_t(room))
        after = bytes(out)
        self.same("the byte behind the room", after[room], 0xEE)
        return before, ((a.refusal, a.size, a.place), after[:room])

    def listing(self, m, room):
        before, got = self.fill(self.calls.dhcpopt_list, room, m, ctypes.c_size_t(len(m)))
        self.same(("list", m.hex(), room), got, filled(before, text(m).encode()))

    def end(self, m):
        a = self.calls.dhcpopt_options_end(m, ctypes.c_size_t(len(m)))
        wanted = end(m)
        self.same(("end", m.hex()), (a.refusal, a.place), wanted)
        if wanted[0] == 0:
            cut = m[:wanted[1] + 1]
            self.same(("cut", m.hex()), text(cut), text(m))
            b = self.calls.dhcpopt_options_end(cut, ctypes.c_size_t(len(cut)))
            self.same(("end of the cut message", m.hex()), (b.refusal, b.place), wanted)

    def copy(self, m, index, code, room, same_bytes):
        numbers = (ctypes.c_uint16 * max(1, len(index)))(*index)
        before, got = self.fill(self.calls.dhcpopt_index_copy, room, m, ctypes.c_size_t(len(m)), numbers, ctypes.c_size_t(len(index)), ctypes.c_uint8(code))
        self.same(("copy", m.hex(), code, room), got, copy(m, index, code, before))
        if same_bytes and code not in (0, 255):
            self.same(("as the plain copy", m.hex(), code, room), got, plain_copy(m, code, before))


def each(checks, r, m):
    size = len(text(m))
    for room in {0, size - 1, size, size + 3, 16384, r.randrange(0, size + 9)}:
        checks.listing(m, room)
    checks.end(m)
    try:
        fresh = built(m, 256)
    except Refused:
        fresh = None
    codes = {0, 255, r.randrange(256)} | {r.choice((1, 3, 12, 43, 51, 52, 53, 61, 254)) for _ in range(4)}
    if fresh:
        codes |= {c for c in range(256) if fresh[c]}
        for code in codes:
            for room in (1472, r.randrange(0, 40)):
                checks.copy(m, fresh, code, room, True)
    other = [r.choice((0, 65535, r.randrange(1500), r.randrange(65536), 44, 107, 108, 235, 236, 239, 240, len(m))) for _ in range(256)]
    for code in codes:
        checks.copy(m, other, code, r.choice((0, 5, 300)), False)
        places = [i for i in range(44, len(m)) if m[i] == code]
        if places:
            other[code] = r.choice(places)
            checks.copy(m, other, code, r.choice((0, 5, 300)), False)
    for count in (0, 255, 257):
        checks.copy(m, [0] * count, 51, 9, False)


def main():
    cases = int(sys.argv[1]) if len(sys.argv) > 1 else 400
    folder = sys.argv[2] if len(sys.argv) > 2 else ROOT / "target" / "staticlib"
    checks, r = Checks(library(folder)), random.Random(24)
    kept = [p.read_bytes() for p in sorted((ROOT / "bench" / "messages").glob("*.bin")) + sorted((ROOT / "tests" / "vectors" / "captures").glob("*.bin"))]
    for m in kept + [bytes(239), bytes(240), bytes(1472), bytes(1473)] + [message(r) for _ in range(cases)]:
        each(checks, r, bytes(m))
    print(f"{checks.cases} answers, {checks.faults} differ")
    sys.exit(1 if checks.faults else 0)


if __name__ == "__main__":
    main()
