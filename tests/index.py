#!/usr/bin/env python3
"""
An index of a message, and lookups through it, by the second reader (reader.py), written from request 07 of document 02 alone, against the library:
the messages of bench/messages and the captures, and generated ones, with the index of the same bytes, of others, and with any number for an entry.
    index.py [CASES [FOLDER OF ARCHIVES]]
"""

import ctypes
import random
import subprocess
import sys
from pathlib import Path

from reader import EVERY, FIELDS, Option, Piece, Refused, found, join, plain, read, refusal

ROOT = Path(__file__).resolve().parent.parent


class Answer(ctypes.Structure):
    _fields_ = [(n, ctypes.c_uint32) for n in ("status", "kind", "refusal", "field")] + [("number", ctypes.c_int64)] + \
        [(n, ctypes.c_size_t) for n in ("place", "offset", "start", "length", "whole")] + [("several", ctypes.c_uint32)]


class Filled(ctypes.Structure):
    _fields_ = [("refusal", ctypes.c_uint32), ("size", ctypes.c_size_t), ("place", ctypes.c_size_t)]


def library(folder):
    """The calls, from a shared object made of the archives."""
    out = ROOT / "target" / "index.so"
    archives = [str(Path(folder) / f"lib{name}.a") for name in ("dhcpopt_index", "dhcpopt_reader")]
    subprocess.run(["gcc", "-shared", "-o", str(out), "-Wl,--whole-archive", *archives, "-Wl,--no-whole-archive"], check=True)
    calls = ctypes.CDLL(str(out))
    calls.dhcpopt_index_build.restype = Filled
    calls.dhcpopt_index_lookup.restype = Answer
    calls.dhcpopt_lookup.restype = Answer
    return calls


# ---- the rules


def head(m, count):
    """1, 2, 3, then 18."""
    try:
        read(m)
    except Refused as fault:
        if fault.args[0] <= 3:
            raise
    if count != 256:
        raise Refused(18, count)


def built(m, count):
    """"entry c being the place of code c's byte, 0 if absent, 65,535 if it comes in pieces"; or a refusal."""
    head(m, count)
    options = join(read(m))
    return [0 if c not in options else 65535 if options[c].pieces > 1 else options[c].first.at for c in range(256)]


def through(m, index, known, code):
    """A lookup through any index."""
    if code in (0, 255):
        return refusal(10, 0)
    try:
        head(m, len(index))
    except Refused as fault:
        return refusal(*fault.args)
    e = index[code]
    if e == 0:
        return {}
    if e == 65535:
        return plain(m, known, code)
    for field, (first, end) in FIELDS.items():
        end = end or len(m)
        if first <= e < end and m[e] == code and e + 1 < end and e + 2 + m[e + 1] <= end:
            data = m[e + 2:e + 2 + m[e + 1]]
            return found(known, code, Option(Piece(code, field, e - first, e, e + 2, data), 1, data))
    return refusal(19, e)


# ---- the cases


def options(r, size):
    """Bytes that fill size, most of them right."""
    out = b""
    while True:
        code = r.choice((1, 3, 12, 43, 51, 53, 54, 61, 80, 254, r.randrange(1, 255)))
        data = bytes(r.choice((0, 1, 2, 5, 97, 255)) for _ in range(r.choice((0, 1, 1, 2, 4, 4, 4, 8, 30))))
        item = r.choice((bytes([code, len(data)]) + data,) * 9 + (b"\0",))
        if len(out) + len(item) + 1 > size or r.random() < 0.05:
            break
        out += item
    end = b"" if r.random() < 0.03 else b"\xff"
    return (out + end + bytes(r.choice((0, 53, 1, 12, 255)) for _ in range(size)))[:size]


def message(r):
    over = r.choice((0, 0, 1, 2, 3))
    size = r.choice((4, 20, 60, 300, 1232))
    body = (bytes([52, 1, over]) if over else b"") + options(r, size)
    m = bytearray(bytes(44) + options(r, 64) + options(r, 128) + bytes([99, 130, 83, 99]) + body[:1232])
    if r.random() < 0.05:
        m[r.randrange(44, len(m))] = r.randrange(256)
    if r.random() < 0.02:
        m = m[:r.choice((0, 100, 239, 240))]
    return bytes(m)


def any_entry(r, m):
    return r.choice((0, 65535, r.randrange(0, len(m) + 10), r.randrange(65536), 43, 44, 107, 108, 235, 236, 239, 240, max(len(m), 1) - 1))


def words(known):
    return [ctypes.c_uint64(known >> 64 * i & (1 << 64) - 1) for i in range(4)]


class Check:
    def __init__(self, calls):
        self.calls, self.compared = calls, 0

    def same(self, what, got, wanted, names):
        self.compared += 1
        g = {n: getattr(got, n) for n, *_ in names}
        w = {n: wanted.get(n, 0) for n, *_ in names}
        if g != w:
            sys.exit(f"{what}: the library {g}, the second reader {w}")

    def build(self, m, count):
        numbers = (ctypes.c_uint16 * 258)(*[0xEEEE] * 258)
        got = self.calls.dhcpopt_index_build(m, ctypes.c_size_t(len(m)), numbers, ctypes.c_size_t(count))
        try:
            index = built(m, count)
            wanted, left = dict(size=512), index + [0xEEEE] * 2
        except Refused as fault:
            index, (number, place) = None, fault.args
            wanted, left = dict(refusal=number, place=place), [0xEEEE] * 258
        self.same(f"build {m.hex()} {count}", got, wanted, Filled._fields_)
        if list(numbers) != left:
            sys.exit(f"build {m.hex()} {count}: other numbers")
        return index

    def lookup(self, m, index, known, code):
        numbers = (ctypes.c_uint16 * len(index))(*index)
        got = self.calls.dhcpopt_index_lookup(m, ctypes.c_size_t(len(m)), numbers, ctypes.c_size_t(len(index)), *words(known), ctypes.c_uint8(code))
        self.same(f"lookup {m.hex()} {code} {index[code:code + 1]}", got, through(m, index, known, code), Answer._fields_)
        if list(numbers) != index:
            sys.exit(f"lookup {m.hex()} {code}: other numbers")
        return got

    def fresh(self, m, index, known, code):
        """Through an index of the same bytes the answer is that of the plain lookup: the library's and the second reader's."""
        got = self.lookup(m, index, known, code)
        self.same(f"fresh {m.hex()} {code}", got, plain(m, known, code), Answer._fields_)
        own = self.calls.dhcpopt_lookup(m, ctypes.c_size_t(len(m)), *words(known), ctypes.c_uint8(code))
        self.same(f"plain {m.hex()} {code}", own, plain(m, known, code), Answer._fields_)

    def message(self, r, m, before):
        for count in (0, 255, 257):
            self.build(m, count)
        fresh = self.build(m, 256)
        codes = {0, 255, 52, 53, *(r.choice(m[44:] or b"\1") for _ in range(6)), r.randrange(256)}
        for code in codes:
            known = r.choice((EVERY, 0, r.getrandbits(256)))
            if fresh:
                self.fresh(m, fresh, known, code)
            self.lookup(m, before, known, code)
            self.lookup(m, [any_entry(r, m) for _ in range(256)], known, code)
            self.lookup(m, [0] * r.choice((0, 255, 257)), known, code)
            at = [i for i in range(44, len(m)) if m[i] == code] or [44]
            self.lookup(m, [r.choice(at)] * 256, known, code)
        return fresh or before


def main():
    cases = int(sys.argv[1]) if len(sys.argv) > 1 else 5000
    check = Check(library(sys.argv[2] if len(sys.argv) > 2 else ROOT / "target" / "staticlib"))
    r = random.Random(7)
    before = [0] * 256
    files = sorted((ROOT / "bench" / "messages").glob("*.bin")) + sorted((ROOT / "tests" / "vectors" / "captures").glob("*.bin"))
    for file in files:
        before = check.message(r, file.read_bytes(), before)
    for _ in range(cases):
        before = check.message(r, message(r), before)
    print(f"index: {len(files)} files and {cases} messages, {check.compared} answers agree")


if __name__ == "__main__":
    main()
