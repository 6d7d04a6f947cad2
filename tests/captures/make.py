#!/usr/bin/env python3
"""Write crates/report_captures/stdin, a file of captures, and stdout, its report: the captured messages of tests/vectors, messages with faults, and a record cut short."""

import random
from pathlib import Path

from check import OUT, report

CAPTURES = Path(__file__).resolve().parent.parent / "vectors" / "captures"
COOKIE = bytes([99, 130, 83, 99])


def message(options, file=b"", sname=b""):
    return bytes(44) + sname.ljust(64, b"\0") + file.ljust(128, b"\0") + COOKIE + options


def record(m):
    return b"\1" + len(m).to_bytes(2, "big") + m


def random_message(rng):
    """Options of any length, some cut, some in file and sname, with repeats and pads."""
    fields = []
    for room in (rng.randrange(1, 400), 128, 64):
        field = b""
        while len(field) < room and rng.random() < 0.9:
            code = rng.choice([0, 1, 3, 12, 43, 51, 51, 52, 53, 54, 80, 255, rng.randrange(256)])
            if code in (0, 255) and rng.random() < 0.8:
                continue
            data = bytes([rng.randrange(1, 4)]) if code == 52 and rng.random() < 0.8 else rng.randbytes(4 if code == 51 and rng.random() < 0.7 else rng.randrange(0, 20))
            field += bytes([code, len(data)]) + data
        fields.append(field + (b"\xff" if rng.random() < 0.95 else b""))
    return message(fields[0], fields[1][:128], fields[2][:64])


def made():
    rng = random.Random(11)
    yield from (path.read_bytes() for path in sorted(CAPTURES.glob("*.bin")))
    yield b""
    yield bytes(239)
    yield message(b"\x35\x01\x05\xff")
    yield message(b"\x33\x04\0\0\x0e\x10\xff".ljust(1232, b"\0"))
    yield bytes(1473)
    yield bytes(65535)
    yield b"\1" * 65535
    yield message(b"\x33\x02\0\0\x34\x01\x03\x33\x02\0\x3c\xff", b"\x50\0\xff", b"\x2b\x02ab\xff")
    yield message(b"\x33\x03\0\0\1\xff")
    yield message(b"\x33\x04\xff\xff\xff\xff\x00\xff")
    yield from (random_message(rng) for _ in range(150))


if __name__ == "__main__":
    f = b"".join(map(record, made())) + b"\1\x01\x00" + bytes(100)
    (OUT / "stdin").write_bytes(f)
    (OUT / "stdout").write_text(report(f))
