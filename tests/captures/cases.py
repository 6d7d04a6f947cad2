#!/usr/bin/env python3
"""Write crates/capture_cases/stdin (files of captures, and the parts in which each is lent to the calls for C) and crates/capture_cases/stdout (the reports that are to be
printed). Each file stands below with its reason and its report, worked out from request 11 of document 02; check.py reads them all anew."""

from check import CASES, printed, reports
from make import CAPTURES, message, record

BEGIN, BYTES, TIMES, RISING, REPORT = range(5)
PARTS = (1, 7, 0)  # bytes of a part; 0: what is given at once


def given(b):
    return BYTES, 0, 0, b


def times(n, b):
    return TIMES, n, 0, b


def rising(n, first=0):
    """n bytes: first, first + 1 and so on, modulo 256."""
    return RISING, n, first, b""


MIDWAY = (REPORT, 0, 0, b"")


def says(messages=0, accepted=0, refusals=None, codes=None, lease="none", refused=None):
    """A report, of its numbers: refusals by their number, codes as (messages, bytes)."""
    lines = [f"messages {messages}", f"accepted {accepted}"]
    lines += [f"refusals {r} {(refusals or {}).get(r, 0)}" for r in range(1, 8)]
    lines += [f"code {c} {n} {b}" for c, (n, b) in (codes or {}).items()]
    lines.append(f"lease {lease}")
    return lines if refused is None else lines + [f"refused 24 {refused}"]


def long(n):
    """The first three bytes of a record with a message of n bytes."""
    return given(b"\1" + n.to_bytes(2, "big"))


HOUR = record(message(b"\x33\x04\0\0\x0e\x10\xff"))  # a lease time of 3,600: 250 bytes
ONE = dict(accepted=1, codes={51: (1, 4)}, lease="3600 3600")
BARE = message(b"\xff")                              # no option: 241 bytes
EMPTY = b"\1\0\0"                                    # a message of no bytes

# --- A file's end, and every cause of 24 ---------------------------------------------------------------------------------
# Each: why; what is given, one behind the other; the report.
ENDS = [
    ("a file of no bytes, of which nothing is given", [], [says()]),
    ("a file of no bytes, given in one part of none", [given(b"")], [says()]),
    ("one record, whole", [given(HOUR)], [says(1, **ONE)]),
    ("a message of no bytes is one, and too short", [given(EMPTY)], [says(1, refusals={1: 1})]),
    *((f"another tag, {tag}, first: what follows is not read", [given(bytes([tag]) + HOUR[1:] + HOUR)], [says(refused=0)]) for tag in (0, 2, 51, 255)),
    ("another tag alone", [given(b"\2")], [says(refused=0)]),
    ("another tag, later", [given(HOUR + b"\2" + HOUR)], [says(1, **ONE, refused=250)]),
    ("cut short behind its tag, first", [given(HOUR[:1])], [says(refused=0)]),
    ("cut short within its length, first", [given(HOUR[:2])], [says(refused=0)]),
    ("cut short before its message, first", [given(HOUR[:3])], [says(refused=0)]),
    ("cut short in its message, first", [given(HOUR[:100])], [says(refused=0)]),
    ("cut short by one byte, first", [given(HOUR[:-1])], [says(refused=0)]),
    ("cut short behind its tag, later", [given(HOUR + HOUR[:1])], [says(1, **ONE, refused=250)]),
    ("cut short within its length, later", [given(HOUR + HOUR[:2])], [says(1, **ONE, refused=250)]),
    ("cut short before its message, later", [given(HOUR + HOUR[:3])], [says(1, **ONE, refused=250)]),
    ("cut short in its message, later", [given(HOUR + HOUR[:100])], [says(1, **ONE, refused=250)]),
    ("cut short by one byte, later", [given(HOUR + HOUR[:-1])], [says(1, **ONE, refused=250)]),
    ("a length with its bytes the other way round", [given(HOUR + b"\1\xf7\0" + HOUR[3:])], [says(1, **ONE, refused=250)]),
    ("of 1,000,000 messages every one is taken", [times(1000, EMPTY * 1000)], [says(1000000, refusals={1: 1000000})]),
    ("message 1,000,001", [times(1000, EMPTY * 1000), given(EMPTY)], [says(1000000, refusals={1: 1000000}, refused=3000000)]),
    ("message 1,000,001, by its tag alone", [times(1000, EMPTY * 1000), given(b"\1")], [says(1000000, refusals={1: 1000000}, refused=3000000)]),
    ("message 1,000,001, and more behind it", [given(HOUR), times(1000, EMPTY * 1000)], [says(1000000, 1, {1: 999999}, {51: (1, 4)}, "3600 3600", 3000247)]),
    ("a report midway, in a record, and behind it", [given(HOUR + HOUR[:100]), MIDWAY, given(HOUR[100:]), MIDWAY, given(b"\0"), MIDWAY, given(HOUR)],
     [says(1, **ONE, refused=250), says(2, 2, codes={51: (2, 8)}, lease="3600 3600"), *[says(2, 2, codes={51: (2, 8)}, lease="3600 3600", refused=500)] * 2]),
]

# --- Refusals 1 to 7 -----------------------------------------------------------------------------------------------------
FULL = message(b"\xff".ljust(1232, b"\0"))
FAULTY = [
    ("239 bytes", [given(record(BARE[:239]))], [says(1, refusals={1: 1})]),
    ("240 bytes: no END", [given(record(BARE[:240]))], [says(1, refusals={5: 1})]),
    ("1,472 bytes", [given(record(FULL))], [says(1, 1)]),
    ("1,473 bytes", [given(record(FULL + b"\0"))], [says(1, refusals={2: 1})]),
    ("1,473 bytes, without the cookie", [long(1473), rising(1473)], [says(1, refusals={2: 1})]),
    ("65,535 bytes, and a record behind it", [long(65535), rising(65535, 1), given(HOUR)], [says(2, 1, {2: 1}, {51: (1, 4)}, "3600 3600")]),
    ("65,535 bytes whose first are those of an accepted message", [long(65535), given(FULL), rising(64063), given(HOUR)], [says(2, 1, {2: 1}, {51: (1, 4)}, "3600 3600")]),
    ("65,535 bytes of ones, all of them tags", [long(65535), times(65535, b"\1")], [says(1, refusals={2: 1})]),
    ("65,535 bytes, cut short by one", [given(HOUR), long(65535), rising(65534)], [says(1, **ONE, refused=250)]),
    ("another cookie", [given(record(BARE[:236] + b"\x63\x82\x53\x62\xff"))], [says(1, refusals={3: 1})]),
    ("an option beyond the field", [given(record(message(b"\x33\x04\0\0\xff")))], [says(1, refusals={4: 1})]),
    ("no END", [given(record(message(b"\x33\x04\0\0\x0e\x10\0")))], [says(1, refusals={5: 1})]),
    ("option 52 of 4", [given(record(message(b"\x34\x01\x04\xff")))], [says(1, refusals={6: 1})]),
    ("option 52 twice", [given(record(message(b"\x34\x01\x01\x34\x01\x01\xff", b"\xff")))], [says(1, refusals={7: 1})]),
    ("a refused message holds nothing and has no lease time", [given(HOUR + record(HOUR[3:-1] + b"\x0c\x01a"))], [says(2, 1, {5: 1}, {51: (1, 4)}, "3600 3600")]),
    ("one of each, and one accepted", [given(b"".join(map(record, (
        BARE[:239], FULL + b"\0", BARE[:236] + bytes(5), message(b"\x0c"), message(b"\0"), message(b"\x34\0\xff"), message(b"\x34\x01\x02\x34\x01\x02\xff"), BARE))))],
     [says(8, 1, {1: 1, 2: 1, 3: 1, 4: 1, 5: 1, 6: 1, 7: 1})]),
]

# --- Codes, and lease times ----------------------------------------------------------------------------------------------
def lease(*data):
    return record(message(b"".join(b"\x33" + bytes([len(d)]) + d for d in map(bytes.fromhex, data)) + b"\xff"))


HELD = [
    ("no option at all", [given(record(BARE))], [says(1, 1)]),
    ("a code in pieces is held once, with the bytes of all", [given(record(message(b"\x0c\x02ab\x0c\x03cde\x0c\0\xff")))], [says(1, 1, codes={12: (1, 5)})]),
    ("an empty option is held", [given(record(message(b"\x50\0\xff")))], [says(1, 1, codes={80: (1, 0)})]),
    ("52 is held; pieces in three fields", [given(record(message(b"\x2b\x01a\x34\x01\x03\xff", b"\x2b\x02bc\xff", b"\x2b\x03def\xff")))], [says(1, 1, codes={43: (1, 6), 52: (1, 1)})]),
    ("fields that are not active hold nothing", [given(record(message(b"\xff", b"\x2b\x02bc\xff", b"\x2b\x03def\xff")))], [says(1, 1)]),
    ("every code from 1 to 254 but 52", [given(record(message(b"".join(bytes([c, 1, 0]) for c in range(1, 255) if c != 52) + b"\xff")))],
     [says(1, 1, codes={c: (1, 1) for c in range(1, 255) if c != 52})]),
    ("nothing behind END is held", [given(record(message(b"\x0c\x01a\xff\x0d\x01a")))], [says(1, 1, codes={12: (1, 1)})]),
    ("messages add up", [times(300, record(message(b"\x0c\xc8" + bytes(200) + b"\xff")))], [says(300, 300, codes={12: (300, 60000)})]),
    ("the smallest and the largest lease time, rising", [given(lease("00000001") + lease("00000002") + lease("00000100"))], [says(3, 3, codes={51: (3, 12)}, lease="1 256")]),
    ("the same, falling", [given(lease("00000100") + lease("00000002") + lease("00000001"))], [says(3, 3, codes={51: (3, 12)}, lease="1 256")]),
    ("0 and 4,294,967,295 are lease times", [given(lease("FFFFFFFF") + lease("00000000"))], [says(2, 2, codes={51: (2, 8)}, lease="0 4294967295")]),
    ("a lease time in pieces", [given(lease("0000", "", "0E10"))], [says(1, 1, codes={51: (1, 4)}, lease="3600 3600")]),
    ("a lease time in two fields", [given(record(message(b"\x33\x02\0\0\x34\x01\x01\xff", b"\x33\x02\x0e\x10\xff")))], [says(1, 1, codes={51: (1, 4), 52: (1, 1)}, lease="3600 3600")]),
    ("three bytes are no lease time", [given(lease("000E10"))], [says(1, 1, codes={51: (1, 3)})]),
    ("five bytes are no lease time", [given(lease("0000000E10"))], [says(1, 1, codes={51: (1, 5)})]),
    ("two lease times in one message are eight bytes, and no lease time", [given(lease("00000E10", "00000E10"))], [says(1, 1, codes={51: (1, 8)})]),
    ("a broken one beside one that is whole", [given(lease("0E10") + HOUR + lease(""))], [says(3, 3, codes={51: (3, 6)}, lease="3600 3600")]),
]


def stored(size, steps):
    """A file that is lent in parts of so many bytes."""
    all_ = [(BEGIN, size, 0, b""), *steps, MIDWAY]
    return b"".join(bytes([call]) + number.to_bytes(2, "big") + bytes([first, 0, 0]) + len(b).to_bytes(2, "big") + b for call, number, first, b in all_)


def captured():
    """Real captures: all of them in parts of 997 bytes, which end anywhere; every eighth in other parts too. Their report is that of check.py."""
    files = [record(path.read_bytes()) for path in sorted(CAPTURES.glob("*.bin"))]
    yield 997, [given(b"".join(files[k:k + 30])) for k in range(0, len(files), 30)]
    for size in PARTS:
        yield size, [given(b"".join(files[::8]))]


def made():
    """Each file as it is stored, and what is to be printed of it."""
    for _, steps, texts in ENDS + FAULTY + HELD:
        for size in PARTS:
            yield stored(size, steps), "".join(printed("\n".join(lines) + "\n") for lines in texts)
    for size, steps in captured():
        f = stored(size, steps)
        yield f, "".join(reports(f))


if __name__ == "__main__":
    files = list(made())
    (CASES / "stdin").write_bytes(b"".join(bytes_ for bytes_, _ in files))
    (CASES / "stdout").write_text("".join(text for _, text in files))
