#!/usr/bin/env python3
"""Read crates/vectors/stdin by document 01 and requests 01 to 03, 07, 09, 13 and 14 anew, and hold every line of crates/vectors/stdout to it."""

import struct
import sys
from pathlib import Path

HERE = Path(__file__).resolve().parent
sys.path.append(str(HERE.parent))
from profile_rules import profile
from reader import FIELDS, Option, Piece, Refused, fault, join, read, records, row_of

OUT = HERE.parent.parent / "crates" / "vectors"

EVERY = range(1, 255)
FORMAT = {"address": ">I", "flag": "B", "octet": "B", "number16": ">H", "unsigned32": ">I", "signed32": ">i"}


def content(known, code, at, data):
    """What is said of a code that is there, wherever it stands."""
    row = row_of(code)
    if row is None or code not in known:
        return f"unknown {len(data)}"
    number, kind = fault(code, data), row[0]
    if number:
        return f"broken {number} {at}"
    if kind in FORMAT:
        return f"{kind} {struct.unpack(FORMAT[kind], data)[0]}"
    length = len(data)
    while kind == "text" and length and data[length - 1] == 0:
        length -= 1
    return f"{kind} {length}"


def look_up(known, code, option):
    first = option.first
    answer = f"{content(known, code, first.at, option.data)} {first.field} {first.offset} {first.start}"
    return answer if option.pieces == 1 else f"{answer} several {len(option.data)}"


def mixed(bytes_):
    total = 0
    for byte in bytes_:
        total = (total * 31 + byte) % 1000003
    return total


def filled(room, data=b"", refusal=None):
    """A lent buffer of rising bytes after a call: what was given, or the refusal, and the sum of what stayed."""
    kept = mixed([(160 + i) & 255 for i in range(len(data), room)])
    return f"{refusal} rest {kept}" if refusal else f"{len(data)} {mixed(data)} rest {kept}"


def copied(m, code, room):
    """The copy of a code: refused as the reader refuses, then 11 where it is absent, at 0, or too long, at the room."""
    refusal = answer(m, (), code)
    if not refusal.startswith("refused"):
        option = join(read(m)).get(code)
        refusal = "refused 11 0" if option is None else f"refused 11 {room}" if len(option.data) > room else None
    return f"copy {code} " + filled(room, b"" if refusal else option.data, refusal)


def profile_line(m):
    return "profile {} refusal {} {}".format(*profile(m))


def printed(m):
    try:
        met = read(m)
    except Refused as refused:
        refusal = "refused {} {}".format(*refused.args)
        present = "present 0 0 0 0 count 0 lowest 0 refusal {} {}".format(*refused.args)
        return f"{refusal}\n{present}\n{copied(m, 53, 1472)}\nrecords {filled(2048, refusal=refusal)}\n{profile_line(m)}\n-\n"
    options = join(met)
    out = f"accepted {len(met)}\n"
    for piece in met:
        out += f"{piece.code} {piece.start} {len(piece.data)} {piece.field}\n"
    marks = sum(1 << code for code in options)
    words = struct.unpack("<4Q", marks.to_bytes(32, "little"))
    lowest = next((code for code in range(1, 255) if code in options), 0)
    out += "present {} {} {} {} count {} lowest {} refusal 0 0\n".format(*words, bin(marks).count("1"), lowest)
    for piece in met:
        option = options[piece.code]
        out += f"{piece.code} {look_up(EVERY, piece.code, option)}\n{copied(m, piece.code, 1472)}\n"
    return out + f"records {filled(2048, records(options))}\n{profile_line(m)}\n-\n"


# --- The lines after the cases ------------------------------------------------------------------------------------------

def extra_message():
    file = bytes.fromhex("33 04 00 00 0E 10 FF")
    options = bytes.fromhex("0C 03 61 62 00 03 08 0A 00 00 01 FF FF FF FE 35 01 09 06 03 01 02 03 04 06 00 00 00 01 02 03"
                            "0F 02 00 00 78 02 05 06 34 01 01 FF")
    return (bytes(108) + file.ljust(128, b"\0") + bytes([99, 130, 83, 99]) + options).ljust(300, b"\0")


def answer(m, known, code):
    if code in (0, 255):
        return "refused 10 0"
    try:
        options = join(read(m))
    except Refused as refused:
        return "refused {} {}".format(*refused.args)
    return look_up(known, code, options[code]) if code in options else "absent"


def data(m, code):
    """The bytes of a code with their place; not a refusal but an empty part where there are none."""
    return part(m, answer(m, (), code), "unknown")


def text(m, known, code):
    return part(m, answer(m, known, code), "text")


def part(m, answer, wanted):
    words = answer.split()
    if words[0] != wanted or words[1] == "0" or "several" in words:
        return "0 0"
    start, length = int(words[4]), int(words[1])
    return " ".join(str(n) for n in (start, length, *m[start:start + length]))


def steps(m, code):
    bytes_ = bytes(map(int, data(m, code).split()[2:]))
    return "".join(f" {n}" for (n,) in struct.iter_unpack(">I", bytes_[:len(bytes_) // 4 * 4]))


# --- The lines of an index (request 07) ---------------------------------------------------------------------------------

def head(m, count):
    """1, 2, 3, then 18 for an index not of 256 numbers."""
    try:
        read(m)
    except Refused as refused:
        if refused.args[0] <= 3:
            raise
    if count != 256:
        raise Refused(18, count)


def built(m, index):
    """What building prints, and the numbers after it."""
    try:
        head(m, len(index))
        options = join(read(m))
    except Refused as refused:
        return "index refused {} {}".format(*refused.args), index
    return "index 512", [0 if c not in options else 65535 if options[c].pieces > 1 else options[c].first.at for c in range(256)]


def sought(m, index, known, code):
    if code in (0, 255):
        return "refused 10 0"
    try:
        head(m, len(index))
    except Refused as refused:
        return "refused {} {}".format(*refused.args)
    e = index[code]
    if e == 0:
        return "absent"
    if e == 65535:
        return answer(m, known, code)
    for field, (first, end) in FIELDS.items():
        end = end or len(m)
        if first <= e and e + 2 <= end and m[e] == code and e + 2 + m[e + 1] <= end:
            bytes_ = m[e + 2:e + 2 + m[e + 1]]
            return look_up(known, code, Option(Piece(code, field, e - first, e, e + 2, bytes_), 1, bytes_))
    return f"refused 19 {e}"


def changed(bytes_):
    """The message of these lines, with some bytes changed."""
    m = bytearray(extra_message())
    for place, byte in bytes_.items():
        m[place] = byte
    return bytes(m)


def of_51(m, *entries):
    return [f"through 51 {sought(m, [0] * 51 + [e] + [0] * 204, EVERY, 51)}" for e in entries]


def entries(index):
    return "entries " + " ".join(str(index[code]) for code in (12, 3, 53, 15, 120, 52, 51, 50, 0, 255))


def index_lines(m):
    line, own = built(m, [7] * 256)
    lines = [line, entries(own)] + [f"through {code} {sought(m, own, EVERY, code)}" for code in (0, 255, 50, 12, 53, 6, 120, 52, 51)]
    lines += [f"through 12 {sought(m, own, (), 12)}"]
    other = changed({271: 12})
    line, index = built(other, [7] * 256)
    lines += [line, entries(index)] + [f"through {code} {sought(other, index, EVERY, code)}" for code in (12, 15)]
    lines += [built(m, index)[0]] + [f"through {code} {sought(other, own, EVERY, code)}" for code in (12, 15)]
    lines += of_51(changed({44: 51, 45: 4, 49: 7, 106: 51, 283: 51, 284: 4, 288: 9}), 0, 65535, 108, 44, 106, 283)
    lines += of_51(changed(dict.fromkeys((43, 106, 107, 234, 235, 298, 299), 51)), 1, 43, 106, 107, 109, 234, 235, 236, 298, 299, 300, 65534)
    few, many = [0] * 255, [0] * 257
    lines += [built(m, few)[0], built(m, many)[0], f"through 12 {sought(m, few, EVERY, 12)}", f"through 12 {sought(m, many, EVERY, 12)}"]
    lines += [f"through 0 {sought(m, few, EVERY, 0)}", built(bytes(240), few)[0], f"through 12 {sought(bytes(240), few, EVERY, 12)}"]
    endless = changed({282: 0})
    line, index = built(endless, [7] * 256)
    return lines + [line, entries(index)] + of_51(endless, 108, 65535, 109)


def extra():
    m, zeros = extra_message(), bytes(240)
    lines = ["extra"]
    for known, codes in ((EVERY, (0, 255, 50)), ((), (0, 12, 50)), ((12,), (12, 3, 53, 120, 51))):
        lines += [f"{code} {answer(m, known, code)}" for code in codes]
    lines += [f"data {code} {data(m, code)}" for code in (12, 53, 120, 52, 51, 50, 0, 255)]
    lines += [f"text {code} {text(m, EVERY, code)}" for code in (12, 15, 53, 50, 0)]
    lines += [f"text 12 {text(m, (), 12)}"]
    lines += [f"walk {code}{steps(m, code)}" for code in (3, 4, 6, 50)]
    sheet = records(join(read(m)))
    lines += [f"records {filled(53, sheet)}", f"records {filled(52, refusal='refused 11 52')}"]
    assert len(sheet) == 53
    lines += [copied(m, code, room) for code, room in ((12, 3), (3, 8), (51, 8), (51, 3), (50, 8), (0, 8), (255, 8))]
    lines += [f"{code} {answer(zeros, EVERY, code)}" for code in (12, 0)]
    lines += [f"data 12 {data(zeros, 12)}", f"text 12 {text(zeros, EVERY, 12)}", "present 0 0 0 0 count 0 lowest 0 refusal 3 236"]
    lines += [f"records {filled(9, refusal='refused 3 236')}", copied(zeros, 12, 9), copied(zeros, 0, 9)]
    lines += [f"steps {code}{steps(m, code)}" for code in (3, 4, 6, 50)]
    lines += index_lines(m)
    return "".join(line + "\n" for line in lines)


def cases(given):
    place, messages = 0, []
    while place < len(given):
        assert given[place:place + 6] == bytes(6)
        length = given[place + 6] * 256 + given[place + 7]
        messages.append(given[place + 8:place + 8 + length])
        place += 8 + length
    assert place == len(given)
    return messages


def main():
    messages = cases((OUT / "stdin").read_bytes())
    text = (OUT / "stdout").read_text()
    expected, lines = [], []
    for line in text.splitlines():
        lines.append(line + "\n")
        if line == "-":
            expected.append("".join(lines))
            lines = []
    differing = 0
    for i, (m, want) in enumerate(zip(messages, expected)):
        have = printed(m)
        if have != want:
            differing += 1
            print(f"case {i} ({len(m)} bytes)\nread:\n{have}expected:\n{want}")
    if len(messages) != len(expected):
        differing += 1
        print(f"{len(messages)} messages, {len(expected)} expectations")
    if "".join(lines) != extra():
        differing += 1
        print(f"after the cases\nread:\n{extra()}expected:\n{''.join(lines)}")
    print(f"{len(messages)} cases and {len(lines)} lines after them, {differing} differ")
    return 1 if differing else 0


if __name__ == "__main__":
    sys.exit(main())
