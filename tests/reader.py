"""A reader of messages of its own, written from document 01 and requests 01 to 03, 09, 10 and 14 of document 02 alone."""

from typing import NamedTuple

from codes import total


def split(data):
    """The sub-options of an option 82 as (code, start, data), up to the first that runs past; and the place of that one, or None."""
    at, met = 0, []
    while at < len(data):
        head = data[at:at + 2]
        if len(head) < 2 or at + 2 + head[1] > len(data):
            return met, at
        met.append((head[0], at + 2, data[at + 2:at + 2 + head[1]]))
        at += 2 + head[1]
    return met, None


def routes(data):
    """The routes of an option 121 as (destination, width, router, place behind it), up to the first that is faulty; and the number of that one's fault, or None."""
    at, met = 0, []
    while at < len(data):
        width = data[at]
        if width > 32:
            return met, 9
        end = at + 1 + (width + 7) // 8 + 4  # the width's whole and begun bytes, and a router
        if end > len(data):
            return met, 8
        bits = "".join(f"{byte:08b}" for byte in data[at + 1:end - 4])[:width]  # those past the width are not taken
        met.append((int(bits.ljust(32, "0"), 2), width, int.from_bytes(data[end - 4:end], "big"), end))
        at = end
    return met, None


# The kinds as document 01 and requests 09 and 14 list them, without the rows that request 10 retired: name, codes, which lengths are right, which data is right.
KINDS = [
    ("address", "1 16 28 32 50 54", lambda c, n: n == 4, None),
    ("addresses", "3-7 9 11 41 42 44 45 48 49 65 69-76 68", lambda c, n: n % 4 == 0 and (n > 0 or c == 68), None),
    ("pairs", "21 33", lambda c, n: n % 8 == 0 and n > 0,
     lambda c, d: c == 21 or all(any(d[i:i + 4]) for i in range(0, len(d), 8))),
    ("flag", "19 20 27 29 30 31 36 39", lambda c, n: n == 1, lambda c, d: d[0] < 2),
    ("octet", "23 37", lambda c, n: n == 1, lambda c, d: d[0] > 0),
    ("octet", "46", lambda c, n: n == 1, lambda c, d: d[0] in (1, 2, 4, 8)),
    ("octet", "52", lambda c, n: n == 1, lambda c, d: 0 < d[0] < 4),
    ("octet", "53", lambda c, n: n == 1, lambda c, d: 0 < d[0] < 9),
    ("number16", "13", lambda c, n: n == 2, None),
    ("number16", "22 57", lambda c, n: n == 2, lambda c, d: d >= b"\x02\x40"),
    ("number16", "26", lambda c, n: n == 2, lambda c, d: d >= b"\x00\x44"),
    ("numbers16", "25", lambda c, n: n % 2 == 0 and n > 0,
     lambda c, d: all(d[i:i + 2] >= max(b"\x00\x44", d[i - 2:i]) for i in range(0, len(d), 2))),
    ("unsigned32", "24 35 38 51 58 59", lambda c, n: n == 4, None),
    ("signed32", "2", lambda c, n: n == 4, None),
    ("text", "12 14 15 17 18 40 56 64 66 67", lambda c, n: n > 0, lambda c, d: all(0 < byte < 128 for byte in d.rstrip(b"\0"))),
    ("opaque", "43 47 55 60", lambda c, n: n > 0, None),
    ("opaque", "61", lambda c, n: n > 1, None),
    ("relay", "82", lambda c, n: n > 1, lambda c, d: split(d)[1] is None),
    ("routes", "121", lambda c, n: n >= 5, lambda c, d: routes(d)[1] is None),
]


def row_of(code):
    for row in KINDS:
        for word in row[1].split():
            first, _, last = word.partition("-")
            if int(first) <= code <= int(last or first):
                return row
    return None


def fault(code, data):
    """The number of the rule of its row that the data of a code breaks, or None: 8 for the length, 9 for the data. Sub-options that do not fill it are an 8,
    and of the routes the first faulty one tells."""
    row = row_of(code)
    if row and not row[2](code, len(data)):
        return 8
    if row and row[3] and not row[3](code, data):
        return {82: 8, 121: routes(data)[1]}.get(code, 9)
    return None


class Refused(Exception):
    pass


class Piece(NamedTuple):
    """Where a piece was met: the field that holds its code byte, that byte's offset in it, and its place in the message."""
    code: int
    field: str
    offset: int
    at: int
    start: int
    data: bytes


class Option(NamedTuple):
    """The pieces with one code, joined in reading order."""
    first: Piece
    pieces: int
    data: bytes


FIELDS = {"options": (240, None), "file": (108, 236), "sname": (44, 108)}  # first byte, first byte after


def walk(m, field, met):
    """Add the pieces of a field to met, in order. Gives the value of option 52, or 0."""
    first, end = FIELDS[field][0], FIELDS[field][1] or len(m)
    i, overload = first, 0
    while i < end:
        code = m[i]
        if code == 255:
            return overload
        if code == 0:
            i += 1
            continue
        if i + 1 == end or i + 2 + m[i + 1] > end:
            raise Refused(4, i)
        if code == 52:
            if field != "options" or m[i + 1] != 1 or m[i + 2] not in (1, 2, 3):
                raise Refused(6, i)
            if overload:
                raise Refused(7, i)
            overload = m[i + 2]
        met.append(Piece(code, field, i - first, i, i + 2, m[i + 2:i + 2 + m[i + 1]]))
        i += 2 + m[i + 1]
    raise Refused(5, end)


def read(m):
    """The pieces of a message in reading order."""
    if len(m) < 240:
        raise Refused(1, len(m))
    if len(m) > 1472:
        raise Refused(2, len(m))
    if list(m[236:240]) != [99, 130, 83, 99]:
        raise Refused(3, 236)
    met = []
    overload = walk(m, "options", met)
    if overload in (1, 3):
        walk(m, "file", met)
    if overload in (2, 3):
        walk(m, "sname", met)
    return met


def join(met):
    """The options that the pieces make, by code, in the order of their first pieces."""
    options = {}
    for piece in met:
        before = options.get(piece.code)
        options[piece.code] = Option(before.first, before.pieces + 1, before.data + piece.data) if before else Option(piece, 1, piece.data)
    return options


def records(options):
    """A record for every option but 52."""
    return b"".join(bytes([code]) + len(option.data).to_bytes(2, "big") + option.data for code, option in options.items() if code != 52)


# ---- Answers as C has them: a dictionary of the members that are not 0

EVERY = (1 << 256) - 1  # every code known: code c at bit c
MEMBERS = "status kind refusal field number place offset start length whole several".split()
NAMES = "address addresses pairs flag octet number16 numbers16 unsigned32 signed32 text opaque relay routes".split()
NUMBERS = {"address", "flag", "octet", "number16", "unsigned32", "signed32"}


def refusal(number, place):
    return dict(status=2, refusal=number, place=place)


def found(known, code, option):
    """What is answered of an option."""
    first, data = option.first, option.data
    a = dict(field=1 + list(FIELDS).index(first.field), offset=first.offset, start=first.start)
    if option.pieces > 1:
        a |= dict(several=1, whole=len(data))
    row = row_of(code) if known >> code & 1 else None
    if not row:
        return a | dict(status=1, length=len(data))
    if fault(code, data):
        return a | dict(status=5, refusal=fault(code, data), place=first.at)
    kind = row[0]
    a["kind"] = 1 + NAMES.index(kind)
    if kind in NUMBERS:
        return a | dict(status=3, number=int.from_bytes(data, "big", signed=kind == "signed32"))
    return a | dict(status=4, length=len(data.rstrip(b"\0")) if kind == "text" else len(data))


def plain(m, known, code):
    if code in (0, 255):
        return refusal(10, 0)
    try:
        options = join(read(m))
    except Refused as refused:
        return refusal(*refused.args)
    return found(known, code, options[code]) if code in options else {}


def code_line(m, code):
    """What the program `sheets` prints of a code in an accepted message: every member of the lookup's answer, every code known, and the copy."""
    answer, option = plain(m, EVERY, code), join(read(m)).get(code)
    data = option.data if option else b""
    copy = f"copy {0 if option else 11} {len(data)} {total(data)}"
    return " ".join(["code", str(code)] + [str(answer.get(name, 0)) for name in MEMBERS] + [copy])
