#!/usr/bin/env python3
"""Write crates/route_cases/stdin (data of an option 121 to be walked, routes to be written, messages that are asked whether 3 and 33 are ignored) and
crates/route_cases/stdout (what is to be printed for them)."""

import importlib.util
import sys
from pathlib import Path

HERE = Path(__file__).resolve().parent
sys.path.append(str(HERE.parent))
from codes import total

OUT = HERE.parent.parent / "crates" / "route_cases"
WALK, WRITE, EVERY, ALONE, WITHOUT, STEP = range(6)


def vectors():
    spec = importlib.util.spec_from_file_location("vectors_make", HERE.parent / "vectors" / "make.py")
    module = importlib.util.module_from_spec(spec)
    spec.loader.exec_module(module)
    return module


CAPTURED = vectors()
message, pieces = CAPTURED.message, CAPTURED.pieces


def spelled(text):
    """Bytes in hex; `61*10` is ten bytes 61."""
    parts = (word.partition("*") for word in text.split())
    return b"".join(bytes.fromhex(byte) * int(times or 1) for byte, _, times in parts)


def number(address):
    """The number of an address: 10.0.0.0 is 0x0A000000."""
    return int("".join(f"{int(n):02X}" for n in address.split(".")), 16)


R = "0A 4D 00 01"                      # the router 10.77.0.1
NET = f"18 C0 00 02 {R}"               # 192.0.2.0/24: 8 bytes
DEFAULT = f"00 {R}"                    # 0.0.0.0/0: 5 bytes
HOST = f"20 C0 00 02 07 {R}"           # 192.0.2.7/32: 9 bytes
VIA = "10.77.0.1"
TO_NET, TO_ALL, TO_HOST = f"192.0.2.0/24-{VIA}", f"0.0.0.0/0-{VIA}", f"192.0.2.7/32-{VIA}"

# --- The walk -----------------------------------------------------------------------------------------------------------
# Each: why; the data; the routes that are given; where the walk is done.

# "the width's whole and begun bytes of destination", "bits past the width cleared": every width over 32 ones, and over 32 zeros.
ONES = {w: f"{w:02X} " + "FF " * -(-w // 8) + R for w in range(33)}
ZEROS = {w: f"{w:02X} " + "00 " * -(-w // 8) + R for w in range(33)}
MASKS = ["0.0.0.0", "128.0.0.0", "192.0.0.0", "224.0.0.0", "240.0.0.0", "248.0.0.0", "252.0.0.0", "254.0.0.0", "255.0.0.0", "255.128.0.0", "255.192.0.0",
         "255.224.0.0", "255.240.0.0", "255.248.0.0", "255.252.0.0", "255.254.0.0", "255.255.0.0", "255.255.128.0", "255.255.192.0", "255.255.224.0",
         "255.255.240.0", "255.255.248.0", "255.255.252.0", "255.255.254.0", "255.255.255.0", "255.255.255.128", "255.255.255.192", "255.255.255.224",
         "255.255.255.240", "255.255.255.248", "255.255.255.252", "255.255.255.254", "255.255.255.255"]
SIZES = [5] + [6] * 8 + [7] * 8 + [8] * 8 + [9] * 8  # of a route, by its width

WIDTHS = [
    *((f"width {w}: bits past it are cleared", ONES[w], [f"{MASKS[w]}/{w}-{VIA}"], SIZES[w]) for w in range(33)),
    *((f"width {w}: zeros", ZEROS[w], [f"0.0.0.0/{w}-{VIA}"], SIZES[w]) for w in (0, 1, 7, 8, 9, 24, 25, 31, 32)),
    *((f"width {w}: one byte is missing", ONES[w][:-2], [], 0) for w in (0, 1, 7, 8, 9, 15, 16, 17, 23, 24, 25, 31, 32)),
    *((f"width {w} is too wide", f"{w:02X} FF*60", [], 0) for w in (33, 34, 40, 64, 127, 128, 192, 255)),
]

ENDS = [
    ("nothing at all", "", [], 0),
    ("a width alone, 0", "00", [], 0),
    ("a width alone, 33", "21", [], 0),
    ("four bytes", "00 0A 4D 00", [], 0),
    ("one route", NET, [TO_NET], 8),
    ("three routes, in their order", f"{NET} {DEFAULT} {HOST}", [TO_NET, TO_ALL, TO_HOST], 22),
    ("the other way round", f"{HOST} {DEFAULT} {NET}", [TO_HOST, TO_ALL, TO_NET], 22),
    ("the same route twice", f"{NET} {NET}", [TO_NET, TO_NET], 16),
    ("51 routes", f"{DEFAULT} " * 51, [TO_ALL] * 51, 255),
    ("more than any message holds: there is no limit", f"{HOST} " * 500, [TO_HOST] * 500, 4500),
    ("33 in a destination and in a router is no width", "20 21*8 00 21*4", ["33.33.33.33/32-33.33.33.33", "0.0.0.0/0-33.33.33.33"], 14),
    ("routers of zeros and of ones", "00 00*4 00 FF*4 08 00 FF*4", ["0.0.0.0/0-0.0.0.0", "0.0.0.0/0-255.255.255.255", "0.0.0.0/8-255.255.255.255"], 16),
    ("each byte in its place", "20 01 02 03 04 05 06 07 08 18 09 0A 0B 0C 0D 0E 0F", ["1.2.3.4/32-5.6.7.8", "9.10.11.0/24-12.13.14.15"], 17),
    ("the widths of a byte's bits", "01 80 01 02 03 04 02 FF 05 06 07 08", ["128.0.0.0/1-1.2.3.4", "192.0.0.0/2-5.6.7.8"], 12),
    # RFC 3442, the examples of its table: descriptor, here each with a router
    ("10/8", "08 0A 0A 00 00 01", ["10.0.0.0/8-10.0.0.1"], 6),
    ("10.0.0.0/24", "18 0A 00 00 0A 00 00 01", ["10.0.0.0/24-10.0.0.1"], 8),
    ("10.17.0.0/16", "10 0A 11 0A 00 00 01", ["10.17.0.0/16-10.0.0.1"], 7),
    ("10.27.129.0/24", "18 0A 1B 81 0A 00 00 01", ["10.27.129.0/24-10.0.0.1"], 8),
    ("10.229.0.128/25", "19 0A E5 00 80 0A 00 00 01", ["10.229.0.128/25-10.0.0.1"], 9),
    ("10.198.122.47/32", "20 0A C6 7A 2F 0A 00 00 01", ["10.198.122.47/32-10.0.0.1"], 9),
    ("its 129.210.177.132/25", "19 81 D2 B1 84 0A 00 00 01", ["129.210.177.128/25-10.0.0.1"], 9),
]

# "then done at the end or at a faulty route"
FAULTY = [
    ("a wide one behind a route", f"{NET} 21 C0 00 02 07 {R}", [TO_NET], 8),
    ("a lone 33 behind a route", f"{NET} 21", [TO_NET], 8),
    ("34 behind a route", f"{NET} 22 C0 00 02 07 {R}", [TO_NET], 8),
    ("200 behind a route", f"{NET} C8", [TO_NET], 8),
    ("255 behind a route, and bytes", f"{NET} FF {DEFAULT} {HOST}", [TO_NET], 8),
    ("128 behind two routes", f"{NET} {DEFAULT} 80 {DEFAULT}", [TO_NET, TO_ALL], 13),
    ("a lone 32 behind a route", f"{NET} 20", [TO_NET], 8),
    ("a lone 0 behind a route", f"{NET} 00", [TO_NET], 8),
    ("a route cut short behind two", f"{NET} {DEFAULT} 20 C0 00 02 07 0A 4D 00", [TO_NET, TO_ALL], 13),
    ("a wide one between right ones: what is behind it is not given", f"{NET} 21 {DEFAULT} {HOST}", [TO_NET], 8),
    ("a wide one first", f"21 {NET}", [], 0),
    ("a destination of four bytes at a width of 24", f"18 C0 00 02 00 {R}", ["192.0.2.0/24-0.10.77.0"], 8),
    ("a begun byte that is not there", f"{NET} 09 C0 {R}", [TO_NET], 8),
]


def captured():
    """Option 121 of the captures of tests/vectors, with the routes as tshark shows them."""
    for name, shown in CAPTURED.ROUTES.items():
        data = CAPTURED.routes_of(name)
        yield f"captured: {name}", data.hex(" "), shown, len(data)


# --- A step at any place ------------------------------------------------------------------------------------------------
# Each: why; the data; the place; the route, or None; the place behind it, or the place asked for.
STEPS = [
    ("at the first route", f"{NET} {DEFAULT}", 0, TO_NET, 8),
    ("at the second", f"{NET} {DEFAULT}", 8, TO_ALL, 13),
    ("at the end", f"{NET} {DEFAULT}", 13, None, 13),
    ("past the end", f"{NET} {DEFAULT}", 14, None, 14),
    ("far past the end", f"{NET} {DEFAULT}", 5000, None, 5000),
    ("past the end of nothing", "", 1, None, 1),
    ("nothing", "", 0, None, 0),
    ("inside a route: 0 is a width there", f"{NET} {DEFAULT}", 2, "0.0.0.0/0-2.10.77.0", 7),
    ("inside a route: 192 is no width", f"{NET} {DEFAULT}", 1, None, 1),
    ("inside a route: 10 is a width there", f"{NET} {DEFAULT}", 9, None, 9),
    ("the last byte", f"{NET} {DEFAULT}", 12, None, 12),
    ("just room for a route of 0", "FF FF 00 01 02 03 04", 2, "0.0.0.0/0-1.2.3.4", 7),
    ("one byte short of it", "FF FF 00 01 02 03", 2, None, 2),
    ("at a faulty route, behind a right one", f"{NET} 21 FF*9", 8, None, 8),
    ("behind a faulty route", f"21 {NET}", 1, TO_NET, 9),
    ("bits are cleared at any place", "FF FF FF 09 FF FF 01 02 03 04", 3, "255.128.0.0/9-1.2.3.4", 10),
]

# --- The writer ---------------------------------------------------------------------------------------------------------
# Each: why; nine bytes a route (width, destination, router); the room; the bytes that are given, in hex, or `refused N PLACE`.

NINE_NET = f"18 C0 00 02 00 {R}"
NINE_ALL = f"00 00 00 00 00 {R}"
NINE_HOST = f"20 C0 00 02 07 {R}"
OF_ONES = ["00 00 00 00", "80 00 00 00", "C0 00 00 00", "E0 00 00 00", "F0 00 00 00", "F8 00 00 00", "FC 00 00 00", "FE 00 00 00", "FF 00 00 00",
           "FF 80 00 00", "FF C0 00 00", "FF E0 00 00", "FF F0 00 00", "FF F8 00 00", "FF FC 00 00", "FF FE 00 00", "FF FF 00 00",
           "FF FF 80 00", "FF FF C0 00", "FF FF E0 00", "FF FF F0 00", "FF FF F8 00", "FF FF FC 00", "FF FF FE 00", "FF FF FF 00",
           "FF FF FF 80", "FF FF FF C0", "FF FF FF E0", "FF FF FF F0", "FF FF FF F8", "FF FF FF FC", "FF FF FF FE", "FF FF FF FF"]
KEPT = [0] + [1] * 8 + [2] * 8 + [3] * 8 + [4] * 8  # bytes of destination, by the width


def kept(w):
    return " ".join(OF_ONES[w].split()[:KEPT[w]])


WRITTEN = [
    *((f"width {w}", f"{w:02X} {OF_ONES[w]} 01 02 03 04", SIZES[w], f"{w:02X} {kept(w)} 01 02 03 04") for w in range(33)),
    *((f"width {w}: zeros", f"{w:02X} 00*4 01 02 03 04", 12, f"{w:02X} 00*{KEPT[w]} 01 02 03 04" if w else "00 01 02 03 04") for w in (0, 1, 8, 9, 24, 25, 32)),
    ("three routes, in their order", f"{NINE_NET} {NINE_ALL} {NINE_HOST}", 22, f"{NET} {DEFAULT} {HOST}"),
    ("the other way round", f"{NINE_HOST} {NINE_ALL} {NINE_NET}", 22, f"{HOST} {DEFAULT} {NET}"),
    ("the same route twice", f"{NINE_NET} {NINE_NET}", 16, f"{NET} {NET}"),
    ("room to spare stays as it was", f"{NINE_NET} {NINE_ALL}", 40, f"{NET} {DEFAULT}"),
    ("a router of zeros, and of ones", "08 0A 00*3 00*4 08 0A 00*3 FF*4", 12, "08 0A 00*4 08 0A FF*4"),
    ("113 routes of 9 bytes: 1,017", f"{NINE_HOST} " * 113, 1017, f"{HOST} " * 113),
    ("114 of them, over 1,024 bytes: no 13 here", f"{NINE_HOST} " * 114, 1026, f"{HOST} " * 114),
    ("455 routes: 4,095 bytes", f"{NINE_HOST} " * 455, 4095, f"{HOST} " * 455),
    ("456 routes, over 4,096 bytes: no 16 here", f"{NINE_ALL} " * 456, 3000, f"{DEFAULT} " * 456),
    ("555 routes: 4,995 bytes", f"{NINE_NET} " * 555, 5000, f"{NET} " * 555),
]

# "26 at the first faulty route's number, from 0, for a wide width, set bits, a route cut short or no route at all"
FAULTS = [
    ("26: no route at all", "", 9, "refused 26 0"),
    ("26: no route at all, and no output: before 11", "", 0, "refused 26 0"),
    *((f"26: width {w}", f"{w:02X} 00*8", 9, "refused 26 0") for w in (33, 34, 40, 64, 128, 255)),
    *((f"26: the first bit past a width of {w}", f"{w:02X} {OF_ONES[w + 1]} {R}", 9, "refused 26 0") for w in range(32)),
    *((f"26: the last bit, past a width of {w}", f"{w:02X} 00 00 00 01 {R}", 9, "refused 26 0") for w in (0, 1, 7, 8, 9, 16, 17, 24, 25, 31)),
    ("26: a byte that would be left off is set", f"08 0A 01 00 00 {R}", 9, "refused 26 0"),
    ("26: one byte", "00", 9, "refused 26 0"),
    ("26: eight bytes", "18 C0 00 02 00 0A 4D 00", 9, "refused 26 0"),
    ("26: eight bytes, a right route of an option 121", NET, 9, "refused 26 0"),
    ("26: cut short behind a right one", f"{NINE_NET} 00", 30, "refused 26 1"),
    ("26: cut short behind two", f"{NINE_NET} {NINE_ALL} 20 C0 00 02 07 0A 4D 00", 30, "refused 26 2"),
    ("26: the second is wide", f"{NINE_NET} 21 00*8", 30, "refused 26 1"),
    ("26: set bits in the second", f"{NINE_NET} 18 C0 00 02 01 {R}", 30, "refused 26 1"),
    ("26: a wide one before one with set bits", f"{NINE_NET} 21 00*8 00 00 00 00 01 {R}", 30, "refused 26 1"),
    ("26: set bits before a wide one", f"{NINE_NET} 00 00 00 00 01 {R} 21 00*8", 30, "refused 26 1"),
    ("26: set bits before one cut short", f"00 80 00 00 00 {R} 20", 30, "refused 26 0"),
    ("26: the last of 500", f"{NINE_NET} " * 499 + f"18 C0 00 02 80 {R}", 5000, "refused 26 499"),
    ("26: number 256", f"{NINE_NET} " * 256 + "FF", 5000, "refused 26 256"),
    ("26 before 11", f"{NINE_NET} 21 00*8", 0, "refused 26 1"),
    ("26 before 11: the second would not fit", f"{NINE_NET} {NINE_NET} 00", 9, "refused 26 2"),
]

# "then 11 with the output's length"
ROOM = [
    ("11: one byte short", NINE_NET, 7, "refused 11 7"),
    ("11: no output", NINE_ALL, 0, "refused 11 0"),
    ("11: room for the first alone, and nothing is written", f"{NINE_NET} {NINE_ALL}", 12, "refused 11 12"),
    ("just enough: less than nine bytes a route", f"{NINE_NET} {NINE_ALL}", 13, f"{NET} {DEFAULT}"),
    ("11: 4,095 bytes, one byte short", f"{NINE_HOST} " * 455, 4094, "refused 11 4094"),
    ("width 0: five bytes are enough", NINE_ALL, 5, DEFAULT),
    ("11: width 0, four bytes", NINE_ALL, 4, "refused 11 4"),
    ("11: width 25 takes four bytes of destination", f"19 C0 00 02 80 {R}", 8, "refused 11 8"),
]

# --- Whether 3 and 33 are ignored ---------------------------------------------------------------------------------------
# Each: why; the message; what is said with every code known, and with 121 alone known; and without 121, where that is not `no`, as that of a refused message.

ROUTER_OPTION, STATIC_ROUTE = f"03 04 {R}", f"21 08 0A 00 00 01 {R}"
ASKED = [
    ("one route", message(f"79 05 {DEFAULT} FF"), "yes"),
    ("beside 3 and 33", message(f"{ROUTER_OPTION} {STATIC_ROUTE} 79 05 {DEFAULT} FF"), "yes"),
    ("before 3 and 33", message(f"79 05 {DEFAULT} {ROUTER_OPTION} {STATIC_ROUTE} FF"), "yes"),
    ("bits past the width are set", message(f"79 06 01 FF {R} FF"), "yes"),
    ("255 bytes", message("79 FF" + DEFAULT * 51 + "FF"), "yes"),
    ("in file", message("34 01 01 FF", f"79 08 {NET} FF"), "yes"),
    ("in sname", message("34 01 02 FF", sname=f"79 08 {NET} FF"), "yes"),
    ("in two pieces, cut in a route", message(pieces(121, NET, 3, 5) + "FF"), "yes"),
    ("in three fields", message("34 01 03 79 02 18 C0 FF", "79 02 00 02 FF", f"79 04 {R} FF"), "yes"),
    ("pieces of 255 and 15 bytes", message(pieces(121, HOST * 30, 255, 15) + "FF"), "yes"),
    ("an empty piece first", message(f"79 00 79 05 {DEFAULT} FF"), "yes"),
    ("absent: END alone", message("FF"), "no"),
    ("absent, 3 and 33 are there", message(f"{ROUTER_OPTION} {STATIC_ROUTE} FF"), "no"),
    ("behind END", message(f"FF 79 05 {DEFAULT} FF"), "no"),
    ("in a field that is not active", message("FF", f"79 05 {DEFAULT} FF", f"79 05 {DEFAULT} FF"), "no"),
    ("120 and 122", message(f"78 05 {DEFAULT} 7A 05 {DEFAULT} FF"), "no"),
    ("121 as data of another code", message(f"2B 07 79 05 {DEFAULT} FF"), "no"),
    # A broken 121: "it is refused as that lookup is"
    ("8: no data", message("79 00 FF"), "refused 8 240"),
    ("8: four bytes", message("79 04 00 0A 4D 00 FF"), "refused 8 240"),
    ("8 before 9: a lone 33", message("79 01 21 FF"), "refused 8 240"),
    ("8: cut short", message(f"79 06 {DEFAULT} 00 FF"), "refused 8 240"),
    ("9: wide", message(f"79 05 21 {R} FF"), "refused 9 240"),
    ("9: wide behind a route", message(f"79 06 {DEFAULT} 21 FF"), "refused 9 240"),
    ("9: wide, then cut short", message(f"79 0B {DEFAULT} 21 {R} 00 FF"), "refused 9 240"),
    ("8 at the code byte", message(f"35 01 05 00 79 06 {DEFAULT} 00 FF"), "refused 8 244"),
    ("8 in file", message("34 01 01 FF", "00 79 01 00 FF"), "refused 8 109"),
    ("9 in sname", message("34 01 02 FF", sname=f"00 00 79 05 21 {R} FF"), "refused 9 46"),
    ("8 in pieces: at the first", message(f"35 01 05 79 05 {DEFAULT} 00 79 01 00 FF"), "refused 8 243"),
    ("9 in pieces: at the first, in options", message(f"34 01 01 79 05 {DEFAULT} FF", f"79 05 21 {R} FF"), "refused 9 243"),
    ("8 in two pieces of no data", message("79 00 79 00 FF"), "refused 8 240"),
    ("the pieces are right by themselves, the whole is not", message(pieces(121, f"18 C0 00 02 {DEFAULT}", 4, 5) + "FF"), "refused 8 240"),
    # as the reader refuses, whatever is known
    ("1: empty", b"", *["refused 1 0"] * 3),
    ("1: 239 bytes", message("")[:239], *["refused 1 239"] * 3),
    ("2: 1,473 bytes", message(f"79 05 {DEFAULT} FF" + "00" * 1225), *["refused 2 1473"] * 3),
    ("1,472 bytes", message(f"79 05 {DEFAULT} FF" + "00" * 1224), "yes"),
    ("3: the cookie", message(f"79 05 {DEFAULT} FF", cookie="63 82 53 64"), *["refused 3 236"] * 3),
    ("4: cut off", message("79 05 00 0A 4D 00"), *["refused 4 240"] * 3),
    ("4 behind a right 121", message(f"79 05 {DEFAULT} 35"), *["refused 4 247"] * 3),
    ("4 before 8: behind a broken 121", message("79 01 00 35 09 FF"), *["refused 4 243"] * 3),
    ("5: no END", message(f"79 05 {DEFAULT}"), *["refused 5 247"] * 3),
    ("5 before 9", message(f"79 05 21 {R}"), *["refused 5 247"] * 3),
    ("5: file without END", message(f"34 01 01 79 05 {DEFAULT} FF"), *["refused 5 236"] * 3),
    ("6: 52 of length 2", message(f"79 05 {DEFAULT} 34 02 01 01 FF"), *["refused 6 247"] * 3),
    ("7: a second 52", message(f"34 01 01 79 05 {DEFAULT} 34 01 01 FF", "FF"), *["refused 7 250"] * 3),
]


def asked_captures():
    """The captures with an option 121, and two that are refused."""
    for name in CAPTURED.ROUTES:
        yield f"captured: {name}", (CAPTURED.CAPTURES / name).read_bytes(), "yes"
    for name, said in (("iscd-16.bin", "refused 5 "), ("iscd-23.bin", "refused 5 ")):
        m = (CAPTURED.CAPTURES / name).read_bytes()
        yield f"captured: {name}, without END in options", m, *[f"{said}{len(m)}"] * 3
    for name in ("kea-09.bin", "scapy-zero.bin", "dnsmasq-07.bin"):
        yield f"captured: {name}, without 121", (CAPTURED.CAPTURES / name).read_bytes(), "no"


# --- What is printed ----------------------------------------------------------------------------------------------------

def route_line(shown, end):
    to, via = shown.split("-")
    destination, width = to.split("/")
    return f"route {number(destination)} {width} {number(via)} {end}"


def walk_lines(shown, done):
    """A line for each route, with the place behind it, and where the walk is done: behind the last."""
    lines, at = [], 0
    for route in shown:
        at += SIZES[int(route.split("-")[0].split("/")[1])]
        lines.append(route_line(route, at))
    assert at == done, (shown, done)
    return lines + [f"done {done}"]


def given_routes(data):
    """The routes of nine bytes each, as they are shown."""
    for i in range(0, len(data), 9):
        width, *eight = data[i:i + 9]
        yield "{}.{}.{}.{}/{}-{}.{}.{}.{}".format(*eight[:4], width, *eight[4:])


def write_lines(data, room, first, expected):
    old = bytes((first + i) % 256 for i in range(room))
    if expected.startswith("refused"):
        return [f"{expected} rest sum {total(old)}"]
    given = spelled(expected)
    assert len(given) <= room, expected
    # "its bytes walk back as exactly the routes given, in order"
    return [f"given {len(given)} {given.hex()} rest sum {total(old[len(given):])}"] + walk_lines(list(given_routes(data)), len(given))


def cases():
    """Call, room, data, lines."""
    for why, text, shown, done in WIDTHS + ENDS + FAULTY + list(captured()):
        yield WALK, 0, spelled(text), walk_lines(shown, done)
    for why, text, place, shown, end in STEPS:
        yield STEP, place, spelled(text), [route_line(shown, end) if shown else f"done {end}"]
    for i, (why, text, room, expected) in enumerate(WRITTEN + FAULTS + ROOM):
        yield WRITE, room, spelled(text), lambda first, d=spelled(text), r=room, e=expected: write_lines(d, r, first, e)
    for why, m, *said in ASKED + list(asked_captures()):
        every, alone, without = said if len(said) == 3 else (said[0], said[0], "no")
        yield from ((call, 0, m, [line]) for call, line in ((EVERY, every), (ALONE, alone), (WITHOUT, without)))


def main():
    given, printed, count = b"", [], {}
    for i, (call, room, data, lines) in enumerate(cases()):
        first = (7 * i + 160) % 256
        given += bytes([call]) + room.to_bytes(2, "big") + bytes([first, 0, 0]) + len(data).to_bytes(2, "big") + data
        printed += (lines(first) if callable(lines) else lines) + ["-"]
        count[call] = count.get(call, 0) + 1
    OUT.mkdir(parents=True, exist_ok=True)
    (OUT / "stdin").write_bytes(given)
    (OUT / "stdout").write_text("\n".join(printed) + "\n")
    print(f"{sum(count.values())} cases: {count[WALK]} walks, {count[STEP]} steps, {count[WRITE]} writes, {count[EVERY]} messages with three sets each")


if __name__ == "__main__":
    main()
