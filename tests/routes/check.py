#!/usr/bin/env python3
"""Walk, write and ask every case of crates/route_cases/stdin by request 14 of document 02 anew and hold every line of crates/route_cases/stdout to it."""

import sys
from pathlib import Path

HERE = Path(__file__).resolve().parent
sys.path.append(str(HERE.parent))
import reader
from reader import Refused

OUT = HERE.parent.parent / "crates" / "route_cases"
EVERY = (1 << 256) - 1
KNOWN = {2: EVERY, 3: 1 << 121, 4: EVERY ^ 1 << 121}  # the set of a call


def step(data, at):
    """The route that begins at a place, as (destination, width, router, place behind it), or None: done."""
    met = reader.routes(data[at:at + 9])[0]  # no route is longer
    if not met:
        return None
    destination, width, router, behind = met[0]
    return destination, width, router, at + behind


def walk(data):
    at, met = 0, []
    while step(data, at):
        met.append(step(data, at))
        at = met[-1][3]
    return met, at


def write(given, room):
    """"given nine bytes a route (width, destination, router)"."""
    out, at = b"", 0
    while at < len(given) or not given:
        nine = given[at:at + 9]
        if len(nine) < 9 or nine[0] > 32:
            raise Refused(26, at // 9)
        width, destination = nine[0], int.from_bytes(nine[1:5], "big")
        if destination % 2 ** (32 - width):  # set bits
            raise Refused(26, at // 9)
        out += nine[:1 + (width + 7) // 8] + nine[5:]
        at += 9
    if len(out) > room:
        raise Refused(11, room)
    return out


def ignored(m, known):
    """Whether 3 and 33 are ignored: "exactly where a lookup of 121 with that set answers with its kind; it is refused as that lookup is"."""
    a = reader.plain(m, known, 121)
    if a.get("refusal"):
        raise Refused(a["refusal"], a["place"])
    return a.get("status") == 4 and a["kind"] == 13


def mixed(data):
    number = 0
    for byte in data:
        number = (31 * number + byte) % 1000003
    return number


def walked(data):
    met, at = walk(data)
    return "".join("route {} {} {} {}\n".format(*route) for route in met) + f"done {at}\n"


def printed(call, room, first, data):
    old = bytes((first + i) & 255 for i in range(room))
    if call == 0:
        return walked(data) + "-\n"
    try:
        if call == 1:
            given = write(data, room)
            return f"given {len(given)} {given.hex()} rest sum {mixed(old[len(given):])}\n{walked(given)}-\n"
        if call in KNOWN:
            return ("yes" if ignored(data, KNOWN[call]) else "no") + "\n-\n"
    except Refused as refusal:
        return "refused {} {}".format(*refusal.args) + (f" rest sum {mixed(old)}" if call == 1 else "") + "\n-\n"
    route = step(data, room)
    return ("route {} {} {} {}\n".format(*route) if route else f"done {room}\n") + "-\n"


def cases(given):
    at = 0
    while at < len(given):
        call, room, first = given[at], int.from_bytes(given[at + 1:at + 3], "big"), given[at + 3]
        size = int.from_bytes(given[at + 6:at + 8], "big")
        assert given[at + 4:at + 6] == b"\0\0" and at + 8 + size <= len(given) and room <= 5000 and size <= 5000
        yield call, room, first, given[at + 8:at + 8 + size]
        at += 8 + size


def main():
    found = list(cases((OUT / "stdin").read_bytes()))
    expected = (OUT / "stdout").read_text().split("-\n")
    differing = abs(len(expected) - 1 - len(found))
    for i, (case, want) in enumerate(zip(found, expected)):
        have = printed(*case)
        if have != want + "-\n":
            differing += 1
            print(f"case {i}: call {case[0]}, room {case[1]}, {case[3].hex()}\nfound:\n{have}expected:\n{want}-")
    print(f"{len(found)} cases, {differing} differ")
    return 1 if differing else 0


if __name__ == "__main__":
    sys.exit(main())
