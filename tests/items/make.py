#!/usr/bin/env python3
"""Write crates/items/stdin (vendor information and relay information to be read, and sheets of their items to be written) and crates/items/stdout (what is to be
printed for them)."""

import importlib.util
import sys
from pathlib import Path

HERE = Path(__file__).resolve().parent
sys.path.append(str(HERE.parent))
sys.path.append(str(HERE))
import relay
from codes import total

OUT = HERE.parent.parent / "crates" / "items"
READ, WRITE, READ_RELAY, WRITE_RELAY = 0, 1, 2, 3


def spelled(text):
    """Bytes in hex; `61*10` is ten bytes 61."""
    parts = (word.partition("*") for word in text.split())
    return b"".join(bytes.fromhex(byte) * int(times or 1) for byte, _, times in parts)


# Each: why; the bytes; the room; what is to be given, in hex, or `refused N PLACE`.

ENDS = [
    ("nothing at all", "", 0, ""),
    ("nothing, and a room", "", 5, ""),
    ("a pad alone", "00", 5, ""),
    ("pads alone", "00 00 00", 5, ""),
    ("END alone", "FF", 5, ""),
    ("END needs no room", "FF", 0, ""),
    ("the bytes run out between items: END is not needed", "01 01 07", 4, "01 00 01 07"),
    ("with its END", "01 01 07 FF", 4, "01 00 01 07"),
    ("the bytes run out behind a pad", "01 01 07 00", 9, "01 00 01 07"),
    ("a pad before, between and behind", "00 01 00 00 00 02 01 09 00", 9, "01 00 00 02 00 01 09"),
    ("a pad is no record", "00 00 01 00", 6, "01 00 00"),
    ("what follows END is not read", "01 00 FF 02 01 09", 9, "01 00 00"),
    ("nor judged: a code alone behind END", "01 00 FF 02", 9, "01 00 00"),
    ("nor judged: an item cut short behind END", "01 00 FF 02 09 09", 9, "01 00 00"),
    ("a second END", "01 00 FF FF", 9, "01 00 00"),
    ("END behind a pad", "00 FF 01", 9, ""),
]

CONTENT = [
    ("255 as data ends nothing", "01 01 FF 02 00", 9, "01 00 01 FF 02 00 00"),
    ("255 as a length ends nothing", "01 FF 01*255 02 00", 300, "01 00 FF 01*255 02 00 00"),
    ("0 as data is no pad", "01 02 00 00 02 00", 9, "01 00 02 00 00 02 00 00"),
    ("an item without data", "07 00", 3, "07 00 00"),
    ("52 is a code like any other", "34 01 09", 4, "34 00 01 09"),
    ("52 twice, of any length", "34 00 34 02 05 06", 9, "34 00 00 34 00 02 05 06"),
    ("53 with a value that no kind has", "35 01 FF", 4, "35 00 01 FF"),
    ("the lowest and the highest code", "01 00 FE 00", 6, "01 00 00 FE 00 00"),
    ("a code may repeat", "05 01 01 05 01 02 05 01 01", 12, "05 00 01 01 05 00 01 02 05 00 01 01"),
    ("the order is kept", "09 00 01 00 05 00 01 00", 12, "09 00 00 01 00 00 05 00 00 01 00 00"),
    ("an item that looks like two", "01 04 02 01 07 FF", 7, "01 00 04 02 01 07 FF"),
    ("a longest item", "AA FF 5A*255", 258, "AA 00 FF 5A*255"),
    ("two longest items: a joined option 43 may have more than 255 bytes", "AA FF 5A*255 AB FF 5B*255", 516, "AA 00 FF 5A*255 AB 00 FF 5B*255"),
    ("1,404 bytes, the most that a message can hold", "01 FF 11*255 02 FF 22*255 03 FF 33*255 04 FF 44*255 05 FF 55*255 06 75 66*117", 1500,
     "01 00 FF 11*255 02 00 FF 22*255 03 00 FF 33*255 04 00 FF 44*255 05 00 FF 55*255 06 00 75 66*117"),
    ("more than any message holds: there is no limit", "01 FF 11*255 " * 12, 3096, "01 00 FF 11*255 " * 12),
    ("every code", " ".join(f"{c:02X} 00" for c in range(1, 255)), 762, " ".join(f"{c:02X} 00 00" for c in range(1, 255))),
]

PAST = [
    ("17: a code alone", "01", 9, "refused 17 0"),
    ("17: a code behind an item", "01 00 02", 9, "refused 17 2"),
    ("17: a code behind pads", "00 00 02", 9, "refused 17 2"),
    ("17: the code 254 alone", "FE", 9, "refused 17 0"),
    ("17: the code 52 alone", "34", 9, "refused 17 0"),
    ("17: no data byte of one", "01 01", 9, "refused 17 0"),
    ("17: one byte is missing", "01 03 07 08", 9, "refused 17 0"),
    ("17: of 255 bytes one is missing", "01 FF 11*254", 300, "refused 17 0"),
    ("17 behind a right item", "01 01 07 02 02 09", 9, "refused 17 3"),
    ("17: 255 is its data, no END", "01 02 FF", 9, "refused 17 0"),
    ("17: 255 is its length", "01 FF", 9, "refused 17 0"),
    ("17: 0 is its data, no pad", "01 02 00", 9, "refused 17 0"),
    ("17 before 11", "01 01 07 02", 0, "refused 17 3"),
    ("17 before 11, far behind what would fit", "01 00 02 00 03 05 01", 3, "refused 17 4"),
    ("17 in a long one", "01 FF 11*255 02 FF 22*255 03", 600, "refused 17 514"),
]

ROOM = [
    ("11: one byte short", "01 01 07", 3, "refused 11 3"),
    ("11: no room", "01 00", 0, "refused 11 0"),
    ("11: room for the first item alone", "01 00 02 00", 5, "refused 11 5"),
    ("room just enough", "01 00 02 00", 6, "01 00 00 02 00 00"),
    ("room to spare stays as it was", "01 00 02 00", 40, "01 00 00 02 00 00"),
    ("11: pads and END need no room, items do", "00 00 00 01 00 00 FF 00", 2, "refused 11 2"),
    ("pads and END need no room", "00 00 00 01 00 00 FF 00", 3, "01 00 00"),
    ("a record takes a byte more than its item", "07 FD 11*253", 255, "refused 11 255"),
    ("a record takes a byte more than its item, and fits", "07 FD 11*253", 256, "07 00 FD 11*253"),
]

WRITTEN = [
    ("an empty sheet", "", 0, ""),
    ("an empty sheet leaves the output", "", 9, ""),
    ("one record", "01 00 01 07", 3, "01 01 07"),
    ("no END is added", "01 00 01 07", 9, "01 01 07"),
    ("a record without data", "07 00 00", 2, "07 00"),
    ("tag 52 is written", "34 00 01 09", 3, "34 01 09"),
    ("tags may repeat, order kept", "05 00 01 02 05 00 01 01 05 00 01 02", 9, "05 01 02 05 01 01 05 01 02"),
    ("a record that is not there twice is written twice", "05 00 01 02 05 00 01 02", 6, "05 01 02 05 01 02"),
    ("the order is kept", "09 00 00 01 00 00 05 00 00", 6, "09 00 01 00 05 00"),
    ("any data", "01 00 03 FF 00 FF", 5, "01 03 FF 00 FF"),
    ("any value: no kind is asked", "35 00 01 FF 01 00 01 00", 6, "35 01 FF 01 01 00"),
    ("tag 3 before tag 1", "03 00 00 01 00 00", 4, "03 00 01 00"),
    ("255 bytes are given", "01 00 FD 61*253", 255, "01 FD 61*253"),
    ("255 bytes of two records", "01 00 7D 61*125 02 00 7E 62*126", 300, "01 7D 61*125 02 7E 62*126"),
    ("255 bytes of 85 records", "11 00 01 77 " * 85, 255, "11 01 77 " * 85),
    ("127 records without data", "11 00 00 " * 127, 254, "11 00 " * 127),
]

FAULTS = [
    ("16: 4,097 bytes", "00*4097", 9, "refused 16 4097"),
    ("16 before all others", "01 00 00 00*4094", 0, "refused 16 4097"),
    ("4,096 bytes are no 16", "00*4096", 9, "refused 10 0"),
    ("12: a tag alone", "01", 9, "refused 12 0"),
    ("12: half a head", "01 00", 9, "refused 12 0"),
    ("12: no data byte of one", "01 00 01", 9, "refused 12 0"),
    ("12 behind a right record", "01 00 01 07 02 00", 9, "refused 12 4"),
    ("12: the high byte of the length counts", "01 01 00 61*255", 9, "refused 12 0"),
    ("12 before 10: tag 0", "00 00", 9, "refused 12 0"),
    ("12 before 10: tag 255", "FF 00 01", 9, "refused 12 0"),
    ("12 before 13", "01 01 00 61*255", 300, "refused 12 0"),
    ("10: tag 0", "00 00 00", 9, "refused 10 0"),
    ("10: tag 255", "FF 00 01 07", 9, "refused 10 0"),
    ("10 behind a right record", "34 00 00 00 00 00", 9, "refused 10 3"),
    ("10 before 13", "FF 01 00 61*256", 9, "refused 10 0"),
    ("10 of an earlier record before 12", "00 00 00 01", 9, "refused 10 0"),
    ("13: 256 bytes", "01 01 00 61*256", 300, "refused 13 0"),
    ("13: 257 bytes", "01 01 01 61*257", 300, "refused 13 0"),
    ("13: 1,024 bytes, which a settings sheet may have", "01 04 00 61*1024", 300, "refused 13 0"),
    ("13 before 11", "01 00 00 02 01 00 61*256", 0, "refused 13 3"),
    ("13 of an earlier record before 10", "01 01 00 61*256 00 00 00", 9, "refused 13 0"),
    ("no 7: a tag met again", "05 00 00 05 00 00", 4, "05 00 05 00"),
]

TOO_MUCH = [
    ("11: one byte short", "01 00 01 07", 2, "refused 11 2"),
    ("11: no output", "01 00 00", 0, "refused 11 0"),
    ("11: the second does not fit, and nothing is written", "01 00 00 02 00 00", 3, "refused 11 3"),
    ("254 bytes of data are no 13, but over 255 in all", "01 00 FE 61*254", 300, "refused 11 300"),
    ("255 bytes of data are no 13, but over 255 in all", "01 00 FF 61*255", 300, "refused 11 300"),
    ("256 bytes in all, with output enough", "01 00 7D 61*125 02 00 7F 62*127", 4000, "refused 11 4000"),
    ("over 255 in all: the place is the output's length", "01 00 FF 61*255", 0, "refused 11 0"),
    ("255 bytes, one byte short", "01 00 FD 61*253", 254, "refused 11 254"),
    ("128 records without data", "11 00 00 " * 128, 300, "refused 11 300"),
    ("4,096 bytes, all right", "01 00 FF 61*255 " * 15 + "02 00 DF 62*223", 5000, "refused 11 5000"),
]


def captured():
    """Option 82 of the captures of tests/vectors, with the sub-options as tshark shows them."""
    spec = importlib.util.spec_from_file_location("vectors_make", HERE.parent / "vectors" / "make.py")
    vectors = importlib.util.module_from_spec(spec)
    spec.loader.exec_module(vectors)
    for name, shown in vectors.RELAY.items():
        at, given, parts = 0, "", {}
        for code, data in shown:
            length = len(bytes.fromhex(data))
            parts.setdefault(code, (at + 2, length))
            at += 2 + length
            given += f"{code:02X} 00 {length:02X} {data} "
        yield f"captured: {name}", vectors.sub_options(shown).hex(" "), 60, given, parts.get(1), parts.get(2)


def named(name, part):
    return f"{name} absent" if part is None else f"{name} {part[0]} {part[1]}"


def lines(call, data, room, fill, expected, *ids):
    old = bytes((fill + i) % 256 for i in range(room))
    if expected.startswith("refused"):
        return [f"{expected} rest sum {total(old)}"]
    given = spelled(expected)
    assert len(given) <= room, expected
    first = [f"given {len(given)} {given.hex()} rest sum {total(old[len(given):])}"]
    if call == READ_RELAY:
        circuit, remote = ids
        return first + [named("circuit", circuit), named("remote", remote)]
    return first + (["back same"] if call != READ else [])


def main():
    cases = [(READ, *case) for case in ENDS + CONTENT + PAST + ROOM] + [(WRITE, *case) for case in WRITTEN + FAULTS + TOO_MUCH]
    cases += [(READ_RELAY, *case) for case in relay.CONTENT + relay.NAMED + relay.PAST + relay.ROOM + list(captured())]
    cases += [(WRITE_RELAY, *case) for case in relay.WRITTEN + relay.FAULTS + relay.TOO_MUCH]
    assert len({(call, why) for call, why, *_ in cases}) == len(cases)
    stdin, stdout = b"", []
    for i, (call, why, text, room, expected, *ids) in enumerate(cases):
        data, fill = spelled(text), 160 + i % 90
        stdin += bytes([call]) + room.to_bytes(2, "big") + bytes([fill, 0, 0]) + len(data).to_bytes(2, "big") + data
        stdout += lines(call, data, room, fill, expected, *ids) + ["-"]
    OUT.mkdir(exist_ok=True)
    (OUT / "stdin").write_bytes(stdin)
    (OUT / "stdout").write_text("\n".join(stdout) + "\n")
    print(f"{len(cases)} cases")


if __name__ == "__main__":
    main()
