#!/usr/bin/env python3
"""
messages.py                 writes the measured messages, sheets, vendor and relay information and routes to messages/*.bin, *.sheet, *.vendor, *.relay, *.records, *.routes
                            and *.nine
messages.py growth FOLDER   writes those of 10 to 100 options that `run growth` measures
"""

import sys
from pathlib import Path

END = b"\xff"
HEADER = bytes([2, 1, 6, 0, 0x39, 3, 0xF3, 0x26]) + bytes(8) + bytes([192, 0, 2, 10, 192, 0, 2, 1]) + bytes(4) + bytes([0, 0, 0x5E, 0, 0x53, 1]) + bytes(10)
COOKIE = bytes([99, 130, 83, 99])


def option(code, data):
    return bytes([code, len(data)]) + data


def record(tag, data):
    return bytes([tag]) + len(data).to_bytes(2, "big") + data


def address(last):
    return bytes([192, 0, 2, last])


def seconds(n):
    return n.to_bytes(4, "big")


def message(options, sname=b"", file=b"", size=0):
    m = HEADER + sname.ljust(64, b"\0") + file.ljust(128, b"\0") + COOKIE + options
    assert len(HEADER) == 44 and len(sname) <= 64 and len(file) <= 128
    return m.ljust(size, b"\0")


def offer():
    """An offer of ten options, zeros behind END."""
    return message(
        option(53, b"\x02")
        + option(54, address(1))
        + option(51, seconds(3600))
        + option(58, seconds(1800))
        + option(59, seconds(3150))
        + option(1, bytes([255, 255, 255, 0]))
        + option(28, address(255))
        + option(3, address(1))
        + option(6, address(2))
        + option(15, b"lan")
        + END,
        size=300,
    )


SHORT = {1: [19, 20, 23, 27, 29, 30, 31, 34, 36, 37, 39, 46, 53], 2: [13, 22, 26, 57], 8: [21, 33]}


def many():
    """A hundred options that fill the options field of the longest message; 51 is the last but one."""
    codes = [c for c in range(1, 102) if c not in (51, 52)]
    codes.insert(98, 51)
    lengths = {c: 4 for c in codes}
    for n, those in SHORT.items():
        for c in those:
            lengths[c] = n
    longer = [12, 14, 15, 17, 18, 40, 43, 47, 55, 56, 60, 61, 64, 66, 67] + list(range(77, 102))
    rest = 1472 - 240 - 1 - sum(n + 2 for n in lengths.values())
    for k, c in enumerate(longer):
        lengths[c] += rest // len(longer) + (k < rest % len(longer))
    values = {1: b"\x01", 2: b"\x05\xdc", 4: address(9), 8: address(8) + address(1)}
    options = b"".join(option(c, values.get(lengths[c], b"abcdefghijklmnopqrstuvwxyz"[: lengths[c]])) for c in codes) + END
    assert len(codes) == 100 and len(options) == 1232
    return message(options)


def overloaded():
    """Options in all three fields; 51 in sname, the last read."""
    return message(
        option(53, b"\x02")
        + option(52, b"\x03")
        + option(54, address(1))
        + option(1, bytes([255, 255, 255, 0]))
        + option(28, address(255))
        + option(3, address(1))
        + option(6, address(2) + address(3))
        + option(23, b"\x40")
        + END,
        file=option(67, b"images/meter.bin")
        + option(66, b"boot.clinic.example")
        + option(15, b"clinic.example")
        + option(12, b"fridge-07")
        + option(42, address(4))
        + END,
        sname=option(2, bytes([0, 0, 0x0E, 0x10])) + option(58, seconds(1800)) + option(59, seconds(3150)) + option(51, seconds(3600)) + END,
        size=300,
    )


def long_vendor():
    """An offer with an option 43 of 300 bytes in two pieces, others between and behind them."""
    vendor = bytes(i % 251 for i in range(300))
    return message(
        option(53, b"\x02")
        + option(54, address(1))
        + option(43, vendor[:255])
        + option(51, seconds(3600))
        + option(1, bytes([255, 255, 255, 0]))
        + option(43, vendor[255:])
        + option(3, address(1))
        + option(6, address(2))
        + option(15, b"lan")
        + END,
        size=600,
    )


def cut_lease():
    """The options of `overloaded`, but 51 cut at the end of file, as some servers cut."""
    whole = overloaded()
    lease = seconds(3600)
    file = whole[108:236].rstrip(b"\0")[:-1] + option(51, lease[:3]) + END
    sname = option(51, lease[3:]) + option(2, bytes([0, 0, 0x0E, 0x10])) + option(58, seconds(1800)) + option(59, seconds(3150)) + END
    return message(whole[240:], sname, file)


def nine():
    """Nine options of 132 bytes."""
    return message(b"".join(option(c, bytes((c + i) % 251 + 1 for i in range(132))) for c in range(200, 209)) + END)


def pads():
    """1,100 pads, then 51."""
    return message(bytes(1100) + option(51, seconds(3600)) + END)


def eight():
    """Eight records of 150 bytes."""
    return b"".join(record(c, bytes((c + i) % 251 + 1 for i in range(150))) for c in range(200, 208))


def sheetlong():
    """The records of `sheet15`, 43 of 300 bytes."""
    return settings(b"boot.clinic.example", b"images/meter.bin", bytes(i % 251 for i in range(300)))


def settings(name, root, vendor):
    """A sheet of fifteen records, as a box would offer them."""
    return (
        record(1, bytes([255, 255, 255, 0]))
        + record(3, address(1))
        + record(6, address(2) + address(3))
        + record(12, b"fridge-07")
        + record(15, b"clinic.example")
        + record(28, address(255))
        + record(42, address(4) + address(5))
        + record(51, seconds(3600))
        + record(54, address(1))
        + record(58, seconds(1800))
        + record(59, seconds(3150))
        + record(2, bytes([0, 0, 0x0E, 0x10]))
        + record(66, name)
        + record(67, root)
        + record(43, vendor)
    )


def sheet15():
    """Written into 576 bytes without overloading."""
    return settings(b"boot.clinic.example", b"images/meter.bin", bytes(range(1, 31)))


def sheetover():
    """Written into 300 bytes: options and file are too small for it, sname is needed as well."""
    return settings(b"boot.clinic.example", b"images/" + b"fridge-meter/" * 3 + b"v2.bin", bytes(range(1, 41)))


def probes():
    """Thirty probe numbers of 4 to 8 bytes, as code and data; as items they take 240 bytes."""
    return [(1 + k % 12, bytes((7 * k + i) % 256 for i in range((4, 6, 8, 5, 7)[k % 5]))) for k in range(30)]


def items():
    """The probe numbers inside an option 43."""
    return b"".join(option(c, d) for c, d in probes())


def item_records():
    """The same as records."""
    return b"".join(record(c, d) for c, d in probes())


def agent():
    """What a relay of a clinic adds: circuit id, remote id, a subscriber id and a link selection, as code and data."""
    return [(1, b"clinic-07/eth0:3"), (2, bytes.fromhex("525400123456")), (6, b"meter of the cold room"), (5, address(0))]


def sub_options():
    """The same inside an option 82."""
    return b"".join(option(c, d) for c, d in agent())


def sub_option_records():
    """The same as records."""
    return b"".join(record(c, d) for c, d in agent())


def four_routes():
    """What the district store routes: a default, two networks and a host, as width, destination and router."""
    return [(0, bytes(4), address(1)), (24, bytes([198, 51, 100, 0]), address(2)), (12, bytes([172, 16, 0, 0]), address(3)), (32, bytes([203, 0, 113, 7]), address(4))]


def routes():
    """The same inside an option 121."""
    return b"".join(bytes([width]) + destination[:(width + 7) // 8] + router for width, destination, router in four_routes())


def nine_each():
    """The same for the writer of routes."""
    return b"".join(bytes([width]) + destination + router for width, destination, router in four_routes())


def routed():
    """The options of `offer`, and the routes behind them."""
    return message(offer()[240:].rstrip(b"\0")[:-1] + option(121, routes()) + END, size=300)


def routed_sheet():
    """A sheet with these routes, for the comparison with plain C alone."""
    return record(53, b"\x02") + record(121, routes()) + record(51, seconds(3600))


def growth(n):
    """A message and a sheet of n options of 12 bytes each, codes without a row; in the message 51 stands behind them."""
    codes = range(100, 100 + n)
    data = b"0123456789"
    return (
        message(b"".join(option(c, data) for c in codes) + option(51, seconds(3600)) + END),
        b"".join(record(c, data) for c in codes),
    )


def group(name, inside):
    return b"\0" + (1 + len(name) + len(inside)).to_bytes(2, "big") + bytes((len(name),)) + name + inside


def some_records(count, length, first=1):
    """So many records of so many bytes of data each."""
    return b"".join(bytes((1 + (first + i) % 51, 0, length)) + bytes(length) for i in range(count))


def clinics():
    """4,100 bytes: what all devices have, and groups of three classes with further groups in them."""
    def device(name):
        return group(name, some_records(40, 6) + group(b"", some_records(20, 4) + group(name, some_records(12, 9))) + some_records(30, 5))
    inside = some_records(30, 8) + device(b"meter") + device(b"scale") + device(b"printer") + some_records(20, 4)
    left = 4100 - 4 - len(inside) - 3
    inside += b"\x2b" + left.to_bytes(2, "big") + bytes(left)
    return group(b"", inside)


def flat():
    """4,096 bytes of records: 409 of 7 bytes of data, and one of 3."""
    return some_records(409, 7) + some_records(1, 3)


def write(folder, files):
    folder.mkdir(parents=True, exist_ok=True)
    for name, content in files:
        (folder / name).write_bytes(content)


if len(sys.argv) == 3 and sys.argv[1] == "growth":
    for n in range(10, 101, 10):
        m, s = growth(n)
        write(Path(sys.argv[2]), [(f"{n}.bin", m), (f"{n}.sheet", s)])
else:
    write(
        Path(__file__).resolve().parent / "messages",
        [
            ("offer.bin", offer()),
            ("many.bin", many()),
            ("overloaded.bin", overloaded()),
            ("vendor.bin", long_vendor()),
            ("cut.bin", cut_lease()),
            ("nine.bin", nine()),
            ("pads.bin", pads()),
            ("sheet15.sheet", sheet15()),
            ("sheetover.sheet", sheetover()),
            ("sheetlong.sheet", sheetlong()),
            ("eight.sheet", eight()),
            ("probes.vendor", items()),
            ("probes.records", item_records()),
            ("agent.relay", sub_options()),
            ("agent.records", sub_option_records()),
            ("routed.bin", routed()),
            ("routed.sheet", routed_sheet()),
            ("store.routes", routes()),
            ("store.nine", nine_each()),
            ("clinics.grouped", clinics()),
            ("flat.grouped", group(b"", flat())),
            ("flat.settings", flat()),
        ],
    )
