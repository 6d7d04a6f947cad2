#!/usr/bin/env python3
"""
The meter's reply profile by the second reader (reader.py), written from request 13 of document 02 alone, against the library:
cases with answers worked out by hand, offers and acknowledgements among the captures, which tshark's list of options is held to as well, and
generated messages.
    profile.py [CASES [FOLDER OF ARCHIVES]]
"""

import ctypes
import random
import subprocess
import sys
from pathlib import Path

from profile_rules import profile

ROOT = Path(__file__).resolve().parent.parent


class Profile(ctypes.Structure):
    _fields_ = [("broken", ctypes.c_uint32), ("refusal", ctypes.c_uint32), ("place", ctypes.c_size_t)]


def library(folder):
    """The call, from a shared object made of its archive."""
    out = ROOT / "target" / "profile.so"
    subprocess.run(["gcc", "-shared", "-o", str(out), "-Wl,--whole-archive", str(Path(folder) / "libdhcpopt_profile.a"), "-Wl,--no-whole-archive"], check=True)
    calls = ctypes.CDLL(str(out))
    calls.dhcpopt_profile.restype = Profile
    return calls


# ---- cases worked out by hand: options, file, sname, and the answer

LEASE, SERVER, MASK, ROUTER = b"\x33\x04\0\0\x0e\x10", b"\x36\x04\x0a\0\0\x01", b"\x01\x04\xff\xff\xff\0", b"\x03\x04\x0a\0\0\x01"
OFFER, ACK, END = b"\x35\x01\x02", b"\x35\x01\x05", b"\xff"
REST = LEASE + SERVER + MASK + ROUTER
IN_FILE, IN_SNAME, IN_BOTH = b"\x34\x01\x01", b"\x34\x01\x02", b"\x34\x01\x03"

CASES = [
    (OFFER + REST, b"", b"", (0, 0, 0)),
    (ACK + REST, b"", b"", (0, 0, 0)),
    # each bit alone: 51, 54, 1, 3 absent, then broken; 50, 55, 57 there, also broken
    (ACK + SERVER + MASK + ROUTER, b"", b"", (1, 0, 0)),
    (ACK + SERVER + MASK + ROUTER + b"\x33\x03\0\0\0", b"", b"", (1, 0, 0)),
    (ACK + LEASE + MASK + ROUTER, b"", b"", (2, 0, 0)),
    (ACK + LEASE + MASK + ROUTER + b"\x36\x05\0\0\0\0\0", b"", b"", (2, 0, 0)),
    (ACK + REST + b"\x32\x04\x0a\0\0\x05", b"", b"", (4, 0, 0)),
    (ACK + REST + b"\x32\0", b"", b"", (4, 0, 0)),
    (ACK + REST + b"\x37\x01\x01", b"", b"", (8, 0, 0)),
    (ACK + REST + b"\x37\0", b"", b"", (8, 0, 0)),
    (ACK + REST + b"\x39\x02\x02\x40", b"", b"", (16, 0, 0)),
    (ACK + REST + b"\x39\x02\0\0", b"", b"", (16, 0, 0)),
    (ACK + LEASE + SERVER + ROUTER, b"", b"", (32, 0, 0)),
    (ACK + LEASE + SERVER + b"\x01\x03\0\0\0" + ROUTER, b"", b"", (32, 0, 0)),
    (ACK + LEASE + SERVER + MASK, b"", b"", (64, 0, 0)),
    (ACK + LEASE + SERVER + MASK + b"\x03\x06\0\0\0\0\0\0", b"", b"", (64, 0, 0)),
    (ACK + LEASE + SERVER + ROUTER + MASK, b"", b"", (128, 0, 0)),
    # all together
    (ACK + b"\x33\x01\0\x36\x01\0\x32\0\x37\0\x39\0\x03\0\x01\x05\0\0\0\0\0", b"", b"", (255, 0, 0)),
    (ACK, b"", b"", (99, 0, 0)),
    # order by first pieces: 1 3 1, 3 1 3; broken ones count
    (ACK + LEASE + SERVER + b"\x01\x02\xff\xff" + ROUTER + b"\x01\x02\xff\0", b"", b"", (0, 0, 0)),
    (ACK + LEASE + SERVER + b"\x03\x02\x0a\0" + MASK + b"\x03\x02\0\x01", b"", b"", (128, 0, 0)),
    (ACK + LEASE + SERVER + b"\x03\0\x01\0", b"", b"", (224, 0, 0)),
    # by reading, not by place: file and sname lie below options, sname below file
    (ACK + IN_FILE + LEASE + SERVER + MASK + END, ROUTER, b"", (0, 0, 0)),
    (ACK + IN_SNAME + LEASE + SERVER + MASK + END, b"", ROUTER, (0, 0, 0)),
    (ACK + IN_FILE + LEASE + SERVER + ROUTER + END, MASK, b"", (128, 0, 0)),
    (ACK + IN_SNAME + LEASE + SERVER + ROUTER + END, b"", MASK, (128, 0, 0)),
    (ACK + IN_BOTH + LEASE + SERVER + END, MASK, ROUTER, (0, 0, 0)),
    (ACK + IN_BOTH + LEASE + SERVER + END, ROUTER, MASK, (128, 0, 0)),
    (ACK + IN_BOTH + LEASE + SERVER + END, b"\x01\x02\xff\xff" + ROUTER, b"\x01\x02\xff\0", (0, 0, 0)),
    # each named code in another field, and in pieces over fields
    (IN_BOTH + END, ACK + LEASE + MASK, SERVER + ROUTER, (0, 0, 0)),
    (IN_BOTH + b"\x35\x01\x05\x33\x02\0\0" + MASK + END, b"\x33\x02\x0e\x10\x36\x03\x0a\0\0", b"\x36\x01\x01" + ROUTER, (0, 0, 0)),
    (ACK + IN_BOTH + REST + END, b"\x32\x02\x0a\0", b"\x32\x02\0\x05\x39\0\x37\0", (28, 0, 0)),
    # 25: absent, broken, in two pieces of one byte, another type; a piece of one byte and an empty one are whole
    (REST, b"", b"", (0, 25, 0)),
    (b"\x35\0" + REST, b"", b"", (0, 25, 0)),
    (b"\x35\x01\x09" + REST, b"", b"", (0, 25, 0)),
    (b"\x35\x01\x06" + REST, b"", b"", (0, 25, 0)),
    (b"\x35\x01\x03" + REST, b"", b"", (0, 25, 0)),
    (ACK + ACK + REST, b"", b"", (0, 25, 0)),
    (ACK + REST + b"\x35\0", b"", b"", (0, 0, 0)),
]

# Offers and acknowledgements among the captures, and what they break: printed by the second reader, then compared with the list of options that
# tshark shows of each, which every run does again (`shown`). The routers of dnsmasq-20 and dnsmasq-26 stand in sname and file, behind the mask in
# options; those of scapy-split_ip, in two pieces, before it.
CAPTURES = {name: (broken, 0, 0) for broken, names in (
    (0, "coredhcp-01 dnsmasq-05 dnsmasq-10 dnsmasq-20 dnsmasq-21 dnsmasq-26 freeradius-02 iscd-01 iscd-07 kea-05 kea-08 networkd-03 udhcpd-03"),
    (64, "coredhcp-03 dnsmasq-04 dnsmasq-07 dnsmasq-15 iscd-04 iscd-06"), (16, "freeradius-01"), (65, "dnsmasq-18"), (96, "iscd-19 iscd-20"),
    (97, "perl-01"), (128, "scapy-split_ip")) for name in names.split()}


def shown(name):
    """(rules broken, refusal, place) of an accepted reply, by the codes and lengths that tshark shows of it, in its order"""
    lines = (line.split("\t") for line in (ROOT / "tests" / "vectors" / "captures" / "tshark.tsv").read_text().splitlines())
    options = [(int(code), int(length), value) for file, code, _, length, value in lines if file == f"{name}.bin" and code != "255"]
    codes = [code for code, _, _ in options]
    if [value for code, _, value in options if code == 53] not in (["2"], ["5"]):
        return 0, 25, 0
    sizes = {wanted: sum(length for code, length, _ in options if code == wanted) for wanted in (51, 54, 1, 3)}
    broken = [sizes[51] != 4, sizes[54] != 4, 50 in codes, 55 in codes, 57 in codes, sizes[1] != 4, sizes[3] == 0 or sizes[3] % 4 != 0]
    broken.append(1 in codes and 3 in codes and codes.index(3) < codes.index(1))
    return sum(1 << i for i, b in enumerate(broken) if b), 0, 0


def message(options, file, sname):
    return bytes(44) + sname + END * bool(sname) + bytes(64 - len(sname) - bool(sname)) + file + END * bool(file) + \
        bytes(128 - len(file) - bool(file)) + bytes([99, 130, 83, 99]) + options + END


def generated(r):
    """Named codes in every field, whole, broken, empty and in pieces, with others between."""
    def field(size, first):
        out = first
        while True:
            code = r.choice((53, 51, 54, 50, 55, 57, 1, 3, 1, 3, 51, 54, 12, 0))
            n = r.choice((4, 4, 4, 4, 0, 1, 2, 3, 8))
            more = b"\0" if code == 0 else bytes([code, n]) + r.randbytes(n)
            if len(out) + len(more) >= size or r.random() < 0.12:
                return out
            out += more
    over = r.choice((0, 0, 1, 2, 3))
    head = bytes([52, 1, over]) if over else b""
    if r.random() < 0.9:
        head += bytes([53, 1, r.choice((2, 5, 5, 2, 6))])
    m = bytearray(message(field(300, head), field(100, b"") if over & 1 else b"", field(60, b"") if over & 2 else b""))
    if over & 1 and 255 not in m[108:236]:
        m[235] = 255
    if over & 2 and 255 not in m[44:108]:
        m[107] = 255
    if r.random() < 0.02:
        m[r.randrange(len(m))] ^= 1 << r.randrange(8)
    return bytes(m)


def main():
    cases = int(sys.argv[1]) if len(sys.argv) > 1 else 20000
    calls = library(sys.argv[2] if len(sys.argv) > 2 else ROOT / "target" / "staticlib")

    def asked(m):
        a = calls.dhcpopt_profile(m, ctypes.c_size_t(len(m)))
        return a.broken, a.refusal, a.place

    def agree(name, m, expected):
        for side, given in (("second reader", profile(m)), ("library", asked(m))):
            if given != expected:
                sys.exit(f"{name}: expected {expected}, {side} {given}: {m[44:].hex()}")

    for i, (options, file, sname, expected) in enumerate(CASES):
        agree(f"case {i}", message(options, file, sname), expected)
    for name, expected in CAPTURES.items():
        if shown(name) != expected:
            sys.exit(f"{name}: expected {expected}, by tshark's list {shown(name)}")
        agree(name, (ROOT / "tests" / "vectors" / "captures" / f"{name}.bin").read_bytes(), expected)
    r, answers = random.Random(13), set()
    files = sorted((ROOT / "bench" / "messages").glob("*.bin")) + sorted((ROOT / "tests" / "vectors" / "captures").glob("*.bin"))
    for m in [f.read_bytes() for f in files] + [generated(r) for _ in range(cases)]:
        agree("message", m, profile(m))
        answers.add(profile(m))
    print(f"profile: {len(CASES)} cases by hand, {len(CAPTURES)} captures by tshark's list, {len(files)} files and {cases} messages agree ({len(answers)} different answers)")


main()
