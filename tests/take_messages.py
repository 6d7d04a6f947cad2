#!/usr/bin/env python3
"""examples/take-messages on captures that are not perfect. Each is made here, byte by byte; what must be printed, which files must be there, and
the exit status are written beside it. Run with the shell and awk of this machine, and with those of busybox where it is installed.
The last line is 'N passed, M failed, K left out'.
"""
import os
import shutil
import struct
import subprocess
import sys
import tempfile
from pathlib import Path

ROOT = Path(__file__).resolve().parent.parent
SCRIPT = ROOT / "examples/take-messages"
LISTING = ROOT / "target/bin/list_options"
OWNER = "02:00:00:00:00:07"
COOKIE = bytes([99, 130, 83, 99])


def message(kind, op, size=313, options=b"", end=True):
    """A message of so many bytes, of a type; zeros behind END."""
    m = bytes([op, 1, 6, 0]) + b"\x39\x03\xf3\x26" + bytes(20) + bytes.fromhex(OWNER.replace(":", "")) + bytes(202) + COOKIE
    m += (bytes([53, 1, kind]) if kind else b"") + options + (b"\xff" if end else b"")
    return m + bytes(size - len(m))


def udp(payload, source, target, length=None):
    return struct.pack(">HHHH", source, target, 8 + len(payload) if length is None else length, 0) + payload


def ip(payload, source, protocol=17, total=None, flags=0, options=b""):
    head = 20 + len(options)
    return struct.pack(">BBHHHBBH4s4s", 64 + head // 4, 0, head + len(payload) if total is None else total, 1, flags, 64, protocol, 0,
                       bytes(map(int, source.split("."))), b"\xff" * 4) + options + payload


def ether(packet, tags=(), kind=0x0800):
    return b"\xff" * 6 + bytes.fromhex(OWNER.replace(":", "")) + b"".join(struct.pack(">HH", t, 5) for t in tags) + struct.pack(">H", kind) + packet


def pcap(frames, order="<", magic=0xA1B2C3D4, link=1, snap=262144):
    out = struct.pack(order + "IHHiIII", magic, 2, 4, 0, 0, snap, link)
    for frame in frames:
        out += struct.pack(order + "IIII", 1, 2, min(snap, len(frame)), len(frame)) + frame[:snap]
    return out


def discover(size=313, **words):
    return ip(udp(message(1, 1, size), 68, 67), "0.0.0.0", **words)


def offer(size=313, **words):
    return ip(udp(message(2, 2, size), 67, 68), "192.0.2.1", **words)


ASK = f"question from 0.0.0.0.68, of {OWNER}, 1 discover, "
REPLY = f"answer from 192.0.2.1.67, of {OWNER}, 2 offer, "
BOTH = [f"x-1.bin: {ASK}313 bytes", f"x-2.bin: {REPLY}313 bytes"]
WHOLE = {1: message(1, 1), 2: message(2, 2)}
AGAIN = "tcpdump without -s, or with -s 0"
pair = [ether(discover()), ether(offer())]
full = message(5, 2, 400, bytes([43, 155]) + bytes(155), end=False)  # the field options is full to its last byte, and has no END
assert len(full) == 400

# Name, capture, exit status, lines on standard output, a word on standard error (None: nothing there), files by number.
CASES = [
    ("whole", pcap(pair), 0, BOTH, None, WHOLE),
    ("the high byte first", pcap(pair, order=">"), 0, BOTH, None, WHOLE),
    ("nanoseconds", pcap(pair, magic=0xA1B23C4D), 0, BOTH, None, WHOLE),
    ("nanoseconds, the high byte first", pcap(pair, order=">", magic=0xA1B23C4D), 0, BOTH, None, WHOLE),
    ("four bytes behind each frame", pcap([f + b"\xde\xad\xbe\xef" for f in pair]), 0, BOTH, None, WHOLE),
    ("bytes behind UDP, inside IP", pcap([ether(ip(udp(message(1, 1), 68, 67) + b"\1\2\3", "0.0.0.0"))]), 0, BOTH[:1], None, {1: WHOLE[1]}),
    ("a short message in a frame of 60 bytes", pcap([ether(ip(udp(b"\1\1\6", 68, 67), "0.0.0.0")) + bytes(15)]), 0,
     ["x-1.bin: question from 0.0.0.0.68, of ?, no type, refused 1 3, 3 bytes"], None, {1: b"\1\1\6"}),
    ("options in the head of IP", pcap([ether(discover(options=b"\1" * 8)), ether(offer())]), 0, BOTH, None, WHOLE),
    ("tcpdump -s 290", pcap(pair, snap=290), 1, [f"x-1: {ASK}cut off in the capture: 248 of 313 bytes", f"x-2: {REPLY}cut off in the capture: 248 of 313 bytes"],
     "no whole message in x.pcap. Catch anew: " + AGAIN, {}),
    ("tcpdump -s 290, the first is shorter", pcap([ether(discover(245)), ether(offer())], snap=290), 1,
     [f"x-1.bin: {ASK}245 bytes", f"x-2: {REPLY}cut off in the capture: 248 of 313 bytes"], AGAIN, {1: message(1, 1, 245)}),
    ("tcpdump -s 60", pcap(pair, snap=60), 1, ["x-1: question from 0.0.0.0.68, of ?, no type, cut off in the capture: 18 of 313 bytes",
                                               "x-2: answer from 192.0.2.1.67, of ?, no type, cut off in the capture: 18 of 313 bytes"], "no whole message", {}),
    ("tcpdump -s 40", pcap(pair, snap=40), 1, ["x-1: from 0.0.0.0.68, cut off in the capture before the message",
                                               "x-2: from 192.0.2.1.67, cut off in the capture before the message"], "no whole message", {}),
    ("tcpdump -s 36", pcap(pair, snap=36), 1, [], "2 of its frames are cut off before it can be told", {}),
    ("tcpdump -s 13", pcap(pair, snap=13), 1, [], "2 of its frames are cut off before it can be told", {}),
    ("the capture is cut in its last frame", pcap(pair)[:-1], 1, BOTH[:1], "cut off in its last frame", {1: WHOLE[1]}),
    ("the capture is cut in the head of a frame", pcap(pair)[:24 + 16 + len(pair[0]) + 7], 1, BOTH[:1], "cut off in its last frame", {1: WHOLE[1]}),
    ("the capture is cut behind a frame", pcap(pair)[:24 + 16 + len(pair[0])], 0, BOTH[:1], None, {1: WHOLE[1]}),
    ("a length in the capture is damaged", pcap(pair[:1]) + struct.pack("<IIII", 1, 2, 1 << 31, 1 << 31) + pair[1], 1, BOTH[:1], "damaged at byte 395", {1: WHOLE[1]}),
    ("802.1Q", pcap([ether(discover(), [0x8100]), ether(offer(), [0x8100])]), 0, BOTH, None, WHOLE),
    ("QinQ", pcap([ether(discover(), [0x88A8, 0x8100]), ether(offer(), [0x9100, 0x8100])]), 0, BOTH, None, WHOLE),
    ("802.1Q, cut in the tag", pcap([ether(discover(), [0x8100])], snap=16), 1, [], "1 of its frames", {}),
    ("tcpdump -i any", pcap([bytes(14) + b"\x08\0" + discover(), bytes(14) + b"\x81\0\0\5\x08\0" + offer()], link=113), 0, BOTH, None, WHOLE),
    ("tcpdump -i any, newer", pcap([b"\x08\0" + bytes(18) + discover(), b"\x08\0" + bytes(18) + offer()], link=276), 0, BOTH, None, WHOLE),
    ("raw IP", pcap([discover(), offer()], link=101), 0, BOTH, None, WHOLE),
    ("behind a relay, all from 67", pcap([ether(ip(udp(message(1, 1), 67, 67), "198.51.100.254")), ether(ip(udp(message(2, 2), 67, 67), "192.0.2.1"))]), 0,
     [f"x-1.bin: question from 198.51.100.254.67, of {OWNER}, 1 discover, 313 bytes", BOTH[1]], None, WHOLE),
    ("another op", pcap([ether(ip(udp(message(1, 7), 68, 67), "0.0.0.0"))]), 0, [f"x-1.bin: op 7, no DHCP, from 0.0.0.0.68, of {OWNER}, 1 discover, 313 bytes"], None,
     {1: message(1, 7)}),
    ("refused, and its type is told", pcap([ether(ip(udp(full, 67, 68), "192.0.2.1"))]), 0,
     [f"x-1.bin: answer from 192.0.2.1.67, of {OWNER}, 5 acknowledge, refused 5 400, 400 bytes"], None, {1: full}),
    ("refused, without a cookie", pcap([ether(ip(udp(bytes(300), 68, 67), "0.0.0.0"))]), 0,
     ["x-1.bin: op 0, no DHCP, from 0.0.0.0.68, of 00:00:00:00:00:00, no type, refused 3 236, 300 bytes"], None, {1: bytes(300)}),
    ("no type, two types, a type of 9", pcap([ether(ip(udp(message(k, 1, 313, o), 68, 67), "0.0.0.0")) for k, o in ((0, b""), (1, b"\x35\1\1"), (9, b""))]), 0,
     [f"x-{n}.bin: question from 0.0.0.0.68, of {OWNER}, {t}, 313 bytes" for n, t in ((1, "no type"), (2, "no type"), (3, "9, no type"))], None,
     {1: message(0, 1), 2: message(1, 1, 313, b"\x35\1\1"), 3: message(9, 1)}),
    ("every type", pcap([ether(ip(udp(message(k, 1), 68, 67), "0.0.0.0")) for k in range(1, 9)]), 0,
     [f"x-{k}.bin: question from 0.0.0.0.68, of {OWNER}, {k} {t}, 313 bytes"
      for k, t in enumerate(["discover", "offer", "request", "decline", "acknowledge", "no (NAK)", "release", "inform"], 1)], None,
     {k: message(k, 1) for k in range(1, 9)}),
    ("other traffic is passed over", pcap([ether(bytes(28), kind=0x0806), ether(ip(bytes(40), "192.0.2.9", protocol=6)), pair[0],
                                           ether(ip(udp(b"x" * 30, 5353, 5353), "192.0.2.9")), ether(bytes(60), kind=0x86DD), pair[1]]), 0, BOTH, None, WHOLE),
    ("in several packets", pcap([ether(ip(udp(message(2, 2, 1800), 67, 68)[:1480], "192.0.2.1", flags=0x2000)),
                                 ether(ip(udp(message(2, 2, 1800), 67, 68)[1480:], "192.0.2.1", flags=185))]), 1,
     ["x-1: from 192.0.2.1.67, in several packets: 1800 bytes, more than a message may have"], "no whole message", {}),
    ("UDP is longer than IP", pcap([ether(ip(udp(message(1, 1), 68, 67, 400), "0.0.0.0")), pair[1]]), 1,
     ["x-1: from 0.0.0.0.68, no message: UDP says 400 bytes, IP 321", BOTH[1]], "not everything", {2: WHOLE[2]}),
    ("a UDP length of 7", pcap([ether(ip(udp(message(1, 1), 68, 67, 7), "0.0.0.0"))]), 1, ["x-1: from 0.0.0.0.68, no message: a wrong length in its head"], "no whole message", {}),
    ("no bytes in UDP", pcap([ether(ip(udp(b"", 68, 67), "0.0.0.0"))]), 0, ["x-1.bin: op 0, no DHCP, from 0.0.0.0.68, of ?, no type, refused 1 0, 0 bytes"], None, {1: b""}),
    ("no message", pcap([ether(bytes(28), kind=0x0806)]), 1, [], "no message in x.pcap: 1 frames", {}),
    ("no frame", pcap([]), 1, [], "no message in x.pcap: 0 frames", {}),
    ("empty", b"", 2, [], "it is empty or no capture", {}),
    ("cut in its head", pcap([])[:20], 2, [], "it is empty or no capture: 20 bytes", {}),
    ("pcapng", b"\x0a\x0d\x0d\x0a" + bytes(40), 2, [], "tcpdump -r FILE -w new.pcap", {}),
    ("no capture", b"no capture, but a text of some length", 2, [], "it is no capture of tcpdump -w", {}),
    ("a link that is not read", pcap(pair, link=105), 2, [], "link type 105", {}),
    ("a hundred and twelve", pcap([pair[0]] * 112), 0, [f"x-{n}.bin: {ASK}313 bytes" for n in range(1, 113)], None, {n: WHOLE[1] for n in range(1, 113)}),
]
passed, failed, left_out = 0, 0, 0


def run(shell, folder, *words, path=None):
    env = dict(os.environ, LIST_OPTIONS=str(LISTING), LC_ALL="C")
    if path:
        env["PATH"] = path
    done = subprocess.run([*shell, str(SCRIPT), *words], cwd=folder, env=env, capture_output=True, text=True, timeout=120)
    return done.returncode, done.stdout.splitlines(), done.stderr


def holds(name, wanted, got):
    global passed, failed
    if wanted == got:
        passed += 1
    else:
        failed += 1
        print(f"failed: {name}")
        for what, a, b in zip(("status", "lines", "told", "files"), wanted, got):
            if a != b:
                print(f"    {what}: wanted {a}\n    {' ' * len(what)}  is     {b}")


def files(folder):
    return {int(p.stem.split("-")[1]): p.read_bytes() for p in Path(folder).glob("x-*.bin") if p.stem.split("-")[1].isdigit()}


def told(word, text):
    return text == "" if word is None else word in text and text.startswith("take-messages: ")


def every(label, shell, path=None):
    for name, capture, status, lines, word, wanted in CASES:
        with tempfile.TemporaryDirectory() as folder:
            (Path(folder) / "x.pcap").write_bytes(capture)
            result, printed, error = run(shell, folder, "x.pcap", path=path)
            holds(f"{label}: {name}", (status, lines, True, wanted), (result, printed, told(word, error) or error, files(folder)))
    with tempfile.TemporaryDirectory() as folder:
        here = Path(folder)
        (here / "x.pcap").write_bytes(pcap([pair[0]] * 112))
        run(shell, folder, "x.pcap", path=path)
        (here / "x-notes.bin").write_bytes(b"kept")
        (here / "x-1a.bin").write_bytes(b"kept")
        (here / "x.pcap").write_bytes(pcap(pair))
        result, printed, error = run(shell, folder, "x.pcap", path=path)
        kept = sorted(p.name for p in here.iterdir())
        holds(f"{label}: a second run", (0, BOTH, "", ["x-1.bin", "x-1a.bin", "x-2.bin", "x-notes.bin", "x.pcap"]), (result, printed, error, kept))
        (here / "x.pcap").write_bytes(b"")
        holds(f"{label}: a second run, of a damaged capture", (2, [], {}), (*run(shell, folder, "x.pcap", path=path)[:2], files(folder)))
        (here / "a box").mkdir()
        (here / "a box" / "x y.pcap").write_bytes(pcap(pair[:1]))
        holds(f"{label}: blanks in the name", (0, [f"a box/x y-1.bin: {ASK}313 bytes"], ""), run(shell, folder, "a box/x y.pcap", path=path))
        for words in ((), ("x.pcap", "y.pcap")):
            result, printed, error = run(shell, folder, *words, path=path)
            holds(f"{label}: usage", (2, [], True), (result, printed, "usage: take-messages" in error))
        result, printed, error = run(shell, folder, "none.pcap", path=path)
        holds(f"{label}: no such file", (2, [], True), (result, printed, "cannot read none.pcap" in error))


def leave_out(what, why):
    global left_out
    left_out += 1
    print(f"left out: {what}: {why}")


if not LISTING.exists():
    print(f"failed: {LISTING.relative_to(ROOT)} is not there: packaging/build list_options makes it")
    print("0 passed, 1 failed, 0 left out")
    sys.exit(1)
every("sh", ["sh"])
if shutil.which("busybox"):
    with tempfile.TemporaryDirectory() as tools:
        subprocess.run(["busybox", "--install", "-s", tools], check=True)
        every("busybox", [f"{tools}/sh"], path=tools)
else:
    leave_out("take-messages with the shell, od and awk of busybox", "busybox is not installed")
print(f"{passed} passed, {failed} failed, {left_out} left out")
sys.exit(1 if failed else 0)
