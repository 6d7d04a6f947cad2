#!/usr/bin/env python3
"""Whether the cases of request 14 can fail: each edit of a check, or of the second reader, makes a wrong implementation, and some case has to tell it."""

import importlib.util
import sys
from pathlib import Path

TESTS = Path(__file__).resolve().parent.parent
CRATES = TESTS.parent / "crates"
FILES = ["reader.py", "vectors/check.py", "sheets/check.py", "routes/check.py"]
STORED = {"vectors": "vectors", "sheets": "sheets", "routes": "route_cases"}  # the folder of a check, and the crate of its cases
sys.path.append(str(TESTS))


def relay_broken():
    spec = importlib.util.spec_from_file_location("relay_broken", TESTS / "relay" / "broken.py")
    module = importlib.util.module_from_spec(spec)
    spec.loader.exec_module(module)
    return module


COMMON = relay_broken()

# What is wrong; the file, and the function where the text stands once; that text; what takes its place.
EDITS = [
    # a route
    ("bits past the width are not cleared", "reader.py", "routes", '[:width]  #', '  #'),
    ("a bit too many is cleared", "reader.py", "routes", "[:width]  #", "[:max(width - 1, 0)]  #"),
    ("a bit too few is cleared", "reader.py", "routes", "[:width]  #", "[:width + 1]  #"),
    ("whole bytes are cleared alone", "reader.py", "routes", "[:width]  #", "[:(width + 7) // 8 * 8]  #"),
    ("the begun byte is left out", "reader.py", "routes", "(width + 7) // 8 + 4", "width // 8 + 4"),
    ("a byte more at a full width", "reader.py", "routes", "(width + 7) // 8 + 4", "(width + 8) // 8 + 4"),
    ("four bytes of destination always", "reader.py", "routes", "(width + 7) // 8 + 4", "4 + 4"),
    ("a router of three bytes", "reader.py", "routes", "(width + 7) // 8 + 4 ", "(width + 7) // 8 + 3 "),
    ("the destination stands at the right", "reader.py", "routes", 'bits.ljust(32, "0")', 'bits.rjust(32, "0")'),
    ("the router's bytes turned round", "reader.py", "routes", 'data[end - 4:end], "big")', 'data[end - 4:end], "little")'),
    ("destination and router changed", "reader.py", "routes", "met.append((int(bits.ljust(32, \"0\"), 2), width, int.from_bytes(data[end - 4:end], \"big\"), end))",
     "met.append((int.from_bytes(data[end - 4:end], \"big\"), width, int(bits.ljust(32, \"0\"), 2), end))"),
    ("the width in bytes", "reader.py", "routes", "2), width, int", "2), (width + 7) // 8, int"),
    ("width 33 is taken", "reader.py", "routes", "if width > 32:", "if width > 33:"),
    ("width 32 is too wide", "reader.py", "routes", "if width > 32:", "if width > 31:"),
    ("a width over 32 is taken as 32", "reader.py", "routes", "        if width > 32:\n            return met, 9\n", "        width = min(width, 32)\n"),
    ("a width is taken modulo 64", "reader.py", "routes", "width = data[at]\n", "width = data[at] % 64\n"),
    ("the low seven bits are the width", "reader.py", "routes", "width = data[at]\n", "width = data[at] % 128\n"),
    ("one byte too few is taken", "reader.py", "routes", "if end > len(data):", "if end > len(data) + 1:"),
    ("a route just at the end is cut", "reader.py", "routes", "if end > len(data):", "if end >= len(data):"),
    ("8 for a wide width", "reader.py", "routes", "return met, 9", "return met, 8"),
    ("9 for a route cut short", "reader.py", "routes", "return met, 8", "return met, 9"),
    ("8 before 9: a wide width is cut first", "reader.py", "routes", "        if width > 32:\n            return met, 9\n        end",
     "        if width > 32:\n            return met, 8 if at + 5 + (width + 7) // 8 > len(data) else 9\n        end"),
    ("a byte left over is passed over", "reader.py", "routes", "    while at < len(data):", "    while at + 1 < len(data):"),
    ("the walk stops after its first route", "reader.py", "routes", "        at = end\n", "        break\n"),
    # the row
    ("121 has no row", "reader.py", "", '("routes", "121", ', '("routes", "", '),
    ("120 has the row", "reader.py", "", '("routes", "121", ', '("routes", "120 121", '),
    ("122 has the row", "reader.py", "", '("routes", "121", ', '("routes", "121 122", '),
    ("121 is not judged", "reader.py", "", "routes(d)[1] is None", "True"),
    ("121 is opaque", "reader.py", "", '("routes", "121", lambda c, n: n >= 5', '("opaque", "121", lambda c, n: n >= 5'),
    ("121 of no data is right", "reader.py", "", '("routes", "121", lambda c, n: n >= 5', '("routes", "121", lambda c, n: n >= 5 or n == 0'),
    ("9 before 8: a length under 5 is not judged first", "reader.py", "", '("routes", "121", lambda c, n: n >= 5', '("routes", "121", lambda c, n: n >= 1'),
    ("121 needs 6 bytes", "reader.py", "", '("routes", "121", lambda c, n: n >= 5', '("routes", "121", lambda c, n: n >= 6'),
    ("9 whatever is wrong", "reader.py", "fault", "121: routes(data)[1]", "121: 9"),
    ("8 whatever is wrong", "reader.py", "fault", "121: routes(data)[1]", "121: 8"),
    ("the last fault tells", "reader.py", "fault", "{82: 8, 121: routes(data)[1]}", "{82: 8, 121: 8 if 9 in {routes(data[i:])[1] for i in range(len(data))} else 9}"),
    ("a broken 121 is written", "sheets/check.py", "fault", "return reader.fault(tag, data)", "return None if tag == 121 else reader.fault(tag, data)"),
    ("set bits are refused in a sheet", "sheets/check.py", "fault", "    return reader.fault(tag, data)",
     "    if tag == 121 and not reader.fault(tag, data) and data[:2] == b'\\x01\\xff':\n        return 9\n    return reader.fault(tag, data)"),
    # the walk
    ("a fault gives nothing at all", "routes/check.py", "step", "    met = reader.routes(data[at:at + 9])[0]  # no route is longer\n", "    met = [] if reader.routes(data[at:])[1] else reader.routes(data[at:])[0]\n"),
    ("a place past the end starts anew", "routes/check.py", "step", "data[at:at + 9]", "data[at if at <= len(data) else 0:]"),
    ("next is a length", "routes/check.py", "step", "router, at + behind", "router, behind"),
    # the writer
    ("set bits are written", "routes/check.py", "write", "        if destination % 2 ** (32 - width):  # set bits\n            raise Refused(26, at // 9)\n", ""),
    ("set bits of the bytes that stay alone are looked at", "routes/check.py", "write", "destination % 2 ** (32 - width)",
     "destination // 2 ** (24 - (width - 1) // 8 * 8) % 2 ** (-width % 8)"),
    ("set bits of the bytes left off alone are looked at", "routes/check.py", "write", "2 ** (32 - width)", "2 ** ((32 - width) // 8 * 8)"),
    ("width 33 is written", "routes/check.py", "write", "nine[0] > 32:", "nine[0] > 33:"),
    ("width 32 is faulty", "routes/check.py", "write", "nine[0] > 32:", "nine[0] > 31:"),
    ("all bytes of the destination are written", "routes/check.py", "write", "nine[:1 + (width + 7) // 8]", "nine[:5]"),
    ("the writer leaves the begun byte out", "routes/check.py", "write", "nine[:1 + (width + 7) // 8]", "nine[:1 + width // 8]"),
    ("a route cut short at the end is left out", "routes/check.py", "write", "    while at < len(given) or not given:", "    while at + 9 <= len(given) or len(given) < 9:"),
    ("no route is written as none", "routes/check.py", "write", " or not given:", ":"),
    ("no route is an 11", "routes/check.py", "write", "    out, at = b\"\", 0\n", "    out, at = b\"\", 0\n    if not given:\n        raise Refused(11, room)\n"),
    ("26 at the byte", "routes/check.py", "write", "raise Refused(26, at // 9)\n        width", "raise Refused(26, at)\n        width"),
    ("26 with a number from 1", "routes/check.py", "write", "raise Refused(26, at // 9)\n        width", "raise Refused(26, at // 9 + 1)\n        width"),
    ("26 at 0 always", "routes/check.py", "write", "# set bits\n            raise Refused(26, at // 9)", "# set bits\n            raise Refused(26, 0)"),
    ("a number of one byte", "routes/check.py", "write", "raise Refused(26, at // 9)\n        width", "raise Refused(26, at // 9 % 256)\n        width"),
    ("9 for a wide width", "routes/check.py", "write", "raise Refused(26, at // 9)\n        width", "raise Refused(9, at // 9)\n        width"),
    ("11 before 26", "routes/check.py", "write", "        at += 9\n", "        at += 9\n        if len(out) > room:\n            raise Refused(11, room)\n"),
    ("11 with what is needed", "routes/check.py", "write", "raise Refused(11, room)", "raise Refused(11, len(out))"),
    ("no room for what just fits", "routes/check.py", "write", "len(out) > room:", "len(out) >= room:"),
    ("room for nine bytes a route is asked", "routes/check.py", "write", "len(out) > room:", "len(given) > room:"),
    ("over 1,024 bytes are a 13", "routes/check.py", "write", "    if len(out) > room:", "    if len(out) > 1024:\n        raise Refused(13, 0)\n    if len(out) > room:"),
    ("over 4,096 bytes are a 16", "routes/check.py", "write", "    out, at = b\"\", 0\n", "    if len(given) > 4096:\n        raise Refused(16, len(given))\n    out, at = b\"\", 0\n"),
    ("over 255 bytes are an 11", "routes/check.py", "write", "len(out) > room:", "len(out) > min(room, 255):"),
    ("the first route alone is written", "routes/check.py", "write", "        at += 9\n", "        at = len(given)\n"),
    # whether 3 and 33 are ignored
    ("yes wherever 121 is there", "routes/check.py", "ignored", 'return a.get("status") == 4 and a["kind"] == 13', 'return a.get("status", 0) != 0'),
    ("a broken 121 is a no", "routes/check.py", "ignored", '    if a.get("refusal"):', '    if a.get("status") == 2:'),
    ("a broken 121 is a yes", "routes/check.py", "ignored", '    if a.get("refusal"):\n', '    if a.get("status") == 5:\n        return True\n    if a.get("refusal"):\n'),
    ("a broken 121 is refused at 0", "routes/check.py", "ignored", 'raise Refused(a["refusal"], a["place"])', 'raise Refused(a["refusal"], 0 if a["status"] == 5 else a["place"])'),
    ("a broken 121 is refused at its data", "routes/check.py", "ignored", 'raise Refused(a["refusal"], a["place"])', 'raise Refused(a["refusal"], a.get("start", a["place"]))'),
    ("the known set is not asked", "routes/check.py", "ignored", "reader.plain(m, known, 121)", "reader.plain(m, EVERY, 121)"),
    ("3 is to be known too", "routes/check.py", "ignored", "reader.plain(m, known, 121)", "reader.plain(m, known if known >> 3 & 1 else 0, 121)"),
    ("33 is looked up", "routes/check.py", "ignored", "reader.plain(m, known, 121)", "reader.plain(m, known, 33)"),
    ("no where 121 comes in pieces", "routes/check.py", "ignored", 'a["kind"] == 13', 'not a.get("several")'),
    ("yes only where 3 is there", "routes/check.py", "ignored", 'a["kind"] == 13', 'bool(reader.plain(m, known, 3))'),
    ("a refused message is a no", "routes/check.py", "ignored", '    if a.get("refusal"):', '    if a.get("status") == 5:'),
]


def stored(name, checks, shown):
    """The stored cases of which a line, or the case, is of 121 or its neighbours, each with what is to be printed; the short ones first."""
    crate = CRATES / STORED[name]
    given = checks[name].cases((crate / "stdin").read_bytes())
    wanted = (crate / "stdout").read_text().split("-\n")
    cases = [(name, case if isinstance(case, tuple) else (case,), want + "-\n") for case, want in zip(given, wanted)]
    return sorted((case for case in cases if shown(case[1], case[2])), key=lambda case: len(case[1][-1]))


def implementation(texts):
    """The three checks over the second reader, as these texts have them."""
    sys.modules["reader"] = COMMON.loaded("reader", "reader.py", texts["reader.py"])
    return {name: COMMON.loaded(name, f"{name}/check.py", texts[f"{name}/check.py"]) for name in STORED}


def told(checks, cases):
    """Whether a case differs from what this implementation prints."""
    return any(checks[name].printed(*case) != want for name, case, want in cases)


def main():
    texts, failed = {file: (TESTS / file).read_text() for file in FILES}, 0
    checks = implementation(texts)
    cases = stored("routes", checks, lambda case, want: True) + stored("sheets", checks, lambda case, want: b"y\0" in case[2])
    cases += stored("vectors", checks, lambda case, want: any(f"\n{code} " in want for code in (120, 121, 122)))
    if told(checks, cases):
        failed += 1
        print("what is right is told as wrong")
    for what, file, function, old, new in EDITS:
        if not told(implementation({**texts, file: COMMON.edited(texts[file], function, old, new)}), cases):
            failed += 1
            print(f"NOT TOLD: {what}")
    print(f"{len(EDITS)} wrong ones and 1 control over {len(cases)} cases, {failed} failed")
    return 1 if failed else 0


if __name__ == "__main__":
    sys.exit(main())
