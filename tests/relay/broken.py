#!/usr/bin/env python3
"""Whether the cases of request 09 can fail: each edit of a check, or of the second reader, makes a wrong implementation, and some case has to tell it."""

import sys
import types
from pathlib import Path

TESTS = Path(__file__).resolve().parent.parent
CRATES = TESTS.parent / "crates"
FILES = ["reader.py", "vectors/check.py", "sheets/check.py", "items/check.py"]
sys.path.append(str(TESTS))

# What is wrong; the file, and the function where the text stands once; that text; what takes its place.
EDITS = [
    # the sub-options
    ("0 is a pad", "reader.py", "split", "        head = data[at:at + 2]\n", "        if data[at] == 0:\n            at += 1\n            continue\n        head = data[at:at + 2]\n"),
    ("255 ends", "reader.py", "split", "        head = data[at:at + 2]\n", "        if data[at] == 255:\n            break\n        head = data[at:at + 2]\n"),
    ("a lone byte at the end is passed over", "reader.py", "split", "        if len(head) < 2 or ", "        if len(head) < 2 and met:\n            return met, None\n        if len(head) < 2 or "),
    ("a byte short is taken", "reader.py", "split", "at + 2 + head[1] > len(data):", "at + 2 + head[1] > len(data) + 1:"),
    ("no sub-options at all are read", "items/check.py", "sub_options", "    if not met:\n        raise Refused(8, 0)\n", ""),
    ("17 for one that runs past", "items/check.py", "sub_options", "raise Refused(8, past)", "raise Refused(17, past)"),
    ("8 at 0", "items/check.py", "sub_options", "raise Refused(8, past)", "raise Refused(8, 0)"),
    ("one that runs past is left out", "items/check.py", "sub_options", "    if past is not None:\n        raise Refused(8, past)\n", ""),
    # the reader
    ("11 before 8", "items/check.py", "read_relay", "    met = sub_options(data)\n", "    if data and not room:\n        raise Refused(11, 0)\n    met = sub_options(data)\n"),
    ("the last of a code", "items/check.py", "read_relay", "found[0] if found", "found[-1] if found"),
    ("an empty one is absent", "items/check.py", "read_relay", "if code == wanted]", "if code == wanted and d]"),
    ("circuit id and remote id changed", "items/check.py", "read_relay", "for wanted in (1, 2)]", "for wanted in (2, 1)]"),
    ("a start at the code", "items/check.py", "read_relay", "(start, len(d)) for", "(start - 2, len(d)) for"),
    ("a start in the sheet", "items/check.py", "read_relay", "[(start, len(d)) for code, start, d in met if",
     "[(start + 1 + i, len(d)) for i, (code, start, d) in enumerate(met) if"),
    ("remote id only behind circuit id", "items/check.py", "read_relay", "    ids = [", "    met = met if met[0][0] != 2 else met[1:]\n    ids = ["),
    ("no room for the exact sheet", "items/check.py", "read_relay", "if len(listed) > room:", "if len(listed) >= room:"),
    ("11 with what is needed", "items/check.py", "read_relay", "raise Refused(11, room)", "raise Refused(11, len(listed))"),
    ("sub-options sorted", "items/check.py", "read_relay", "    met = sub_options(data)\n", "    met = sorted(sub_options(data))\n"),
    ("a repeated code dropped", "items/check.py", "read_relay", "    met = sub_options(data)\n", "    met = list({m[0]: m for m in reversed(sub_options(data))}.values())[::-1]\n"),
    # the writer
    ("an empty sheet is written", "items/check.py", "write_relay", "    if given == b\"\":\n        raise Refused(8, 0)\n", ""),
    ("an empty sheet is an 11", "items/check.py", "write_relay", "raise Refused(8, 0)", "raise Refused(11, room)"),
    ("tag 0 is a 10", "items/check.py", "write_relay", "        if length > 255:\n", "        if sheet[at] == 0:\n            raise Refused(10, at)\n        if length > 255:\n"),
    ("tag 255 is a 10", "items/check.py", "write_relay", "        if length > 255:\n", "        if sheet[at] == 255:\n            raise Refused(10, at)\n        if length > 255:\n"),
    ("tag 52 is a 10", "items/check.py", "write_relay", "        if length > 255:\n", "        if sheet[at] == 52:\n            raise Refused(10, at)\n        if length > 255:\n"),
    ("13 over 253 bytes", "items/check.py", "write_relay", "        if length > 255:\n", "        if length > 253:\n"),
    ("over 255 bytes are an 11", "items/check.py", "write_relay", "            raise Refused(13, at)\n", "            raise Refused(11, room)\n"),
    ("13 before 12", "items/check.py", "write_relay", "        if at + 3 + length > len(sheet):\n",
     "        if length > 255:\n            raise Refused(13, at)\n        if at + 3 + length > len(sheet):\n"),
    ("256 bytes given", "items/check.py", "write_relay", "len(given) > 255 or", "len(given) > 256 or"),
    ("254 bytes given", "items/check.py", "write_relay", "len(given) > 255 or", "len(given) > 254 or"),
    ("11 at 255", "items/check.py", "write_relay", "raise Refused(11, room)", "raise Refused(11, min(room, 255))"),
    ("4,096 bytes are a 16", "items/check.py", "write_relay", "len(sheet) > 4096", "len(sheet) >= 4096"),
    ("4,097 bytes are no 16", "items/check.py", "write_relay", "len(sheet) > 4096", "len(sheet) > 4097"),
    ("a repeated tag is a 7", "items/check.py", "write_relay", "        if length > 255:\n",
     "        if given and given[0] == sheet[at]:\n            raise Refused(7, at)\n        if length > 255:\n"),
    ("END is added", "items/check.py", "write_relay", "    if len(given) > 255 or", "    given += b\"\\xff\"\n    if len(given) > 255 or"),
    # the row
    ("82 has no row", "reader.py", "", '("relay", "82", ', '("relay", "", '),
    ("82 is not judged", "reader.py", "", "split(d)[1] is None", "True"),
    ("82 of no data is right", "reader.py", "", '("relay", "82", lambda c, n: n > 1', '("relay", "82", lambda c, n: True'),
    ("82 needs 3 bytes", "reader.py", "", '("relay", "82", lambda c, n: n > 1', '("relay", "82", lambda c, n: n > 2'),
    ("83 has the row", "reader.py", "", '("relay", "82", ', '("relay", "82 83", '),
    ("82 is broken by 9", "reader.py", "fault", "{82: 8, 121", "{121"),
    ("82 is opaque", "reader.py", "", '("relay", "82", ', '("opaque", "82", '),
    ("82 is known always", "vectors/check.py", "content", "code not in known", "code not in (82, *known)"),
    ("82's place is its data's", "vectors/check.py", "content", "{number} {at}", "{number} {at + 2 * (code == 82)}"),
    ("a broken 82 is written", "sheets/check.py", "fault", "return reader.fault(tag, data)", "return None if tag == 82 else reader.fault(tag, data)"),
    ("8 before 7", "sheets/check.py", "fault", "    if tag in met:\n", "    if tag in met and not (tag == 82 and reader.fault(tag, data)):\n"),
    # 23
    ("82 anywhere", "sheets/check.py", "judge", "raise Refused(23, places[82])", "pass"),
    ("82 is never last", "sheets/check.py", "judge", " and list(met)[-1] != 82:", ":"),
    ("23 at the record behind", "sheets/check.py", "judge", "raise Refused(23, places[82])", "raise Refused(23, places[82] + 3 + len(met[82]))"),
    ("23 at 0", "sheets/check.py", "judge", "raise Refused(23, places[82])", "raise Refused(23, 0)"),
    ("23 only with one record behind", "sheets/check.py", "judge", "list(met)[-1] != 82", "list(met)[-2:-1] == [82]"),
    ("23 only where 82 is first", "sheets/check.py", "judge", "if 82 in places and", "if places.get(82) == 0 and"),
    ("23 before 14", "sheets/check.py", "judge", "    if 1 in places and 3", "    if 82 in places and list(met)[-1] != 82:\n        raise Refused(23, places[82])\n    if 1 in places and 3"),
    ("23 before the faults behind it", "sheets/check.py", "judge", "        number = fault(sheet, at, met)\n",
     "        if 82 in met:\n            raise Refused(23, places[82])\n        number = fault(sheet, at, met)\n"),
]


def edited(text, function, old, new):
    """The text with the edit in this function, or anywhere."""
    first = text.index(f"def {function}(") if function else 0
    last = text.index("\n\n\n", first) if function else len(text)
    part = text[first:last]
    assert part.count(old) == 1, (function, old, part.count(old))
    return text[:first] + part.replace(old, new) + text[last:]


def loaded(name, file, text):
    module = types.ModuleType(name)
    module.__file__ = str(TESTS / file)
    exec(compile(text, file, "exec"), module.__dict__)
    return module


def stored(name, checks, shown):
    """The stored cases of which a line, or the case, is of 82 or 83, each with what is to be printed; the short ones first."""
    given = checks[name].cases((CRATES / name / "stdin").read_bytes())
    wanted = (CRATES / name / "stdout").read_text().split("-\n")
    cases = [(name, case if isinstance(case, tuple) else (case,), want + "-\n") for case, want in zip(given, wanted)]
    return sorted((case for case in cases if shown(case[1], case[2])), key=lambda case: len(case[1][-1]))


def all_stored(checks):
    calls = stored("items", checks, lambda case, want: case[0] > 1)
    sheets = stored("sheets", checks, lambda case, want: b"\x52\0" in case[2][:60] or "\ncode 82 " in want or want.startswith("refused 23"))
    return calls + sheets + stored("vectors", checks, lambda case, want: "\n82 " in want or "\n83 " in want)


def implementation(texts):
    """The three checks over the second reader, as these texts have them."""
    sys.modules["reader"] = loaded("reader", "reader.py", texts["reader.py"])
    return {name: loaded(name, f"{name}/check.py", texts[f"{name}/check.py"]) for name in ("vectors", "sheets", "items")}


def told(checks, relay, cases):
    """Whether a case differs from what this implementation prints."""
    relay.VECTORS = checks["vectors"]
    return any(relay.not_known()) or any(checks[name].printed(*case) != want for name, case, want in cases)


def main():
    texts, failed = {file: (TESTS / file).read_text() for file in FILES}, 0
    checks = implementation(texts)
    relay = loaded("relay", "relay/check.py", (TESTS / "relay" / "check.py").read_text())
    cases = all_stored(checks)
    if told(checks, relay, cases):
        failed += 1
        print("what is right is told as wrong")
    for what, file, function, old, new in EDITS:
        if not told(implementation({**texts, file: edited(texts[file], function, old, new)}), relay, cases):
            failed += 1
            print(f"NOT TOLD: {what}")
    print(f"{len(EDITS)} wrong ones and 1 control over {len(cases)} cases, {failed} failed")
    return 1 if failed else 0


if __name__ == "__main__":
    sys.exit(main())
