#!/usr/bin/env python3
"""Request 09 of document 02 where the stored cases do not reach.

    check.py            lookups of 82 where it is not known, and which captures hold it
    check.py lines      the cases on standard input, which `independent lines SEED N` of tests/independent prints with the answers of its rules
"""

import importlib.util
import sys
from pathlib import Path

HERE = Path(__file__).resolve().parent
TESTS = HERE.parent
sys.path.append(str(TESTS))
from reader import Refused, join, read

CAPTURES = TESTS / "vectors" / "captures"


def other(folder, name):
    spec = importlib.util.spec_from_file_location(f"{folder}_{name}", TESTS / folder / f"{name}.py")
    module = importlib.util.module_from_spec(spec)
    spec.loader.exec_module(module)
    return module


VECTORS, SETTINGS, ITEMS, CASES = other("vectors", "check"), other("sheets", "check"), other("items", "check"), other("vectors", "make")
message = CASES.message

# "A code is known when its bit is set and it has a row" (document 01): the lookup of 82 where every other code is known, and 82 is not.
NOT_KNOWN = [
    ("right", message("52 07 01 02 0A 0B 02 01 0C FF"), "unknown 7 options 0 242"),
    ("broken", message("52 01 01 FF"), "unknown 1 options 0 242"),
    ("no data", message("52 00 FF"), "unknown 0 options 0 242"),
    ("two pieces", message("52 01 01 00 52 01 00 FF"), "unknown 2 options 0 242 several 2"),
    ("absent", message("51 00 FF"), "absent"),
]


def not_known():
    for why, m, said in NOT_KNOWN:
        have = VECTORS.answer(m, [code for code in range(1, 255) if code != 82], 82)
        if have != said:
            yield f"82 not known, {why}: {have}"


def holds_82(m):
    try:
        return 82 in join(read(m))
    except Refused:
        return False


def captured():
    """The captures that hold 82 are those whose sub-options tests/vectors/make.py lists."""
    held = sorted(path.name for path in CAPTURES.glob("*.bin") if holds_82(path.read_bytes()))
    if held != sorted(CASES.RELAY):
        yield f"82 is in {held}"
    for name in held:
        given = ITEMS.read_relay(join(read((CAPTURES / name).read_bytes()))[82].data, 1000)[0]
        if given != b"".join(bytes([code, 0, len(bytes.fromhex(data))]) + bytes.fromhex(data) for code, data in CASES.RELAY[name]):
            yield f"{name}: {given.hex()}"


# --- Generated cases, with the answers of tests/independent -------------------------------------------------------------

def id_words(part):
    return "absent" if part is None else "{} {}".format(*part)


def answer(which, *words):
    """What a line is to end with. A lent buffer holds 160, 161, 162 and so on."""
    *numbers, text = words
    data, numbers = bytes.fromhex(text), [int(n) for n in numbers]
    old = bytes((160 + i) & 255 for i in range(numbers[-1] if numbers else 0))
    try:
        if which == "lookup":
            return VECTORS.answer(data, range(1, 255), 82)
        if which == "write":
            plan, m = SETTINGS.write(data, old, numbers[0])
            return f"plan {plan} {m.hex()}"
        if which == "make":
            given = ITEMS.write_relay(data, len(old))
            return f"given {len(given)} {(given + old[len(given):]).hex()}"
        given, circuit, remote = ITEMS.read_relay(data, len(old))
        return f"given {len(given)} {(given + old[len(given):]).hex()} circuit {id_words(circuit)} remote {id_words(remote)}"
    except Refused as refusal:
        return "refused {} {}".format(*refusal.args)


def lines():
    """How many of each answer, and how many differ."""
    seen, differing = {}, 0
    for line in sys.stdin:
        case, _, said = line.rstrip("\n").partition(" | ")
        which, *words = case.split(" ")
        have = answer(which, *words)
        head = " ".join(have.split(" ")[:2 if have[0] in "rbp" and not have.startswith("relay") else 1])
        seen[which, head] = seen.get((which, head), 0) + 1
        if have != said:
            differing += 1
            if differing <= 20:
                print(f"{case}\nhere: {have}\nthere: {said}")
    for (which, head), count in sorted(seen.items()):
        print(f"{which}: {head}: {count}")
    print(f"{sum(seen.values())} cases, {differing} differ")
    return 1 if differing else 0


def main():
    if sys.argv[1:] == ["lines"]:
        return lines()
    wrong = [*not_known(), *captured()]
    print("".join(f"{what}\n" for what in wrong) + f"{len(NOT_KNOWN)} lookups and {len(CASES.RELAY)} captures, {len(wrong)} differ")
    return 1 if wrong else 0


if __name__ == "__main__":
    sys.exit(main())
