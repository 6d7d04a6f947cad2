#!/usr/bin/env python3
"""The words of crates/ranges, from the table of kinds.

Reads `rows` of crates/options/specs/Kinds.antt, numbers the rows (that of the kind, and 16 for each row of that kind before it), and holds the ranges of
crates/ranges/src/lib.rt to them: every code from 0 to 255, and the texts. With --print it writes the words that the table asks for, eight ranges to a word, for who
changes it. A range that the code cuts in two is no fault. The proof in crates/ranges says the same of the code; this says which words to write.
The last line is 'N codes, M wrong'.
"""
import re
import sys
from pathlib import Path

ROOT = Path(__file__).resolve().parent.parent
KINDS = ["address", "addresses", "pairs", "flag", "octet", "number16", "numbers16", "unsigned32", "signed32", "text", "opaque", "relay", "routes"]
UNUSED = 128  # the first code of a range that is not used


def codes_of(text):
    """The codes of a list such as `3 ∷ up_from 69 7 []`: up_from a n is a to a + n."""
    codes = []
    for a, n, one in re.findall(r"up_from (\d+) (\d+)|(\d+)", text):
        codes += [int(one)] if one else range(int(a), int(a) + int(n) + 1)
    return codes


def table():
    """The number of each code's row, by Kinds.antt."""
    text = (ROOT / "crates/options/specs/Kinds.antt").read_text()
    text = re.sub(r"\s--\s.*", "", text[text.index("\nrows =\n") :])
    rows, seen = {}, {}
    for codes, kind in re.findall(r"row \((.*?\[\]\)*)\) (\w+) \(", text[: text.index("∷ []\n\n")]):
        number = KINDS.index(kind) + 1 + 16 * seen.get(kind, 0)
        seen[kind] = seen.get(kind, 0) + 1
        for code in codes_of(codes):
            rows[code] = number
    return rows


def by_words(firsts, rows, code):
    """The row of the last range that begins at the code or before."""
    row = 0
    for k in range(8):
        if firsts >> 8 * k & 255 <= code:
            row = rows >> 8 * k & 255
    return row


def words(rows, last):
    """The words for the codes from 0 to last, eight ranges each: the first code of the word, firsts, rows."""
    runs = [c for c in range(last + 1) if c == 0 or rows.get(c, 0) != rows.get(c - 1, 0)]
    for k in range(0, len(runs), 8):
        part = runs[k : k + 8]
        firsts = sum((part[j] if j < len(part) else UNUSED) << 8 * j for j in range(8))
        yield part[0], firsts, sum(rows.get(c, 0) << 8 * j for j, c in enumerate(part))


def spell(word):
    digits = f"{word:016x}"
    return "0x" + "_".join(digits[k : k + 4] for k in range(0, 16, 4))


def main():
    rows = table()
    code = (ROOT / "crates/ranges/src/lib.rt").read_text()
    number = {name: int(value) for name, value in re.findall(r"const (\w+): u8 = (\d+);", code)}
    last = number["LAST"]
    if "--print" in sys.argv[1:]:
        for first, firsts, row in words(rows, last):
            print(f"from {first}: firsts {spell(firsts)}, rows {spell(row)}")
        print("above: " + ", ".join(f"{c} is {rows[c]}" for c in sorted(rows) if c > last))
    wrong = 0
    # Each word serves the codes below the bound of the `if` that it stands in; the last of a function those up to the next function's.
    found = [(int(a, 16), int(b, 16)) for a, b in re.findall(r"firsts: (0x[0-9a-f_]+),\s+rows: (0x[0-9a-f_]+)", code.replace("_", ""))]
    for c in range(last + 1):
        serving = [w for w in found if w[0] & 255 <= c]
        if by_words(*serving[-1], c) != rows.get(c, 0):
            print(f"code {c}: {by_words(*serving[-1], c)} for {rows.get(c, 0)}")
            wrong += 1
    above = {number["RELAY"]: number["ROW_82"], number["ROUTES"]: number["ROW_121"]}
    for c in range(last + 1, 256):
        if above.get(c, 0) != rows.get(c, 0):
            print(f"code {c}: {above.get(c, 0)} for {rows.get(c, 0)}")
            wrong += 1
    begins, ends = [int(w.replace("_", ""), 16) for w in re.search(r"in_ranges\((0x[0-9a-f_]+), (0x[0-9a-f_]+), c\)", code).groups()]
    for c in range(last + 1):
        inside = any(begins >> 8 * k & 255 <= c < ends >> 8 * k & 255 for k in range(8))
        if inside != (rows.get(c, 0) % 16 == 10):
            print(f"code {c}: text or not")
            wrong += 1
    print(f"256 codes, {wrong} wrong")
    return wrong != 0


if __name__ == "__main__":
    sys.exit(main())
