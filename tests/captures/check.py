#!/usr/bin/env python3
"""The report of a file of captures by request 11 of document 02 anew. Holds crates/report_captures/stdout and crates/capture_cases/stdout to their stdin; or, with files named,
prints their reports."""

import sys
from functools import lru_cache
from pathlib import Path

HERE = Path(__file__).resolve().parent
sys.path.append(str(HERE.parent))
from codes import total
from reader import Refused, join, read, row_of

OUT = HERE.parent.parent / "crates" / "report_captures"
CASES = HERE.parent.parent / "crates" / "capture_cases"
ROOM = 16384  # of the buffer that is lent for a report


def lease_time(options):
    """The well-formed lease time of an accepted message, every code known."""
    if 51 not in options:
        return None
    data = options[51].data
    _, _, length_fits, value_fits = row_of(51)
    if not length_fits(51, len(data)) or value_fits and not value_fits(51, data):
        return None
    return int.from_bytes(data, "big")


@lru_cache(maxsize=1)
def report(f):
    at, messages, accepted, refusals, held, size, times, last = 0, 0, 0, [0] * 8, [0] * 256, [0] * 256, [], None
    while at < len(f):
        n = int.from_bytes(f[at + 1:at + 3], "big")
        if f[at] != 1 or at + 3 > len(f) or at + 3 + n > len(f) or messages == 1000000:
            last = at
            break
        message = f[at + 3:at + 3 + n]
        at += 3 + n
        messages += 1
        try:
            options = join(read(message))
        except Refused as refused:
            refusals[refused.args[0]] += 1
            continue
        accepted += 1
        for code, option in options.items():
            held[code] += 1
            size[code] += len(option.data)
        time = lease_time(options)
        if time is not None:
            times.append(time)
    lines = [f"messages {messages}", f"accepted {accepted}"]
    lines += [f"refusals {n} {refusals[n]}" for n in range(1, 8)]
    lines += [f"code {c} {held[c]} {size[c]}" for c in range(256) if held[c]]
    lines.append(f"lease {min(times)} {max(times)}" if times else "lease none")
    if last is not None:
        lines.append(f"refused 24 {last}")
    return "\n".join(lines) + "\n"


def printed(text):
    """What the program capture_cases prints of a report: behind it a sum of the bytes of the lent buffer past it, which hold 0, 1, 2 and so on."""
    return f"{text}rest sum {total(k % 256 for k in range(len(text), ROOM))}\n-\n"


def steps(stdin):
    """The steps of crates/capture_cases/stdin: call, number, first byte, bytes."""
    at = 0
    while at < len(stdin):
        end = at + 8 + int.from_bytes(stdin[at + 6:at + 8], "big")
        yield stdin[at], int.from_bytes(stdin[at + 1:at + 3], "big"), stdin[at + 3], stdin[at + 8:end]
        at = end


def reports(stdin):
    """What the program is to print, a report at a time. In which parts a file is lent must not be seen."""
    f = b""
    for call, number, first, given in steps(stdin):
        if call == 4:
            yield printed(report(f))
        f = {0: b"", 1: f + given, 2: f + given * number, 3: f + bytes((first + k) % 256 for k in range(number)), 4: f}[call]


def held(name, wanted, there):
    if wanted != there:
        k = next((k for k, (a, b) in enumerate(zip(wanted, there)) if a != b), min(len(wanted), len(there)))
        sys.exit(f"captures: {name}: report {k} is to be\n{''.join(wanted[k:k + 1])}and is\n{''.join(there[k:k + 1])}")


if __name__ == "__main__":
    if len(sys.argv) > 1:
        for name in sys.argv[1:]:
            sys.stdout.write(report(Path(name).read_bytes()))
        sys.exit()
    whole = report((OUT / "stdin").read_bytes())
    held("report_captures", [whole], [(OUT / "stdout").read_text()])
    listed = list(reports((CASES / "stdin").read_bytes()))
    held("capture_cases", listed, (CASES / "stdout").read_text().replace("\n-\n", "\n-\n\0").split("\0")[:-1])
    print(f"captures: {len(whole.splitlines())} lines of the report, and {len(listed)} reports of small files, are those of the second reader")
