#!/usr/bin/env python3
"""Holds what a check can hold of the pages: the tables of docs/RULES.md and docs/C-API.md against the table of tests/reader.py and against the
header, the names of the header against these tables and the pages, the keys of the rules against the definitions that name them, the requests that
landed against their notes, the decisions against those who cite them, and counts in prose against what is counted. The last line is
'N checked, M wrong'.
"""
import re
import shutil
import subprocess
import sys
from pathlib import Path

ROOT = Path(__file__).resolve().parent.parent
sys.dont_write_bytecode = True
sys.path.insert(0, str(ROOT / "tests"))
from reader import row_of  # noqa: E402

KINDS = {"address": "ADDRESS", "addresses": "ADDRESS_LIST", "pairs": "ADDRESS_PAIRS", "flag": "FLAG", "octet": "BYTE", "number16": "UINT16",
         "numbers16": "UINT16_LIST", "unsigned32": "UINT32", "signed32": "INT32", "text": "TEXT", "opaque": "OPAQUE", "relay": "RELAY", "routes": "ROUTES"}
IN_WORDS = {"one address": "ADDRESS", "address list": "ADDRESS_LIST", "address pairs": "ADDRESS_PAIRS", "flag": "FLAG", "one byte": "BYTE",
            "16-bit number": "UINT16", "list of 16-bit numbers": "UINT16_LIST", "unsigned 32-bit number": "UINT32",
            "signed 32-bit number": "INT32", "text": "TEXT", "opaque": "OPAQUE", "relay information": "RELAY", "classless routes": "ROUTES"}
checked = 0
wrong = []


def check(holds, what):
    global checked
    checked += 1
    if not holds:
        wrong.append(what)


def page(name):
    return (ROOT / name).read_text()


def rows(text, *heads):
    """The cells of each row of the table with these column heads."""
    lines = iter(text.split("\n"))
    for line in lines:
        if [cell.strip() for cell in line.strip("|").split("|")] == list(heads):
            next(lines)
            for row in lines:
                if not row.startswith("|"):
                    break
                yield [cell.strip() for cell in row.strip("|").split("|")]


def codes_in(text):
    codes = []
    for word in re.findall(r"(\d+) to (\d+)|(\d+)", text):
        codes += range(int(word[0]), int(word[1]) + 1) if word[0] else [int(word[2])]
    return codes


def length_right(rule, n):
    if rule.endswith("or more"):
        return n >= int(rule.split()[0])
    if rule.endswith("..."):
        steps = [int(word) for word in re.findall(r"\d+", rule)]
        return n >= steps[0] and (n - steps[0]) % (steps[1] - steps[0]) == 0
    return n == int(rule)


def filled(data):
    """Whether codes, lengths and so many bytes end where the data ends."""
    while len(data) > 1 and data[1] + 2 <= len(data):
        data = data[2 + data[1]:]
    return data == b""


def routed(data):
    """Whether widths to 32, so many bits of destination and four bytes of router end where the data ends."""
    while data and data[0] <= 32 and 8 * (len(data) - 5) >= data[0]:
        data = data[5 + (data[0] + 7) // 8:]
    return data == b""


def value_right(rule, kind, data):
    if rule.startswith("any"):
        return True
    if kind == "ADDRESS_PAIRS":
        return all(any(data[i:i + 4]) for i in range(0, len(data), 8))
    if kind == "TEXT":
        first, last = map(int, re.match(r"each byte (\d+) to (\d+)", rule).groups())
        return all(first <= byte <= last for byte in data.rstrip(b"\0"))
    if kind == "RELAY":
        return rule.startswith("sub-options fill it") and filled(data)
    if kind == "ROUTES":
        return rule.startswith("routes fill it exactly") and routed(data)
    numbers = [int.from_bytes(data[i:i + 2], "big") for i in range(0, len(data), 2)] if kind.startswith("UINT16") else list(data)
    if kind == "UINT16_LIST":
        return all(n >= 68 for n in numbers) and numbers == sorted(numbers)
    if rule.endswith("or more"):
        return numbers[0] >= int(rule.split()[0])
    if " to " in rule:
        first, last = rule.split(" to ")
        return int(first) <= numbers[0] <= int(last)
    return numbers[0] in [int(n) for n in re.findall(r"\d+", rule)]


def samples(kind):
    """Data of a right length: enough to tell one rule of value from another."""
    if kind in ("FLAG", "BYTE"):
        return [bytes([v]) for v in range(256)]
    if kind == "UINT16":
        return [v.to_bytes(2, "big") for v in range(1000)]
    if kind == "UINT16_LIST":
        return [a.to_bytes(2, "big") + b.to_bytes(2, "big") for a in (0, 67, 68, 69, 300) for b in (0, 67, 68, 69, 300, 65535)]
    if kind == "ADDRESS_PAIRS":
        return [first + bytes([1] * 4) + second + bytes(4) for first in (bytes(4), b"\0\0\0\1") for second in (bytes(4), b"\1\0\0\0")]
    if kind in ("TEXT", "OPAQUE"):
        return [bytes(data) for v in range(256) for data in ([v, 97], [97, v, 98], [97, v], [97, v, 0, 0])]
    if kind == "RELAY":
        return [bytes(data) for v in range(256) for data in ([v, 0], [0, v], [1, v, 9], [1, 1, v, v], [1, 0, v], [v, 1, 7, 2, 0])]
    if kind == "ROUTES":
        return [bytes([v, *[x] * n]) for v in range(256) for x in (0, 33) for n in range(4, 20)]
    return []


def table_of_kinds(name, table):
    """table: code -> kind, rule of length, rule of value."""
    for code in range(1, 255):
        row = row_of(code)
        check((row is not None) == (code in table), f"{name}: {code} has a kind in only one of page and reader")
        if row is None or code not in table:
            continue
        kind, length, value = table[code]
        check(kind == KINDS[row[0]], f"{name}: the kind of {code}")
        check(all(length_right(length, n) == bool(row[2](code, n)) for n in range(40)), f"{name}: the length of {code}")
        check(all(value_right(value, kind, d) == (row[3] is None or bool(row[3](code, d))) for d in samples(kind)), f"{name}: the value of {code}")


def by_code(text, code):
    """Of '13: any; 22, 57: 576 or more' the part for a code; a text without codes is for all."""
    for part in text.split("; "):
        codes, colon, rule = part.partition(": ")
        if colon and re.fullmatch(r"[\d, ]+", codes):
            if code in codes_in(codes):
                return rule
        else:
            return part
    return ""


def of_rules():
    text = page("docs/RULES.md")
    table = {}
    for _, kind, codes, length, value in rows(text, "Key", "Kind", "Codes", "Length", "Value"):
        for code in codes_in(codes):
            rule = length.split(";")[0]
            if code == 68:
                rule = "0, 4, 8 ..." if "for 68 also 0" in length else rule
            if code == 61:
                rule = "2 or more" if "for 61, 2 or more" in length else rule
            table[code] = IN_WORDS[kind], rule, by_code(value, code)
    table_of_kinds("docs/RULES.md", table)
    named = {}
    for key, options in rows(text, "Key", "Code, name, section"):
        for code, name, section in re.findall(r"(\d+) ([^;]*?) (\d+\.\d+)(?:;|$)", options):
            named[int(code)] = name, section
    check(sorted(named) == sorted(table), "docs/RULES.md: every code with a kind has a name")
    check(len({section for _, section in named.values()}) == len(named), "docs/RULES.md: a section for each code")
    return text, named


def of_api(named):
    text = page("docs/C-API.md")
    table = {}
    for code, name, kind, length, value in rows(text, "Code", "Option", "Kind", "Length", "Value"):
        table[int(code)] = kind.strip("`"), length, value
        check(named.get(int(code), ("", ""))[0] == name, f"docs/C-API.md: the name of {code}")
    table_of_kinds("docs/C-API.md", table)
    header = page("include/dhcpopt.h")
    for number, name, *_ in rows(text, "No.", "`DHCPOPT_REFUSED_`", "When", "Place", "Calls"):
        check(re.search(rf"DHCPOPT_REFUSED_{name.strip('`')} = {number},? ", header), f"docs/C-API.md: refusal {number}")
    numbers = {int(number) for number, *_ in rows(text, "No.", "`DHCPOPT_REFUSED_`", "When", "Place", "Calls")}
    check(numbers == {int(n) for n in re.findall(r"DHCPOPT_REFUSED_\w+ = (\d+)", header)}, "docs/C-API.md: a row for each refusal of the header")
    statuses = [(int(number), name.strip("`")) for number, name, _ in rows(text, "Status", "`DHCPOPT_STATUS_`", "Members")]
    check(statuses == sorted((int(n), name) for name, n in re.findall(r"DHCPOPT_STATUS_(\w+) = (\d)", header)), "docs/C-API.md: the statuses")


def of_header(named):
    """The header's list of codes is that of the tables; its names of kinds and refusals are those of its enums, in small letters; each call has
    its place on the page for C; and no page names what the header does not have."""
    header = page("include/dhcpopt.h")
    listed = [(int(code), option) for code, option in re.findall(r'X\(\w+, (\d+), "([^"]*)"\)', header)]
    check(listed == sorted((code, name) for code, (name, _) in named.items()), "include/dhcpopt.h: DHCPOPT_CODES and docs/RULES.md differ")
    for prefix in ("KIND", "REFUSED"):
        of_enum = re.findall(rf"^    DHCPOPT_{prefix}_(\w+) = [1-9]", header, flags=re.M)
        spoken = dict(re.findall(rf'case DHCPOPT_{prefix}_(\w+):\s+return "([^"]*)";', header))
        check(sorted(of_enum) == sorted(spoken), f"include/dhcpopt.h: a name for each DHCPOPT_{prefix}_*")
        for name, words in spoken.items():
            check(words == name.lower().replace("_", " "), f"include/dhcpopt.h: the name of DHCPOPT_{prefix}_{name}")
    major, minor = (int(re.search(rf"DHCPOPT_VERSION_{part} (\d+)", header).group(1)) for part in ("MAJOR", "MINOR"))
    api = page("docs/C-API.md")
    check(f"`DHCPOPT_VERSION` is {100 * major + minor} for {major}.{minor}." in api, f"docs/C-API.md: the version is {major}.{minor}")
    calls, helpers = calls_of(header)
    for name in calls + helpers:
        check(re.search(rf"\b{name}\b", api), f"docs/C-API.md: {name} is not there")
    words = set(re.findall(r"\b(?:dhcpopt|DHCPOPT)_\w+", header)) | {"DHCPOPT_CODE_" + name for name in re.findall(r"X\((\w+), \d+,", header)}
    crates = {path.name for path in (ROOT / "crates").iterdir()}
    for name in ["README.md", "docs/C-API.md", "docs/LISTING.md", "CONTRIBUTING.md"]:
        for word in set(re.findall(r"\b(?:dhcpopt|DHCPOPT)_\w+", page(name))):
            check(word in words or word in crates or word.endswith("_") and any(w.startswith(word) for w in words), f"{name}: {word} is not in the header")


def calls_of(header):
    """The names of the calls, and those of the functions that the header itself has."""
    return (re.findall(r"^DHCPOPT_CALL \w+ (dhcpopt_\w+)\(", header, flags=re.M),
            re.findall(r"^(?:DHCPOPT_\w+(?:\([\d, ]+\))? )?static inline [\w ]+?\*?(dhcpopt_\w+)\(", header, flags=re.M))


def keys(rules):
    defined = re.findall(r"^\| ([A-Z]\d+) \|", rules, flags=re.M)
    twice = {key for key in defined if defined.count(key) > (2 if key[0] == "K" else 1)}
    check(not twice, f"docs/RULES.md: twice: {sorted(twice)}")
    used = set()
    for path in [path for end in ("antt", "rt") for part in ("src", "specs", "proofs") for path in sorted((ROOT / "crates").glob(f"*/{part}/**/*.{end}"))]:
        for group in re.findall(r"\[([A-Z]\d+(?:, [A-Z]\d+)*)\]", path.read_text()):
            for key in group.split(", "):
                used.add(key)
                check(key in defined, f"{path.relative_to(ROOT)}: [{key}] is no rule of docs/RULES.md")
    return used


def landed(rules):
    """Each request that has landed has a note, and the rules that it added or changed are there; each names the request."""
    listed = {}
    for request, _, added, changed in rows(rules, "Request", "What it asks for", "Rules added", "Rules changed"):
        listed[request] = re.findall(r"[A-Z]\d+", added + ", " + changed)
    notes = {path.stem for path in (ROOT / "docs/changes").glob("*.md")}
    check(set(listed) == notes, f"docs/RULES.md: landed {sorted(listed)}, with a note {sorted(notes)}")
    for request, named in listed.items():
        for key in named:
            rule = re.search(rf"^\| {key} \|.*(?:\n\| \|.*)*", rules, flags=re.M)
            check(rule, f"docs/RULES.md: request {request} names {key}, which is no rule")
            check(rule and (key[0] == "B" or f"equest {request}" in rule.group()), f"docs/RULES.md: {key} does not name request {request}")


def decisions():
    """Entries stand in order of their numbers, the index names each, and whoever cites one cites one that is there."""
    text = page("docs/DECISIONS.md")
    numbers = [int(n) for n in re.findall(r"^(\d+)\. \*\*", text, flags=re.M)]
    check(numbers == list(range(1, len(numbers) + 1)), "docs/DECISIONS.md: the entries are not 1, 2, 3 ... in order")
    index = [n for _, cell in rows(text, "Topic", "Entries") for n in codes_in(cell)]
    check(sorted(index) == numbers, "docs/DECISIONS.md: the index does not name each entry once")
    for name in ["README.md", "CONTRIBUTING.md"] + [str(p.relative_to(ROOT)) for p in sorted((ROOT / "docs").rglob("*.md"))]:
        for n in re.findall(r"\b(?:[Dd]ecisions?|entry|entries|DECISIONS\.md`,) (\d+)\b", page(name)):
            check(int(n) in numbers, f"{name}: decision {n} is cited and not there")


NUMBERS = ["none", "one", "two", "three", "four", "five", "six", "seven", "eight", "nine", "ten", "eleven", "twelve", "thirteen", "fourteen", "fifteen",
           "sixteen", "seventeen", "eighteen", "nineteen", "twenty"] + ["twenty-" + n for n in "one two three four five six seven eight nine".split()]


def depends_on(crate):
    """What crates.txt says that a crate uses, our own crates alone."""
    for line in page("crates.txt").split("\n"):
        if line.startswith(crate + ":"):
            return [name for name in line.split(":")[1].split() if (ROOT / "crates" / name).is_dir()]
    return []


def counts():
    """Counts in prose, wherever they stand, are those of the tree."""
    printed = page("crates/vectors/stdout").split("\nextra\n")[0]
    cases = printed.count("\n-\n") + printed.endswith("\n-")
    captures = len(list((ROOT / "tests/vectors/captures").glob("*.bin")))
    refused = len(re.findall(r"(?:^|\n-\n)refused ", printed))
    sheets = len(re.findall(r"^-$", page("crates/sheets/stdout"), flags=re.M))
    held = [(r"(\d[\d,]*) (?:test messages|cases, and in the lines)", cases), (r"(\d[\d,]*) captures", captures), (r"(\d[\d,]*) hand-made messages", cases - captures),
            (r"(\d[\d,]*) refused vectors", refused), (r"(\d[\d,]*) (?:test )?sheets\b(?!\s+of)", sheets),
            (r"(\d[\d,]*) (?:must-fail )?edits\b", len(list((ROOT / "crates").glob("*/must-fail/*.edit")))),
            (r"(\d[\d,]*) crates\b(?! proved)", len(list((ROOT / "crates").iterdir()))),
            (r"last line begins `(\d+) passed, 0 failed`", sum(1 + len(list((ROOT / "crates" / name).glob("must-fail/*.edit"))) for name in ["list_options", *depends_on("list_options")])),
            (r"(?:declares the|makes all) ([\w-]+) calls", len(calls_of(page("include/dhcpopt.h"))[0])),
            (r"(\w+) programs' input", len([path for path in (ROOT / "crates").glob("*/src/main.rt") if (path.parent.parent / "stdout").exists()]))]
    for path in [ROOT / "README.md", ROOT / "CONTRIBUTING.md", *sorted(set((ROOT / "docs").glob("*.md")) - {ROOT / "docs/PORT.md"}), *sorted((ROOT / "tests").rglob("README.md"))]:  # that page counts what was there before
        for pattern, number in held:
            for found in re.findall(pattern, path.read_text()):
                told = NUMBERS.index(found) if found in NUMBERS else int(found.replace(",", "")) if found[0].isdigit() else None
                check(told == number, f"{path.relative_to(ROOT)}: {found}, counted {number} ({pattern})")


def instructions():
    """Counts of instructions stand in docs/PERFORMANCE.md alone."""
    for name in ["README.md", "CONTRIBUTING.md", "docs/DECISIONS.md", "docs/C-API.md", "docs/ARCHITECTURE.md", "docs/LISTING.md"]:
        check(not re.search(r"\d instructions", page(name)), f"{name}: a count of instructions")


def toolchain():
    """README.md names the toolchain that is here, if one is."""
    if shutil.which("rt"):
        version = subprocess.run(["rt", "version"], capture_output=True, text=True).stdout.strip()
        check(version in page("README.md"), f"README.md: the toolchain is {version}")


rules_text, names = of_rules()
of_api(names)
of_header(names)
keys(rules_text)
landed(rules_text)
decisions()
counts()
instructions()
toolchain()
for line in wrong:
    print(line)
print(f"{checked} checked, {len(wrong)} wrong")
sys.exit(1 if wrong else 0)
