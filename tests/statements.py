#!/usr/bin/env python3
"""Every statement of the definitions is named in the contract of a function `proved`, so that the gate refuses a tree in which its proof is missing.

A statement is a name of type `Type 0` without parameters in a file crates/NAME/specs/*.antt: `abbrev pub NAME : Type 0`, or `pub record NAME : Type 0`
where every member says that something holds. It counts as named where an `ensures` of a `pub fn proved()` has it as a factor, and the file brings it in
by a `ghost use` from the module that states it. A name that is no statement, or stands in two contracts, is told too. The last line is
'N statements, M unnamed'.
"""
import re
import sys
from pathlib import Path

ROOT = Path(__file__).resolve().parent.parent
# types of data, which state nothing: (crate, module, name)
NO_STATEMENT = {("options", "Grouped", "Body")}
STATED = re.compile(r"^(?:abbrev |unfoldable )?pub ([\w']+) : Type 0[ \t]*$", re.M)
RECORD = re.compile(r"^pub record ([\w']+) : Type 0 where\n((?:[ \t]+.*\n|[ \t]*--.*\n)*)", re.M)
HOLDS = re.compile(r"≡|↔|≤|<|⊥")
USED = re.compile(r"^ghost use Rattle\.(\w+)\.specs\.(\w+)\.\{([^}]*)\};", re.M)
PROVED = re.compile(r"^pub fn proved\(\)\n((?:    ensures(?: \w+)? \{[^{}]*\}\n)+)", re.M)
ENSURES = re.compile(r"ensures(?: \w+)? \{([^{}]*)\}")


def facts(members):
    """Whether each member of a record says that something holds."""
    parts = re.split(r"^  pub ", re.sub(r"--.*", "", members), flags=re.M)[1:]
    return bool(parts) and all(HOLDS.search(part) for part in parts)


def stated():
    found = set()
    for path in sorted((ROOT / "crates").glob("*/specs/*.antt")):
        crate, text = path.relative_to(ROOT).parts[1], path.read_text()
        names = STATED.findall(text) + [name for name, members in RECORD.findall(text) if facts(members)]
        found |= {(crate, path.stem, name) for name in names}
    return found - NO_STATEMENT


def named():
    """Each statement named in a contract, as often as it is named."""
    found = []
    for path in sorted((ROOT / "crates").glob("*/src/lib.rt")):
        text = path.read_text()
        origin = {}
        for crate, module, names in USED.findall(text):
            for name in names.split(","):
                origin[name.strip()] = (crate, module, name.strip())
        for clauses in PROVED.findall(text):
            for product in ENSURES.findall(clauses):
                for factor in product.split("×"):
                    name = factor.strip(" \t\r\n()")
                    found.append(origin.get(name, (path.relative_to(ROOT).parts[1], "?", name)))
    return found


def main():
    statements, names = stated(), named()
    unnamed = sorted(statements - set(names))
    wrong = sorted(set(names) - statements) + sorted({name for name in names if names.count(name) > 1})
    for crate, module, name in unnamed:
        print(f"unnamed: {name} of crates/{crate}/specs/{module}.antt")
    for crate, module, name in wrong:
        print(f"named, and no statement or named twice: {name} of {crate}, {module}")
    print(f"{len(statements)} statements, {len(unnamed)} unnamed")
    sys.exit(1 if unnamed or wrong else 0)


if __name__ == "__main__":
    main()
