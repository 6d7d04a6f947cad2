#!/usr/bin/env python3
"""The static libraries for C, crates/dhcpopt_*_c: each exports the calls of the library of that name, and promises of each what the library promises.

A crate is a library or a static library. The seven libraries dhcpopt_* are called by other crates, so that each has a thin static library over it, with one
function for each call: it has the call's signature and clauses word for word, and only calls it. Here that is held to the text: the crates are those that --write
writes, all that the libraries declare for C is exported once, and it is what include/dhcpopt.h declares. The last line is 'N calls of M crates, K wrong'.

usage: tests/exports.py [--write]     --write writes the crates anew from the libraries; their lines in crates.txt are yours
"""
import re
import subprocess
import sys
from pathlib import Path

ROOT = Path(__file__).resolve().parent.parent
CALL = re.compile(r'((?://[^\n]*\n)*)#\[unsafe\(no_mangle\)\]\npub extern "C" fn (\w+)\((.*?)\)( -> \w+)?\n((?:    (?:requires|ensures)\b[^\n]*\n)*)\{\n', re.S)
GHOST = re.compile(r"^ghost use (\S+?)(?:\.\{([^}]*)\}| as (\S+))?;\n", re.M)
USE = re.compile(r"^use (\w+)::(?:\{([^}]*)\}|(\w+));\n", re.M)
WORD = r"[^\s(){}\[\],;.]+"


def libraries():
    return sorted(path.name for path in (ROOT / "crates").glob("dhcpopt_*") if not path.name.endswith("_c"))


def listed(words):
    return [word.strip() for word in words.split(",") if word.strip()]


def used(name, words):
    """Whether a name that a file brings in stands among the words of clauses."""
    name = name.split(" as ")[-1]
    return name in words or "◌" in name and all(sign in words for sign in name.split("◌") if sign) or name == "[]" and "[]" in words


def thin(name):
    """The text of the static library over a library."""
    text = (ROOT / "crates" / name / "src/lib.rt").read_text()
    calls = CALL.findall(text)
    clauses = "".join(call[4] for call in calls)
    words = set(re.findall(WORD, clauses)) | ({"[]"} if "[]" in clauses else set())
    types = set(re.findall(r"[A-Z]\w+", " ".join(call[2] + call[3] for call in calls)))
    out = [f"// The calls of {name} for C, as a static library: each calls the library's function of its name, whose signature and clauses it has.\n"]
    out += ["// Written by tests/exports.py.\n", "#![tactic(auto)]\n", "\n"]
    for path, names, alias in GHOST.findall(text):
        keep = [one for one in listed(names) if used(one, words)]
        if keep:
            out.append(f"ghost use {path}.{{{', '.join(keep)}}};\n")
        elif not names and (alias or path.split(".")[-1]) in words:
            out.append(f"ghost use {path}{' as ' + alias if alias else ''};\n")
    brought = {}
    for crate, several, one in USE.findall(text):
        for word in listed(several or one):
            brought[word] = crate
    of = {}
    for one in sorted(types):
        of.setdefault(brought.get(one, name), []).append(one)
    out.append("\n")
    for crate, several in sorted(of.items()):
        out.append(f"use {crate}::{several[0] if len(several) == 1 else '{' + ', '.join(several) + '}'};\n")
    for comment, call, parameters, result, clause in calls:
        given = re.findall(r"(\w+):", parameters)
        out.append(f'\n{comment}#[unsafe(no_mangle)]\npub extern "C" fn {call}({parameters}){result}\n{clause}{{\n    {name}::{call}({", ".join(given)})\n}}\n')
    return "".join(out), [call[1] for call in calls]


def flat(text):
    """Without the layout that rt fmt gives."""
    return re.sub(r",([)}\]])", r"\1", re.sub(r"\s+", "", text))


def main():
    wrong, exported = [], []
    for name in libraries():
        path = ROOT / "crates" / f"{name}_c" / "src/lib.rt"
        text, calls = thin(name)
        exported += calls
        if not calls:
            wrong.append(f"{name}: no call for C")
        if len(calls) != (ROOT / "crates" / name / "src/lib.rt").read_text().count("no_mangle"):
            wrong.append(f"{name}: a call for C is not of the form that is understood")
        if sys.argv[1:] == ["--write"]:
            path.parent.mkdir(parents=True, exist_ok=True)
            path.write_text(text)
            subprocess.run(["rt", "fmt"], cwd=path.parent.parent, check=True)
        elif not path.exists():
            wrong.append(f"{name}: there is no crate {name}_c")
        elif flat(path.read_text()) != flat(text):
            wrong.append(f"{name}_c: not what the library's calls are: tests/exports.py --write writes it")
    for path in sorted((ROOT / "crates").glob("*_c")):
        if path.name[:-2] not in libraries():
            wrong.append(f"{path.name}: there is no library {path.name[:-2]}")
    named = subprocess.run([ROOT / "packaging/calls", ROOT / "include/dhcpopt.h"], capture_output=True, text=True, check=True).stdout
    declared = re.findall(r"^call (\w+)$", named, flags=re.M)
    for call in sorted(set(exported) ^ set(declared)):
        wrong.append(f"{call}: {'exported, and not declared in the header' if call in exported else 'declared in the header, and not exported'}")
    for call in sorted({call for call in exported if exported.count(call) > 1}):
        wrong.append(f"{call}: exported twice")
    for line in wrong:
        print(line)
    print(f"{len(exported)} calls of {len(libraries())} crates, {len(wrong)} wrong")
    return 1 if wrong else 0


if __name__ == "__main__":
    sys.exit(main())
