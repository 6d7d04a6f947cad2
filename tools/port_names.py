#!/usr/bin/env python3
"""Brings the repository's own definitions and lemmas to today's spelling: snake case, types in camel case, an apostrophe for a prime.

usage: python3 tools/port_names.py [--check]     at the top of the repository, once, after port.py

What turns: each name that a file of specs/ or a file of lemmas of proofs/ declares, wherever it stands in the crates' antt, clauses and comments.
What stays: functions, fields and strings of src/, names that a file imports from a library, and the labels that Rattle makes.
"""
import glob
import os
import re
import sys

NAME = r'[^\s(){}.;,@"«»]+'
WORD = re.compile(NAME)
COMMENT = re.compile(r"(?<![^\s(){}.;,@\"«»])--[^\n]*")
DECLARED = re.compile(r"(?m)^ *(?:(?:pub|abbrev|unfoldable|private|record|data|module)\s+)*([^\s(){}.;,@\"«»:]+)(?: [({][^\n]*?[)}])* :(?=\s)")
USE = re.compile(r"\buse ([^\s;{]+)\.\{([^}]*)\}")
GHOST_USE = re.compile(r"ghost\s+use\b[^;]*;")
CLAUSE = re.compile(r"(?:requires|ensures)\s*\*?\s*(?:\w+\s*)?\{|ghost\s*(?:\w+\s*(?::\s*(?:(?:owns|lends)\s*)?|=\s*))?\{")
RUST_QUIET = re.compile(r"//[^\n]*|\"(?:\\.|[^\"\\])*\"|b?'(?:\\.|[^'\\])'", re.S)
# Spellings that would fall together with another name, or with a word of the language, and what they become.
OTHER = {}
with open(os.path.join(os.path.dirname(os.path.abspath(__file__)), "port_names.tsv"), encoding="utf-8") as rows:
    OTHER.update(row.rstrip("\n").split("\t") for row in rows)


def own(path):
    parts = path.split(".")
    return parts[0] == "Rattle" and len(parts) > 1 and os.path.isdir(os.path.join("crates", parts[1]))


def antt_files():
    for kind in ("specs", "proofs"):
        for f in sorted(glob.glob(f"crates/*/{kind}/**/*.antt", recursive=True)):
            if "/out/" not in f:
                yield f


def spelled(name):
    if name in OTHER:
        return OTHER[name]
    name = name.replace("′", "'")
    if name[0].isupper():
        return re.sub(r"-(\w)", lambda m: m[1].upper(), name)
    name = re.sub(r"(?<=[a-z0-9])([A-Z])", lambda m: "_" + m[1].lower(), name)
    return name.replace("-", "_")


def declared():
    found = set()
    for f in antt_files():
        if f.endswith("/Proof.antt"):
            continue
        with open(f, encoding="utf-8") as h:
            t = COMMENT.sub("", h.read())
        found.update(m[1] for m in DECLARED.finditer(t))
    return {n for n in found if n in OTHER or re.search(r"[a-z0-9][A-Z]|.-.|′", n) and n[0].isalpha() and spelled(n) != n}


def lent(text):
    """The names that a text imports from libraries."""
    names = set()
    for m in USE.finditer(text):
        if not own(m[1]):
            for item in m[2].split(","):
                names.update(item.split(" as ")[:1] if " as " not in item else item.replace(" ", "").split("as"))
                names.update(w for w in re.split(r"\s+as\s+|\s+", item.strip()) if w)
    return names


def turn_words(text, names, stay):
    def new(m):
        if m[0] not in names or m[0] in stay:
            return m[0]
        to = spelled(m[0])
        # behind a dot stands a field or a label of a call, never a lemma
        if text[m.start() - 1 : m.start()] == ".":
            return "in_pieces" if m[0] == "in-pieces" else to.removesuffix("_lem")
        return to

    return WORD.sub(new, text)


def turn_comment(text, names):
    """In prose a name with a capital turns, and one with a dash where it stands in backticks."""
    text = re.sub(r"`[^`\n]*`", lambda m: "`" + turn_words(m[0][1:-1], names, set()) + "`", text)
    return re.sub(r"(?<![\w'-])[a-z]\w*[A-Z]\w*'?(?![\w-])", lambda m: spelled(m[0]) if m[0] in names else m[0], text)


def turn_antt(text, names):
    stay = lent(text)
    out, at = [], 0
    for m in COMMENT.finditer(text):
        out += [turn_words(text[at : m.start()], names, stay), turn_comment(m[0], names)]
        at = m.end()
    return "".join(out) + turn_words(text[at:], names, stay)


def block_end(text, at):
    depth = 1
    while depth and at < len(text):
        depth += {"{": 1, "}": -1}.get(text[at], 0)
        at += 1
    return at


def turn_rt(text, names):
    stay = set()
    for m in GHOST_USE.finditer(text):
        stay |= lent(m[0])
    out, at = [], 0
    mark = re.compile(f"(?P<quiet>{RUST_QUIET.pattern})|(?P<use>{GHOST_USE.pattern})|(?P<clause>{CLAUSE.pattern})", re.S)
    while True:
        m = mark.search(text, at)
        if not m:
            return "".join(out) + text[at:]
        out.append(text[at : m.start()])
        if m["quiet"] is not None:
            out.append(turn_comment(m[0], names) if m[0].startswith("//") else m[0])
            at = m.end()
        elif m["use"] is not None:
            out.append(turn_words(m[0], names, stay))
            at = m.end()
        else:
            at = block_end(text, m.end())
            out.append(turn_words(text[m.start() : at], names, stay))


def meetings(names):
    """Names that would fall together in some file."""
    to = {}
    for n in names:
        to.setdefault(spelled(n), []).append(n)
    bad = [f"{', '.join(v)} would both be {k}" for k, v in sorted(to.items()) if len(v) > 1]
    for f in antt_files():
        with open(f, encoding="utf-8") as h:
            words = set(WORD.findall(COMMENT.sub("", h.read())))
        for n in names & words:
            if spelled(n) in words:
                bad.append(f"{f}: {n} would meet {spelled(n)}")
    return bad


def main(argv):
    names = declared()
    bad = meetings(names)
    print("\n".join(bad))
    print(f"{len(names)} names to turn, {len(bad)} meetings")
    if argv[:1] == ["--check"]:
        return 0
    changed = 0
    files = [(f, turn_antt) for f in antt_files()] + [(f, turn_rt) for f in sorted(glob.glob("crates/*/src/**/*.rt", recursive=True))]
    for f, turn in files:
        with open(f, encoding="utf-8") as h:
            old = h.read()
        new = turn(old, names)
        if new != old:
            with open(f, "w", encoding="utf-8") as h:
                h.write(new)
            changed += 1
    print(f"{changed} files changed")
    return 0


if __name__ == "__main__":
    raise SystemExit(main(sys.argv[1:]))
