#!/usr/bin/env python3
"""Turns the names of definitions, lemmas and statements in pages and comments to the spelling that tools/port_names.py gave them in the crates.

usage: python3 tools/port_pages.py [--check] [FILE..]     at the top of the repository; it may run again

A word turns where the crates as landed (the commit on the first line of docs/PORT.md) have it, those of today have it no more, and they have its new spelling.
Turned are the words in backquotes of the pages, docs/PORT.md left out, and in comments and strings elsewhere those that no other code there has as a name.
"""
import glob
import os
import re
import subprocess
import sys

sys.path.insert(0, os.path.dirname(os.path.abspath(__file__)))
sys.dont_write_bytecode = True
from port_names import COMMENT, OTHER, spelled

WORD = re.compile(r"[A-Za-z_][\w′'-]*[\w′']|[A-Za-z_]")
PAGES = ["README.md", "CONTRIBUTING.md", "CHANGELOG.md", "docs/*.md", "docs/changes/*.md", "rust/*.md", "bench/*.md", "tests/*/*.md", "crates/*/*.md"]
CODE = ["tests/**/*", "bench/*", "examples/*", "include/*", "rust/*", "packaging/*", "man/*", "Makefile"]
STAY = {"docs/PORT.md"}
# Two things had one name: where the page means the one that has another name now, by file and the text around it.
BY_HAND = {}


def words_of(path, text):
    text = COMMENT.sub("", text) if path.endswith(".antt") else re.sub(r"//[^\n]*", "", text)
    return set(WORD.findall(text))


def landed():
    with open("docs/PORT.md", encoding="utf-8") as page:
        commit = page.readline().split()[0]
    listed = subprocess.run(["git", "ls-tree", "-r", commit, "crates/"], capture_output=True, text=True, check=True).stdout.split("\n")
    blobs = [(line.split()[2], line.split("\t")[1]) for line in listed if re.search(r"\.(antt|rt)$", line)]
    out = subprocess.run(["git", "cat-file", "--batch"], input="\n".join(b for b, _ in blobs).encode(), capture_output=True, check=True).stdout
    found, at = set(), 0
    for _, path in blobs:
        end = out.index(b"\n", at)
        size = int(out[at:end].split()[2])
        found |= words_of(path, out[end + 1 : end + 1 + size].decode())
        at = end + size + 2
    return found


def today():
    found = set()
    for path in glob.glob("crates/*/**/*", recursive=True):
        if re.search(r"\.(antt|rt)$", path) and path.split("/")[2] != "out":
            with open(path, encoding="utf-8") as file:
                found |= words_of(path, file.read())
    return found


def main(words):
    check = "--check" in words
    old, new = landed(), today()
    turns = {w: spelled(w) for w in old - new if spelled(w) != w and spelled(w) in new}
    asked = {w for w in OTHER if re.fullmatch(r"[a-z_]+", w)}
    pages = [p for pattern in PAGES for p in sorted(glob.glob(pattern)) if p not in STAY]
    code = [p for pattern in CODE for p in sorted(glob.glob(pattern, recursive=True)) if os.path.isfile(p) and p not in pages]
    if [w for w in words if w != "--check"]:
        pages, code = [p for p in pages if p in words], [p for p in code if p in words]
    count = 0

    def turned(text):
        nonlocal count
        # a name with a dash is one word only where the old source had it so
        def one(m):
            nonlocal count
            if m[0] in turns:
                count += 1
                return turns[m[0]]
            return m[0]

        return WORD.sub(one, text)

    for path in pages:
        with open(path, encoding="utf-8") as file:
            text = file.read()
        made = re.sub(r"(?<!`)`[^`\n]+`(?!`)", lambda m: turned(m[0]), text)
        for token in re.findall(r"`([^`\n]+)`", made):
            for word in WORD.findall(token):
                if word in asked and check:
                    print(f"{path}: {word} is {word} or {OTHER[word]}")
        if made != text:
            print(f"turned: {path}")
            if not check:
                with open(path, "w", encoding="utf-8") as file:
                    file.write(made)
    # Elsewhere: only spellings that no language of these files has, a capital inside or a dash in backquotes.
    for path in code:
        try:
            with open(path, encoding="utf-8") as file:
                text = file.read()
        except UnicodeDecodeError:
            continue
        lines = []
        for line in text.split("\n"):
            made = re.sub(r"`[^`\n]+`", lambda m: turned(m[0]), line)
            for word in set(re.findall(r"\b[a-z]\w*[a-z0-9][A-Z]\w*\b", made)) & set(turns):
                print(f"{path}: by hand: {word}, {turns[word]}: {line.strip()[:150]}")
            if made != line:
                print(f"turned: {path}: {made.strip()[:150]}")
            lines.append(made)
        if "\n".join(lines) != text and not check:
            with open(path, "w", encoding="utf-8") as file:
                file.write("\n".join(lines))
    print(f"{len(turns)} names, {count} places")
    return 0


if __name__ == "__main__":
    raise SystemExit(main(sys.argv[1:]))
