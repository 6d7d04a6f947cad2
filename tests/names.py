#!/usr/bin/env python3
"""Every name that docs/ARCHITECTURE.md and docs/DECISIONS.md put in backquotes is in the tree. So is every must-fail edit that they name, and every
test case that a table of theirs quotes under "Vector", "Vector or case" or "Sheet or case".

A name is looked for where it says it is: `crate::name` in the code of that crate, `Module.name` in a file Module.antt, a path as a path, any other
name in the code, definitions, proofs, tests and examples, comments left out. With words as arguments it checks those pages instead.
The last line is 'N names, M missing'.
"""
import importlib.util
import re
import sys
from pathlib import Path

ROOT = Path(__file__).resolve().parent.parent
PAGES = ["docs/ARCHITECTURE.md", "docs/DECISIONS.md"]
COMMENT = {".rt": r"//.*", ".antt": r"(^|\s)--\s.*", ".py": r"#.*", ".rs": r"//.*", ".c": r"/\*.*?\*/", ".h": r"/\*.*?\*/"}
NOT_OURS = {"libc", "io", "std"}  # libraries of the toolchain
NAME = r"[A-Za-z_][\w'-]*[\w']|[A-Za-z_]"


def made(path):
    """Whether it is what rt or a test has made."""
    parts = path.relative_to(ROOT).parts
    return parts[:1] == ("target",) or parts[:1] == ("crates",) and parts[2:3] == ("out",)


def files():
    for top in ("crates", "tests", "bench", "examples", "include"):
        for path in sorted((ROOT / top).rglob("*")):
            if not made(path) and path.is_file() and (path.suffix in COMMENT or path.suffix == "" and path.name == "run"):
                if not path.match("tests/names.py"):
                    yield path


def words(path):
    text = path.read_text(errors="replace")
    text = re.sub(COMMENT.get(path.suffix, r"#.*"), "", text, flags=re.M)
    return set(re.findall(NAME, text))


class Tree:
    def __init__(self):
        self.every = set()
        self.of_crate = {}
        self.of_module = {}
        for path in files():
            found = words(path)
            self.every |= found
            parts = path.relative_to(ROOT).parts
            if parts[0] == "crates" and path.suffix == ".rt":
                self.of_crate.setdefault(parts[1], set()).update(found)
            if path.suffix == ".antt":
                self.of_module.setdefault(path.stem, set()).update(found)
        self.crates = {path.name for path in (ROOT / "crates").iterdir()}
        self.paths = {str(path.relative_to(ROOT)) for path in ROOT.rglob("*") if not made(path)}
        self.basenames = {Path(path).name for path in self.paths} | {Path(path).stem for path in self.paths}

    def has_path(self, name):
        name = name.rstrip("/")
        return (ROOT / name).exists() or name in self.paths or "/" not in name and name in self.basenames

    def has(self, token):
        """Whether a name exists; None where the token is no name."""
        if re.fullmatch(r"[A-Za-z_]\w*::[A-Za-z_]\w*", token):
            crate, name = token.split("::")
            return crate in NOT_OURS or name in self.of_crate.get(crate, ())
        if re.fullmatch(r"[A-Z]\w*\.(" + NAME + ")", token):
            module, name = token.split(".")
            return name in self.of_module.get(module, ()) or self.has_path(token)
        if re.fullmatch(r"\.?[\w.*-]+(/[\w.*-]+)*/?", token) and ("/" in token or re.search(r"\.[a-z]+$", token)):
            return True if "*" in token else self.has_path(token)
        if re.fullmatch(NAME, token):
            return token in self.every or token in self.crates or token in self.basenames
        return None


def names_of(text):
    """The names in backquotes, and the must-fail edits as paths."""
    text = re.sub(r"```.*?```", "", text, flags=re.S)
    for token in re.findall(r"`([^`\n]+)`", text):
        yield token
    for row in re.findall(r"must-fail ((?:[a-z_]+/)[a-z_0-9]+(?:, (?:[a-z_]+/)?[a-z_0-9]+)*)", text):
        crate = ""
        for name in row.split(", "):
            crate, _, name = name.rpartition("/") if "/" in name else (crate, "", name)
            yield f"crates/{crate}/must-fail/{name}.edit"


def cases_of(text):
    """What stands in quotes in the last column of a table of cases."""
    column = False
    for line in text.split("\n"):
        cells = [cell.strip() for cell in line.strip("|").split("|")] if line.startswith("|") else []
        if not cells:
            column = False
        elif cells[-1] in ("Vector", "Vector or case", "Sheet or case"):
            column = True
        elif column:
            yield from re.findall(r'"([^"]+)"', cells[-1])


def reasons():
    """The reason of each case that stands one by one in a make.py; of one that is tried with every permission, without it."""
    sys.dont_write_bytecode = True
    for name in ("vectors", "sheets", "items", "grouped"):
        spec = importlib.util.spec_from_file_location(name, ROOT / "tests" / name / "make.py")
        module = importlib.util.module_from_spec(spec)
        spec.loader.exec_module(module)
        for cases in vars(module).values():
            if isinstance(cases, list):
                yield from (re.sub(r", permission \d$", "", case[0]) for case in cases if isinstance(case, tuple) and isinstance(case[0], str))


def main():
    tree = Tree()
    made = set(reasons())
    count, missing = 0, []
    for page in sys.argv[1:] or PAGES:
        for token in names_of((ROOT / page).read_text()):
            there = tree.has(token)
            if there is None or token == "crates/x/must-fail/y.edit":  # the page's pattern for such names
                continue
            count += 1
            if not there:
                missing.append(f"{page}: `{token}`")
        for case in cases_of((ROOT / page).read_text()):
            count += 1
            if case not in made:
                missing.append(f'{page}: the case "{case}"')
    for line in missing:
        print(line)
    print(f"{count} names, {len(missing)} missing")
    return 1 if missing else 0


sys.exit(main())
