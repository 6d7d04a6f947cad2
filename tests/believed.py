#!/usr/bin/env python3
"""What must be believed: the files with the definitions that public contracts rest on, against the table of docs/ARCHITECTURE.md.

A public contract is the `ensures` of a `pub fn` of a library, and what stands with a public type or trait: the ghost members and the `ensures` of the
methods in its `impl`s of traits (as `from_gives` of a `From`), and the members that its own block has. It rests on each definition that it names, and
on each that those name, through all files `specs/*.antt` of the crates. A file with one of them must be listed under "To check the result against the
rules, read these", and one without any must not be; crate options is listed whole. With the word `why` it says for each file which definitions, and
first by which function or member.
The last line is 'N files, M missing, K needless'.
"""
import re
import sys
from pathlib import Path

ROOT = Path(__file__).resolve().parent.parent
PAGE = "docs/ARCHITECTURE.md"
HEAD = "## To check the result against the rules, read these"
WORD = r"[^\s(){}\[\];,]+"
OPENER = r"(?:(?:abbrev|unfoldable|opaque|pub|private|mutual)\s+)*(?:(record|data)\s+)?(" + WORD + r")\s"


def uses(text, rust=False):
    """What a file may call by a name of its own: name -> (crate, file, name), and module alias -> (crate, file)."""
    names, modules = {}, {}
    pattern = (r"^\s*ghost use " if rust else r"^\s*(?:pub )?use ") + r"(\S+?)(?:\.\{([^}]*)\}| as (\S+?))?;?\s*$"
    for path, listed, alias in re.findall(pattern, text, flags=re.M):
        found = re.fullmatch(r"Rattle\.(\w+)\.specs\.(\w+)", path)
        if not found or not (ROOT / "crates" / found[1]).is_dir():  # the toolchain's libraries, and the structs that the code declares
            continue
        place = (found[1], found[2])
        for word in (listed or "").replace("\n", " ").split(","):
            name, _, new = word.strip().partition(" as ")
            if name:
                names[new or name] = (*place, name)
        if alias or not listed:
            modules[alias or found[2]] = place
    return names, modules


def definitions(text):
    """name -> the words of the definition it belongs to. A field or constructor belongs to its record or type."""
    text = re.sub(r"(^|\s)--(\s.*)?$", "", text, flags=re.M)
    blocks, name = {}, None
    owner, kind = {}, ""
    for line in text.split("\n"):
        flat = line.strip()
        if not flat or flat.startswith(("use ", "pub use ", "module ", "pub mod ", "mod ", "unfolding ")):
            continue
        depth = len(line) - len(line.lstrip())
        opened = re.match(OPENER, flat + " ")
        declares = opened and (opened[1] or re.match(r"(abbrev|unfoldable|opaque|private|pub)\s", flat))
        member = kind and depth > 0 and re.match(r"(?:pub\s+)?(" + WORD + r")\s+:\s", flat)
        if declares and not member:
            name, kind = opened[2], opened[1] or ""
            blocks.setdefault(name, [])
            owner[name] = name
        elif member:
            owner[member[1]] = name
        elif depth == 0:
            kind = ""
            begun = re.match(r"(" + WORD + r")\s", flat + " ")
            name = begun[1] if begun and begun[1] in blocks else name
        if name:
            blocks[name] += re.findall(WORD, flat)
    return {member: blocks[of] for member, of in owner.items()}, owner


def resolve(words, names, modules, local):
    for word in words:
        if word in local:
            yield None, word
        elif word in names:
            yield names[word][:2], names[word][2]
        elif "." in word:
            module, _, name = word.partition(".")
            if module in modules:
                yield modules[module], name.split(".")[0]
            elif module in local:  # a field of what is defined
                yield None, module
            elif module in names:
                yield names[module][:2], names[module][2]


def closing(text, at):
    """The place behind the brace that closes the one that stands before `at`."""
    depth = 1
    while depth:
        depth += {"{": 1, "}": -1}.get(text[at], 0)
        at += 1
    return at


def ensured(text, at):
    """The words of the ensures of the function whose name ends at `at`."""
    words = []
    while True:
        start = re.compile(r"\bensures(?: \w+)? \{|\{\n|\{\}|;\n").search(text, at)
        if not start or not start.group().startswith("ensures"):
            return words
        at = closing(text, start.end())
        words += re.findall(WORD, text[start.end():at - 1])


def blocks_of(text):
    """Each public type and trait, and each impl of a trait for one, with the text between its braces. A type from another file is public."""
    for found in re.finditer(r"^(?:impl\b[^{]*? for (?:&(?:'\w+ )?(?:mut )?)?|pub (?:struct|enum|trait) )(\w+)[^{;]*\{", text, flags=re.M):
        if not re.search(rf"^\s*(?:struct|enum|type|trait) {found[1]}\b", text, flags=re.M):
            yield found[1], text[found.end():closing(text, found.end()) - 1]


def contracts(text):
    """Each public promise, by its function or by type and member, with its words."""
    text = re.sub(r"//.*", "", text)
    promises = [(found[1], ensured(text, found.end())) for found in re.finditer(r"\bpub (?:extern \"C\" )?fn (\w+)", text)]
    for name, body in blocks_of(text):
        for found in re.finditer(r"\bghost (\w+)(?: =|:) \{", body):
            promises.append((f"{name}::{found[1]}", re.findall(WORD, body[found.end():closing(body, found.end()) - 1])))
        promises += [(f"{name}::{found[1]}", ensured(body, found.end())) for found in re.finditer(r"\bfn (\w+)", body)]
    return [(by, words) for by, words in promises if words]


def needed(specs):
    """(crate, file) -> {definition: the first public function or member that rests on it}."""
    known = {place: (*definitions(text), *uses(text)) for place, text in specs.items()}
    reached = {}
    for path in sorted((ROOT / "crates").glob("*/src/lib.rt")):
        crate = path.parts[-3]
        text = path.read_text()
        names, modules = uses(text, rust=True)
        for function, words in contracts(text):
            todo = list(resolve(words, names, modules, ()))
            while todo:
                place, name = todo.pop()
                blocks, owner, its_names, its_modules = known[place]
                while name not in owner and name in its_names:  # passed on by `pub use`
                    *place, name = its_names[name]
                    place = tuple(place)
                    blocks, owner, its_names, its_modules = known[place]
                if name not in owner:
                    raise SystemExit(f"{crate}::{function}: no definition {name} in {'/'.join(place)}")
                name = owner[name]
                if name in reached.setdefault(place, {}):
                    continue
                reached[place][name] = f"{crate}::{function}"
                todo += [(where or place, other) for where, other in resolve(blocks[name], its_names, its_modules, owner)]
    return reached


def listed(specs):
    text = (ROOT / PAGE).read_text().split(HEAD)[1].split("\n## ")[0]
    files = {tuple(found) for found in re.findall(r"`crates/(\w+)/specs/(\w+)\.antt`", text)}
    return files | {place for place in specs if place[0] == "options"}


def main():
    specs = {(path.parts[-3], path.stem): path.read_text() for path in (ROOT / "crates").glob("*/specs/*.antt") if path.stem != "Lib"}
    need, have = needed(specs), listed(specs)
    if sys.argv[1:] == ["why"]:
        for place in sorted(need):
            print("/".join(place) + ": " + ", ".join(f"{name} ({by})" for name, by in need[place].items()))
    missing = sorted(set(need) - have)
    needless = sorted(place for place in have - set(need) if place[0] != "options")
    for crate, name in missing:
        by = ", ".join(f"{of} ({function})" for of, function in need[crate, name].items())
        print(f"missing: crates/{crate}/specs/{name}.antt, for {by}")
    for crate, name in needless:
        print(f"needless: crates/{crate}/specs/{name}.antt")
    print(f"{len(need)} files, {len(missing)} missing, {len(needless)} needless")
    return 1 if missing or needless else 0


sys.exit(main())
