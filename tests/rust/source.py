#!/usr/bin/env python3
"""rust/make: nothing was changed but what CHANGES lists, each edit is of a kind that rust/README.md names, and what is not understood is refused.

The patterns here are written anew: none is that of rust/make.
"""
import contextlib
import importlib.machinery
import importlib.util
import io
import json
import os
import re
import tempfile

os.chdir(os.path.join(os.path.dirname(os.path.abspath(__file__)), "..", ".."))
HERE = os.getcwd()
CLAUSE = r"\n    (?:    )?(?:requires|ensures)(?: \w+)? \{ [^\n]*\}"
MEMBER = re.compile(r"    ghost \w+(?: =|:) \{[^;\"]*\};\n\n?")
PROOF = r' *#\[(?:tactic|cycle)\([^\]"]*\)\]\n'
PROVED = re.compile(r"\n?(?://[^\n]*\n)*(?:" + PROOF + r")?pub fn proved\(\)(?:" + CLAUSE + r")+\n\{\}\n")


def bound(pattern):
    """The names that a pattern `Path { field, field: name }` or `Path(name)` binds."""
    inner = re.fullmatch(r"[\w:]+\s*[{(](.*)[})]", pattern, re.S).group(1)
    return [part.split(":")[-1].strip() for part in inner.split(",") if part.strip()]


def turned(off, added):
    match = re.fullmatch(r"let ([\w:]+ ?[{(][^=]*[})]) = ([^{}]*?)\s+else (\{.*\});", off, re.S)
    if not match:
        return False
    pattern, value, other = match.groups()
    names = bound(pattern)
    given = names[0] if len(names) == 1 else "(" + ", ".join(names) + ")"
    return added == f"let {given} = match {value} {{ {pattern} => {given}, _ => {other} }};"


def allowed(rule, off, added, before, after, crates):
    """Whether an edit is of its kind: what is taken off, what is added, and what stands before and after in the source."""
    starts = before == "" or before.endswith("\n")
    if rule == "ghost":
        member = (MEMBER.fullmatch(off) or re.fullmatch(r"    ghost use [^;\n]+;\n\n?", off)) and off.count("{") == off.count("}") and re.match(r" {4}\S|\}", after)
        return starts and added == "" and (member or re.fullmatch(r"ghost use [^;\n]+;\n", off))
    if rule == "drop":
        line = before[before.rfind("\n") + 1:] + off + after[:after.find("\n")]
        alone = off == "#[derive(Drop)]\n" and starts
        return added == "" and (alone or (off in (", Drop", "Drop, ") and re.fullmatch(r"#\[derive\([A-Za-z, ]+\)\]", line)))
    if rule == "clause":
        balanced = off.count("{") == off.count("}")
        return balanced and added == "" and re.fullmatch(CLAUSE, off) and re.match(r"\n *(\{|(requires|ensures) )", after)
    if rule == "proof":
        head = re.fullmatch(r"#!\[tactic\(auto\)\]\n(\n?)", off)
        if head:
            return added == "" and re.fullmatch(r"(//[^\n]*\n)*", before) and (not head.group(1) or after.startswith("ghost use "))
        return starts and added == "" and re.fullmatch(PROOF, off) and re.match(r"(#\[|pub |fn )", after)
    if rule == "no_mangle":
        return starts and added == "" and off == "#[unsafe(no_mangle)]\n" and after.startswith('pub extern "C" fn ')
    if rule == "extern":
        return added == "" and off == 'extern "C" ' and before.endswith("\npub ") and after.startswith("fn ")
    if rule == "proved":
        return added == "" and PROVED.fullmatch(off)
    if rule == "doc":
        if before == "//" or all(line.startswith("//") for line in before.split("\n")):
            return off == "" and added == "!"
        rest = after.split("\n")
        below = next(line for line in rest[1:] if not line.startswith("//"))
        return off == "" and added == "/" and before.endswith("\n//") and re.match(r"(#\[|pub |fn |struct |enum |const |trait )", below)
    if rule == "use":
        names = re.fullmatch(r"(?:use super::\{([a-z_, ]+)\};\n)?(?:use super::std::[A-Za-z]+;\n)*", added)
        return starts and off == "" and added and names and (not names.group(1) or set(names.group(1).split(", ")) <= crates | {"std"})
    return rule == "let_else" and turned(off, added)


def offset(text, line, column):
    at = 0
    for _ in range(line - 1):
        at = text.index("\n", at) + 1
    return at + column - 1


def taken_back(made, edits, source, crates):
    """The made file with each edit taken back; the source is looked at only to hold each edit to its kind."""
    text, at = "", 0
    for line, column, rule, off, added in edits:
        while (text.count("\n") + 1, len(text) - text.rfind("\n")) != (line, column):
            text += made[at]
            at += 1
        if made[at:at + len(added)] != added:
            raise SystemExit(f"failed: {line}:{column}: {added!r} is not there")
        place = offset(source, line, column)
        if not allowed(rule, off, added, source[:place], source[place + len(off):], crates):
            raise SystemExit(f"failed: {line}:{column}: an edit of no kind: {rule} {off!r} {added!r}")
        at += len(added)
        text += off
    return text + made[at:]


def check_changes(out):
    crates = {line.split(":")[0] for line in open("crates.txt", encoding="utf-8") if line[0] not in "#\n"}
    files, edits = [], {}
    for line in open(f"{out}/CHANGES", encoding="utf-8"):
        head = re.fullmatch(r"(\S+) -> (\S+)\n", line)
        edit = re.fullmatch(r"    (\d+):(\d+) (\w+) - (\".*\") \+ (\".*\")\n", line)
        if head:
            files.append(head.groups())
        elif edit:
            row, column, rule, off, added = edit.groups()
            edits.setdefault(files[-1], []).append((int(row), int(column), rule, json.loads(off), json.loads(added)))
        elif line[0] not in "#\n":
            raise SystemExit(f"failed: CHANGES: {line}")
    for pair in files:
        source, made = [open(p, encoding="utf-8", newline="").read() for p in (pair[0], f"{out}/{pair[1]}")]
        if taken_back(made, edits[pair], source, crates) != source:
            raise SystemExit(f"failed: {pair[1]} without its edits is not {pair[0]}")
        if re.search(r"\b(unsafe|ghost|requires|ensures|extern|no_mangle)\b", re.sub(r"//[^\n]*", "", made)):
            raise SystemExit(f"failed: {pair[1]} has a word that is to be taken off")
    there = set(os.listdir(f"{out}/dhcpopt/src/proved")) - {"mod.rs", "std.rs"}
    if there != {os.path.basename(p[1]) for p in files}:
        raise SystemExit("failed: a file of the crate is not in CHANGES")
    return len(files), sum(len(e) for e in edits.values())


# A small project: LEAF is the text of a crate's file, from its third line on.
HEAD = "// A leaf.\n#![tactic(auto)]\n\nghost use Rattle.x.specs.X.{y};\n"
CALL = '// Calls it.\n#[unsafe(no_mangle)]\npub extern "C" fn dhcpopt_one(m: &[u8], k: u64) -> usize\n    ensures { result ≡ 1 }\n{\n    leaf::f(m)\n}\n'
GOOD = """// One.
#[derive(Clone, Copy)]
pub struct S<'a> {
    pub list: &'a [u8],
}

#[repr(C)]
#[derive(Clone, Copy)]
struct P {
    x: u64,
}

// How many.
#[derive(Clone, Copy)]
pub enum E {
    A,
    B { n: usize, k: u8 },
}

fn e(n: usize) -> E
{
    E::A
}

// Nothing.
#[tactic(auto, using(x))]
pub fn proved()
    ensures { T { x } }
{}

#[cycle(g_h)]
fn g(n: usize)
    requires { X }
    ensures { Y }
{
    return;
}

// A rule.
#[derive(Clone, Copy, Debug, PartialEq, Eq, Drop)]
enum Rule {
    First = 1,
    Last = 26,
}

#[derive(Drop)]
struct Bytes<'a>(&'a [u8]);

impl Rule {
    // Its number.
    fn number(self) -> u32
        ensures { result ≡ number_of self }
    {
        self as u32
    }
}

impl From<Rule> for u64 {
    ghost from_gives = { λ r n. n ≡ record { a = number_of r } };

    fn from(rule: Rule) -> u64 {
        u64::from(rule.number())
    }
}

impl<'a> Iterator for Bytes<'a> {
    type Item = &'a u8;

    ghost next_gives = { YieldsFirst
        (λ s. s.0.now) };

    ghost remaining = { item_count (λ s. s.0.now) };

    #[tactic(none)]
    fn next(&mut self) -> Option<&'a u8> {
        let (first, others) = self.0.split_first()?;
        self.0 = others;
        Some(first)
    }
}

// Of a size that is known.
fn small<const N: usize, const END: bool>(a: [u8; N], b: &[u8]) -> Result<usize, Rule>
    ensures { x }
{
    if let Some(i) = b.iter().rposition(|x| *x != 0) {
        return Ok(i);
    }
    match b.first() {
        Some(0..=9) if END => Err(Rule::First),
        _ => Ok(small::<N, false>(a, b)?),
    }
}

// The first.
#[tactic(auto, using(one, two_of), unfolding(three))]
pub fn f(m: &[u8]) -> usize
    ensures here { result ≡ record { a = 1 } }
    ensures n2 { result ≤ 1 }
{
    let E::B { n, k: z } = e(3) else {
        return 1; };
    let mut x = std::num::wrapping_add_u64(1, 2);
    n
}
"""
WANTED = """//! A leaf.
use super::{std};
/// One.
#[derive(Clone, Copy)]
pub struct S<'a> {
    pub list: &'a [u8],
}

#[repr(C)]
#[derive(Clone, Copy)]
struct P {
    x: u64,
}

/// How many.
#[derive(Clone, Copy)]
pub enum E {
    A,
    B { n: usize, k: u8 },
}

fn e(n: usize) -> E
{
    E::A
}

fn g(n: usize)
{
    return;
}

/// A rule.
#[derive(Clone, Copy, Debug, PartialEq, Eq)]
enum Rule {
    First = 1,
    Last = 26,
}

struct Bytes<'a>(&'a [u8]);

impl Rule {
    // Its number.
    fn number(self) -> u32
    {
        self as u32
    }
}

impl From<Rule> for u64 {
    fn from(rule: Rule) -> u64 {
        u64::from(rule.number())
    }
}

impl<'a> Iterator for Bytes<'a> {
    type Item = &'a u8;

    fn next(&mut self) -> Option<&'a u8> {
        let (first, others) = self.0.split_first()?;
        self.0 = others;
        Some(first)
    }
}

/// Of a size that is known.
fn small<const N: usize, const END: bool>(a: [u8; N], b: &[u8]) -> Result<usize, Rule>
{
    if let Some(i) = b.iter().rposition(|x| *x != 0) {
        return Ok(i);
    }
    match b.first() {
        Some(0..=9) if END => Err(Rule::First),
        _ => Ok(small::<N, false>(a, b)?),
    }
}

/// The first.
pub fn f(m: &[u8]) -> usize
{
    let (n, z) = match e(3) { E::B { n, k: z } => (n, z), _ => {
        return 1; } };
    let mut x = std::num::wrapping_add_u64(1, 2);
    n
}
"""
F = "pub fn f(m: &[u8]) -> usize\n{\n    "
# What is refused: the text, and the line of the fault, counted in the text; 0 stands for the file as a whole.
REFUSED = [
    (F + "println!();\n    1\n}\n", 3), (F + "unsafe { 1 }\n}\n", 3), ("static X: u8 = 1;\n", 1), ("pub fn f<T>(m: T) -> usize\n    where T: Copy\n{\n    1\n}\n", 2),
    ("impl S {}\n", 1), ("trait T where Self: Copy {}\n", 1), ("impl E {\n    #[inline]\n    fn g() {}\n}\n", 2), ("impl E {\n    static X: u8 = 1;\n}\n", 2), ("mod x;\n", 1), ("type T = u8;\n", 1), ("ghost let x = 1;\n", 1), ("ghost fn g() {}\n", 1),
    (F + "ghost use x.{y};\n    1\n}\n", 3), ("  ghost use x.{y};\n", 1), ("/* a */\n", 1), ("/// a\n", 1), (F + "m.to_vec()\n}\n", 3), (F + "m.len().pow(3)\n}\n", 3), ("fn g<T: Drop>(x: T) {}\n", 1), ("fn g<const N: E>() {}\n", 1), ("fn g<T = u8>() {}\n", 1),
    ("impl E {\n    ghost x = { a };    fn g() {}\n}\n", 2), ("impl E {\n    ghost x = { a \"}\" };\n}\n", 2), ("impl E {\n    ghost x = a;\n}\n", 2), ("impl E {\n    pub fn g(self)\n        requires { a }\n    {}\n}\n", 2),
    (F + "if let E::A = e() {\n    }\n    1\n}\n", 3), (F + "match 1 {\n        0..3 => 2,\n        _ => 3,\n    }\n}\n", 4),
    (F + "match 1 {\n        0..=x => 2,\n        _ => 3,\n    }\n}\n", 4), ("#[cold]\nfn g() {}\n", 1), ("#[derive(Serialize)]\nstruct S {}\n", 1),
    (F + "std::mem::size()\n}\n", 3), (F + "other::g()\n}\n", 3), (F + "Unknown { a: 1 };\n    1\n}\n", 3), ("fn g(x: Unknown) {}\n", 1),
    (F + "match 1 {\n        ELSEWHERE => 2,\n        _ => 3,\n    }\n}\n", 4), (F + "fn g() {}\n    1\n}\n", 3), (F + "'a: loop {}\n}\n", 3),
    (F + "let x = 'a';\n    1\n}\n", 3), (F + 'let x = "a";\n    1\n}\n', 3), (F + "let x = 1.5;\n    1\n}\n", 3), ("\tfn g() {}\n", 1), (F + "λ\n}\n", 3),
    ("pub fn proved()\n    ensures { x }\n{ f(); }\n", 1), ("pub fn proved(x: u8)\n    ensures { x }\n{}\n", 1), ("pub fn proved()\n{}\n", 1),
    ('pub extern "C" fn g() {}\n', 1), ('#[unsafe(no_mangle)]\npub fn g() {}\n', 0), ('pub extern "Rust" fn g() {}\n', 1), (F + "1 as bool\n}\n", 3),
    (F + "let E::A = e();\n    1\n}\n", 3), (F + "let g = async |x| x;\n    1\n}\n", 3), ("use leaf::{A, B};\n", 1), ("use elsewhere::A;\n", 1),
    ("use std::{A as B};\n", 1), ("use std::*;\n", 1), ("use std::A::B;\n", 1), ("#[derive(Clone, Display)]\nstruct S {}\n", 1), ("#[unsafe(naked)]\nfn g() {}\n", 1),
    ("#[no_mangle ]\nfn g() {}\n", 0), ("#[tactic(auto)] fn g() {}\n", 1), ("#[tactic(auto)]\nstruct S {}\n", 1), ("fn g() {}\n#![tactic(auto)]\n", 2),
    ("#![no_std]\n", 1), ("#![tactic(auto)]\n", 1), ("#![tactic(grind)]\n", 1), ("#[cycle(\"x\")]\nfn g() {}\n", 1), ("#[repr(C)]\n#[derive(Clone, Copy)]\nenum E {}\n", 1),
    ("fn g()\n    requires { a \"}\" }\n{}\n", 2), ("fn g()\n    requires { a -- }\n }\n{}\n", 2), ("fn g()\n    requires { {- } -} }\n{}\n", 2), ("fn g()\n    requires { a\n{}\n", 2),
    ("fn g() requires { a }\n{}\n", 1), ("fn g()\n    decreases { a }\n{}\n", 2), ("fn g()\n    ensures { a } {}\n", 2), (F + "loop {\n        break 1;\n    }\n}\n", 4),
    ("#[repr(C)]\nstruct S(u8);\n", 2), (F + "u64::pow(2, 3);\n    1\n}\n", 3), (F + "x.await\n}\n", 3), ("pub(crate) fn g() {}\n", 1), ("async fn g() {}\n", 1), ("const fn g() {}\n", 1),
    (F + "let x = &&m;\n    1\n}\n", 3), (F + "S { ..s };\n    1\n}\n", 3), (F + "let x;\n    1\n}\n", 3), (F + "f(m)(1)\n}\n", 3), (F + "self.x\n}\n", 3), ("fn g(x: str) {}\n", 1),
    ("fn g(x: Vec<u8>) {}\n", 1), (F + "let r = r#\"x\"#;\n    1\n}\n", 3), (F + "while let E::A = e() {}\n    1\n}\n", 3), (F + "1u128 as usize\n}\n", 3), ("fn g()", 1),
]


def project(folder, leaf):
    def write(path, text):
        path = os.path.join(folder, path)
        os.makedirs(os.path.dirname(path), exist_ok=True)
        with open(path, "w", encoding="utf-8", newline="") as file:
            file.write(text)

    write("crates.txt", "# leaf\nleaf:\ndhcpopt_all: leaf\ndhcpopt_all_c staticlib: leaf dhcpopt_all\n")
    write("crates/leaf/src/lib.rt", HEAD + leaf)
    write("crates/dhcpopt_all/src/lib.rt", CALL)
    write("rust/face", "f leaf::f dhcpopt_one\n")
    write("rust/dhcpopt-c/lib.rs", "")
    write("include/dhcpopt.h", "#define DHCPOPT_VERSION_MAJOR 1\n#define DHCPOPT_VERSION_MINOR 2\n")
    return run(["--project", folder])


def run(words):
    """What rust/make prints, and what it refuses, if it does."""
    printed = io.StringIO()
    try:
        with contextlib.redirect_stdout(printed):
            make.main(words)
    except make.Refused as refused:
        return printed.getvalue(), str(refused)
    finally:
        os.chdir(HERE)
    return printed.getvalue(), ""


def check_small(folder):
    refused = project(folder, GOOD)[1]
    made = refused or open(f"{folder}/target/rust/dhcpopt/src/proved/leaf.rs", encoding="utf-8").read()
    if made != WANTED:
        raise SystemExit(f"failed: the small project became\n{made}")
    over = open(f"{folder}/target/rust/dhcpopt-c/src/calls.rs", encoding="utf-8").read()
    if 'fn dhcpopt_one(m: *const u8, m_count: usize, k: u64) -> usize {' not in over or "calls::dhcpopt_one(unsafe { given(m, m_count) }, k)" not in over:
        raise SystemExit(f"failed: the call became\n{over}")
    refused = project(folder, GOOD.replace("    ensures here", "    requires { a }\n    ensures here"))[1]
    if not refused.startswith("rust/face:1: leaf::f has a `requires`"):
        raise SystemExit(f"failed: a public function with a `requires` was taken: {refused}")
    for text, line in REFUSED:
        refused = project(folder, text)[1]
        wanted = f"crates/leaf/src/lib.rt:{line + HEAD.count(chr(10)) if line else 1}: "
        if not refused.startswith(wanted):
            raise SystemExit(f"failed: {wanted}is expected of\n{text}and this came:\n{refused or 'it was taken'}")


def check_finds(out):
    """A byte of the made file that is not the source's is found, and so is an edit of no kind."""
    source, made = [open(p, encoding="utf-8", newline="").read() for p in ("crates/num/src/lib.rt", f"{out}/dhcpopt/src/proved/num.rs")]
    lines = open(f"{out}/CHANGES", encoding="utf-8").read().split("crates/num/src/lib.rt ->")[1].split("\n\n")[0].split("\n")[1:]
    edits = [(int(r), int(c), rule, json.loads(off), json.loads(on)) for r, c, rule, off, on in
             (re.fullmatch(r"    (\d+):(\d+) (\w+) - (\".*\") \+ (\".*\")", line).groups() for line in lines)]
    crates = {"num"}
    if taken_back(made, edits, source, crates) != source or taken_back(made.replace("from_be_bytes", "from_le_bytes", 1), edits, source, crates) == source:
        raise SystemExit("failed: a changed byte is not found")
    body = "    usize::from(x)\n"
    for rule in ("ghost", "clause", "no_mangle", "extern", "proved", "proof", "doc", "use", "let_else", "drop"):
        at = source.index(body)
        if allowed(rule, body, "", source[:at], source[at + len(body):], crates) or allowed(rule, "", body, source[:at], source[at:], crates):
            raise SystemExit(f"failed: code that is taken off or added passes as {rule}")


def main():
    made, refused = run([])
    if refused:
        raise SystemExit("failed: " + refused)
    print(made, end="")
    files, edits = check_changes("target/rust")
    check_finds("target/rust")
    with tempfile.TemporaryDirectory() as folder:
        check_small(folder)
    print(f"{files} files without their {edits} edits are the source; {len(REFUSED)} texts that are not understood are refused, with file and line")


loader = importlib.machinery.SourceFileLoader("make", "rust/make")
make = importlib.util.module_from_spec(importlib.util.spec_from_loader("make", loader))
loader.exec_module(make)
main()
