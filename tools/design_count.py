#!/usr/bin/env python3
"""Counts the places of docs/DESIGN-PASS.md in crates/*/src, point by point: `tools/design_count.py [-v] [TOP]`; -v names each place."""
import collections
import difflib
import pathlib
import re
import sys

args = [a for a in sys.argv[1:] if a != "-v"]
verbose = "-v" in sys.argv
top = pathlib.Path(args[0] if args else ".")
files = sorted(p for p in top.glob("crates/*/src/*.rt") if not p.parts[-3].endswith("_c"))
lines = [(f"{p.parts[-3]}/{p.name}:{i}", line) for p in files for i, line in enumerate(p.read_text().split("\n"), 1)]
code = [(at, line) for at, line in lines if not line.lstrip().startswith("//") and "ghost use" not in line]


def show(title, found):
    print(f"{len(found):5}  {title}")
    if verbose:
        for at in found:
            print(f"         {at}")


def grep(title, pattern, but=None):
    show(title, [f"{at} {line.strip()}" for at, line in code if re.search(pattern, line) and not (but and re.search(but, line))])


def functions():
    """(place, name, parameters, clauses, body) of each function."""
    for p in files:
        text = p.read_text()
        for m in re.finditer(r"^( *)(?:pub )?(?:extern \"C\" )?fn (\w+)[^(]*\((.*?)\)(?: ->[^{]*?)?((?:\n\s+(?:requires|ensures)[^\n]*)*)\s*\{(.*?)^\1\}", text, re.M | re.S):
            yield f"{p.parts[-3]}/{p.name}:{text[:m.start()].count(chr(10)) + 1}", m[2], " ".join(m[3].split()), m[4], m[5]


def shape(body):
    """The body's words, with names and numbers as one word each."""
    body = re.sub(r"//[^\n]*", "", body)
    words = re.findall(r"[A-Za-z_]\w*|\d\w*|\S", body)
    keep = {"if", "else", "while", "loop", "return", "match", "let", "mut", "for", "in", "break"}
    return [w if w in keep or not re.match(r"\w", w) else ("n" if w[0].isdigit() else "x") for w in words]


every = list(functions())
print("1. Option, Result, numbers")
grep("cases of own enums that say none, done or refused", r"^\s+(Refused|Bad|Absent|Done|Stop|End|Cut|Passed|Broken|Faulty|Unknown)\b[^=]*,?$", r"=>|return|::")
grep("flags that say whether there is a value", r"^\s+(pub )?(given|there|any|past|done|watched|one): bool,")
grep("fields for a number of a refusal, outside the C structs", r"^\s+(pub )?number: u(8|32),")
grep("refusals built from a number", r"(number|refusal): \d+,|(refused|faulty|of_refusal)\(\d|return (3|4|8|9|10|13|7);|Refused \{")
grep("tests of a number against 0 for none", r"(number|fault|stop|start|at|t|f\.size|entry|index|row|[a-z]\.(number|at|start|end)|relay|three|over|plan) (==|!=) 0\b")
grep("results that are a number for a kind, a rule or none", r"fn (\w*(fault|kind|row|stage|stop|unfit|number|rule|fits52|broken|after|place|at|end|outermost|plan)\w*)\(.*-> (u8|u32|usize)\b")
grep("constants that number kinds or rules", r"^(pub )?const [A-Z_0-9]+: u8 =")
print("2. Twins")
shapes = [(at, name, shape(body)) for at, name, _, _, body in every]
shapes = [(at, name, s) for at, name, s in shapes if len(s) >= 25]
twins = []
for i, (at, name, s) in enumerate(shapes):
    for at2, name2, s2 in shapes[i + 1:]:
        if max(len(s), len(s2)) <= 1.2 * min(len(s), len(s2)) and difflib.SequenceMatcher(None, s, s2, False).ratio() >= 0.92:
            twins.append(f"{at} {name} ~ {at2} {name2}")
show("pairs of functions of one shape (at least 25 words, 92 of 100 alike)", twins)
print("3. Loops")
grep("loops by `while` and `loop`", r"^\s*(while|loop)\b")
grep("of them with an index that is counted by hand", r"^\s*while .*(<|>|!=|<=) ")
grep("loops by `for`", r"^\s*for .* in ")
print("4. By hand")
grep("lower, higher, least and the like", r"fn (least|lower|higher|further_of|max|min)\(")
grep("conversions by a function that only casts", r"fn (wide|byte32|from_unsigned|from_signed|pair|word|be16|be32|signed|plain|of_choice|of_answer|of_extent|progress_of|plain_with|of_content|whole_of|several_of)\(")
grep("casts by `as`", r" as (u8|u16|u32|u64|usize|i32|i64)\b", r"ghost|use ")
grep("types that derive Clone and Copy alone", r"^#\[derive\(Clone, Copy\)\]$")
print("5. Facts and parameters that travel together")
groups = collections.Counter()
where = collections.defaultdict(list)
for at, name, params, _, _ in every:
    ps = [q.strip() for q in re.split(r",(?![^<\[(]*[>\])])", params) if ":" in q]
    for k in range(len(ps) - 2):
        groups[tuple(ps[k:k + 3])] += 1
        where[tuple(ps[k:k + 3])].append(f"{at} {name}")
show("runs of three parameters that three or more functions have", [f"{', '.join(g)}: {n}" for g, n in sorted(groups.items(), key=lambda x: -x[1]) if n >= 3])
facts = collections.Counter()
for at, name, _, clauses, _ in every:
    for c in re.findall(r"requires[^{]*\{(.*)\}", clauses):
        for f in set(x.strip(" ()") for x in c.split("×")):
            facts[at.split("/")[0], f] += 1
show("facts that three or more functions of a crate require", [f"{c}: {f}: {n}" for (c, f), n in sorted(facts.items(), key=lambda x: -x[1]) if n >= 3])
print("6. Buffers and lengths")
grep("buffers with a place beside them", r"out: &mut \[u8\], (at|o): usize|at: usize, out: &mut \[u8\]")
grep("arrays side by side", r"(held|bytes|sums): &mut \[u64")
print("7. Steps by number")
grep("switches on a number of a step, a field or a call", r"\b(turn|stage|call|p\.stage|c\.call|plan|permission|bare|status) == \d")
print("8. Proofs")
proofs = sorted(top.glob("crates/*/proofs/**/*.antt"))
texts = [p.read_text() for p in proofs]
print(f"{len(proofs):5}  files, {sum(t.count(chr(10)) for t in texts)} lines")
print(f"{sum(len(re.findall('[a-z]₁ :', t)) for t in texts):5}  terms written into an answer by `let x₁`")
print(f"{sum(len(re.findall('shared_slice_known|in_default-own|struct_known|array_known', t)) for t in texts):5}  names of the checker's own")
