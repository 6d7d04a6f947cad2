#!/usr/bin/env python3
"""usage: cases.py FOLDER: writes record.c and replay.c there, two halves of a comparison on two machines.

record.c has each call under its name. It passes the call on to the one of the archives (under the name real_*), and writes what was given and
what was answered to the descriptor 3. replay.c reads that, on any machine, makes each call anew and compares each member of the
answer, and every byte of what was lent, with 16 bytes before and after. Calls and structs are those of the source, by rust/make's parser.
"""
import importlib.machinery
import importlib.util
import os
import sys

C = {"u8": "uint8_t", "u16": "uint16_t", "u32": "uint32_t", "u64": "uint64_t", "usize": "size_t", "i32": "int32_t", "i64": "int64_t"}
SIZE = {"u8": 1, "u16": 2, "u64": 8}

COMMON = r"""#include <stddef.h>
#include <stdint.h>
#include <stdio.h>
#include <stdlib.h>
#include <string.h>
"""

RECORD = r"""
#include <unistd.h>
static FILE *out;
static uint64_t calls, most;
static uint8_t *seen[8];
static size_t seen_size[8];
static void begin(int id)
{
    if (!out) {
        const char *n = getenv("RECORD_CALLS");
        most = n ? strtoull(n, NULL, 10) : 1000;
        out = fdopen(3, "wb");
        if (!out)
            abort();
    }
    if (calls++ == most) {
        fputc(255, out);
        fclose(out);
        _exit(0);
    }
    fputc(id, out);
}
/* This machine has the low byte first, as the file has. */
static void number(uint64_t x) { fwrite(&x, 1, 8, out); }
static void count(uint32_t x) { fwrite(&x, 1, 4, out); }
/* What was given at this place of a call before is not written again. */
static void given(int slot, const void *p, size_t n, size_t size)
{
    size_t bytes = n * size;
    int same = seen[slot] && seen_size[slot] == bytes && memcmp(seen[slot], p, bytes) == 0;
    count((uint32_t)n | (same ? 0x80000000u : 0));
    if (same)
        return;
    fwrite(p, 1, bytes, out);
    free(seen[slot]);
    seen[slot] = malloc(bytes + 1);
    seen_size[slot] = bytes;
    memcpy(seen[slot], p, bytes);
}
static void *lent(const void *p, size_t n, size_t size)
{
    void *kept = malloc(n * size + 1);
    count((uint32_t)n);
    fwrite(p, 1, n * size, out);
    memcpy(kept, p, n * size);
    return kept;
}
static void after(void *kept, const void *p, size_t bytes)
{
    int changed = memcmp(kept, p, bytes) != 0;
    fputc(changed, out);
    if (changed)
        fwrite(p, 1, bytes, out);
    free(kept);
}
"""

REPLAY = r"""
static uint64_t replayed, differences, left_out, too_big, now_differs;
enum { EDGE = 16 };
typedef struct { uint8_t *whole; void *first; size_t count, size; } part;
static part seen[8];
static uint8_t buffer[65536];
static size_t filled, used;
static int byte(void)
{
    if (used == filled) {
        used = 0;
        filled = fread(buffer, 1, sizeof buffer, stdin);
        if (filled == 0) {
            printf("the cases end too early\n");
            exit(2);
        }
    }
    return buffer[used++];
}
/* As many bytes, where they come at once. */
static void bytes(uint8_t *to, size_t n)
{
    while (n > 0) {
        *to++ = (uint8_t)byte();
        n--;
        size_t m = filled - used < n ? filled - used : n;
        memcpy(to, buffer + used, m);
        used += m;
        to += m;
        n -= m;
    }
}
static uint64_t bits(int bytes)
{
    uint64_t x = 0;
    for (int i = 0; i < bytes; i++)
        x |= (uint64_t)byte() << (8 * i);
    return x;
}
static uint64_t number(void) { return bits(8); }
static size_t place(void)
{
    uint64_t x = number();
    too_big |= x > SIZE_MAX;
    return (size_t)x;
}
static void put(part p, size_t i, uint64_t x)
{
    if (p.size == 1)
        ((uint8_t *)p.first)[i] = (uint8_t)x;
    else if (p.size == 2)
        ((uint16_t *)p.first)[i] = (uint16_t)x;
    else
        ((uint64_t *)p.first)[i] = x;
}
static part fresh(size_t count, size_t size)
{
    part p = {malloc(count * size + 2 * EDGE), NULL, count, size};
    if (!p.whole)
        abort();
    p.first = p.whole + EDGE;
    memset(p.whole, 0xA5, EDGE);
    memset(p.whole + EDGE + count * size, 0xA5, EDGE);
    if (size == 1)
        bytes(p.first, count);
    else
        for (size_t i = 0; i < count; i++)
            put(p, i, bits((int)size));
    return p;
}
static void *given(int slot, size_t size)
{
    uint32_t n = (uint32_t)bits(4);
    if (!(n & 0x80000000u)) {
        free(seen[slot].whole);
        seen[slot] = fresh(n, size);
    }
    return seen[slot].first;
}
static void edges(part p)
{
    for (size_t i = 0; i < EDGE; i++)
        now_differs |= p.whole[i] != 0xA5 || p.whole[EDGE + p.count * p.size + i] != 0xA5;
}
static part lent(size_t size) { return fresh((uint32_t)bits(4), size); }
static part copy(part p)
{
    part q = {malloc(p.count * p.size + 1), NULL, p.count, p.size};
    q.first = q.whole;
    memcpy(q.first, p.first, p.count * p.size);
    return q;
}
static void after(part p, part before)
{
    if (byte()) { /* changed: what it is to be takes the place of what it was */
        for (size_t i = 0; p.size > 1 && i < p.count; i++)
            put(before, i, bits((int)p.size));
        if (p.size == 1)
            bytes(before.first, p.count);
    }
    now_differs |= memcmp(p.first, before.first, p.count * p.size) != 0;
    edges(p);
    free(p.whole);
    free(before.whole);
}
static void same(uint64_t got, const char *what)
{
    uint64_t wanted = number();
    if (got != wanted && !too_big && differences < 20)
        printf("%s: %llu, and not %llu\n", what, (unsigned long long)got, (unsigned long long)wanted);
    now_differs |= got != wanted;
}
static void end(const char *call)
{
    if (too_big)
        left_out++;
    else
        replayed++;
    if (!too_big && now_differs && differences++ < 20)
        printf("%s differs, call %llu\n", call, (unsigned long long)replayed);
    too_big = now_differs = 0;
}
"""


def load():
    loader = importlib.machinery.SourceFileLoader("make", os.path.join(os.path.dirname(os.path.abspath(__file__)), "..", "..", "rust", "make"))
    make = importlib.util.module_from_spec(importlib.util.spec_from_loader("make", loader))
    loader.exec_module(make)
    return make


class Calls:
    def __init__(self, project):
        make = load()
        self.modules = make.read_modules(project, make.read_crates(project))
        for module in self.modules.values():
            for function in module.parser.functions.values():
                function.parameters = [("p_" + name, one) for name, one in function.parameters]
        self.list = sorted((f.name, m.name, f) for m in self.modules.values() for f in m.parser.functions.values() if f.call)

    def struct(self, module, one):
        parser = self.modules[module].parser
        home, name = parser.imports.get(one[1][0], (module, one[1][0])) if len(one[1]) == 1 else one[1]
        return home, name

    def c(self, module, one):
        return C[one[1]] if one[0] == "plain" else self.struct(module, one)[1]

    def leaves(self, module, one, path):
        """The numbers of a value, each with its type and its path."""
        if one[0] == "plain":
            return [(path, one[1])]
        if one[0] == "array":
            return [leaf for i in range(int(one[2])) for leaf in self.leaves(module, one[1], f"{path}[{i}]")]
        home, name = self.struct(module, one)
        return [leaf for n, t in self.modules[home].parser.members[name] for leaf in self.leaves(home, t, f"{path}.{n}")]

    def structs(self):
        done, text = set(), []

        def one(module, t):
            if t is None or t[0] == "plain":
                return
            if t[0] in ("slice", "array"):
                return one(module, t[1])
            if t[0] == "ref":
                return one(module, t[2])
            home, name = self.struct(module, t)
            if name in done:
                return
            done.add(name)
            members = self.modules[home].parser.members[name]
            for _, m in members:
                one(home, m)
            lines = [f"    {self.c(home, m[1])} {n}[{m[2]}];" if m[0] == "array" else f"    {self.c(home, m)} {n};" for n, m in members]
            text.append("typedef struct {\n" + "\n".join(lines) + f"\n}} {name};\n")

        for _, module, f in self.list:
            for _, t in f.parameters + [("", f.result)]:
                one(module, t)
        return "".join(text)

    def head(self, module, f, name):
        words = []
        for n, t in f.parameters:
            if t[0] == "ref":
                words.append(f"{'' if t[1] else 'const '}{C[t[2][1][1]]} *{n}")
                if t[2][0] == "slice":
                    words.append(f"size_t {n}_count")
            else:
                words.append(f"{self.c(module, t)} {n}")
        return f"{self.c(module, f.result)} {name}({', '.join(words)})"

    def record(self, i, module, f):
        out, after, words = [f"    begin({i});"], [], []
        for slot, (n, t) in enumerate(f.parameters):
            words.append(n)
            if t[0] != "ref":
                out += [f"    number((uint64_t){p});" for p, _ in self.leaves(module, t, n)]
                continue
            size, many = SIZE[t[2][1][1]], f"{n}_count" if t[2][0] == "slice" else t[2][2]
            words += [many] if t[2][0] == "slice" else []
            if t[1]:
                out.append(f"    void *kept_{n} = lent({n}, {many}, {size});")
                after.append(f"    after(kept_{n}, {n}, {many} * {size});")
            else:
                out.append(f"    given({slot}, {n}, {many}, {size});")
        out.append(f"    {self.c(module, f.result)} r = real_{f.name}({', '.join(words)});")
        out += [f"    number((uint64_t){p});" for p, _ in self.leaves(module, f.result, "r")]
        return f"{self.head(module, f, 'real_' + f.name)};\n{self.head(module, f, f.name)};\n{self.head(module, f, f.name)}\n{{\n" + "\n".join(out + after) + "\n    return r;\n}\n"

    def replay(self, i, module, f):
        out, after, words = [], [], []
        for slot, (n, t) in enumerate(f.parameters):
            if t[0] != "ref":
                out.append(f"    {self.c(module, t)} {n};")
                out += [f"    {p} = {'place()' if k == 'usize' else f'({C[k]})number()'};" for p, k in self.leaves(module, t, n)]
                words.append(n)
                continue
            size = SIZE[t[2][1][1]]
            if t[1]:
                out.append(f"    part {n} = lent({size}), before_{n} = copy({n});")
                after.append(f"    after({n}, before_{n});")
                words += [f"{n}.first"] + ([f"{n}.count"] if t[2][0] == "slice" else [])
            else:
                out.append(f"    void *{n} = given({slot}, {size});")
                words += [n] + ([f"seen[{slot}].count"] if t[2][0] == "slice" else [])
                after.append(f"    edges(seen[{slot}]);")
        out.append(f"    {self.c(module, f.result)} r = {f.name}({', '.join(words)});")
        out += [f'    same((uint64_t){p}, "{f.name}: {p}");' for p, _ in self.leaves(module, f.result, "r")]
        return f"{self.head(module, f, f.name)};\nstatic void replay_{i}(void)\n{{\n" + "\n".join(out + after) + f'\n    end("{f.name}");\n}}\n'


def main(folder):
    project = os.path.abspath(os.path.join(os.path.dirname(os.path.abspath(__file__)), "..", ".."))
    folder = os.path.abspath(folder)
    calls = Calls(project)
    with open(os.path.join(folder, "record.c"), "w", encoding="utf-8") as file:
        file.write(COMMON + RECORD + calls.structs() + "\n".join(calls.record(i, m, f) for i, (_, m, f) in enumerate(calls.list)))
    cases = "".join(f"        case {i}:\n            replay_{i}();\n            break;\n" for i in range(len(calls.list)))
    ending = ("        default:\n            printf(\"%llu calls replayed, %llu differences, %llu left out\\n\", (unsigned long long)replayed, "
              "(unsigned long long)differences, (unsigned long long)left_out);\n            return differences != 0;\n")
    with open(os.path.join(folder, "replay.c"), "w", encoding="utf-8") as file:
        file.write(COMMON + REPLAY + calls.structs() + "\n".join(calls.replay(i, m, f) for i, (_, m, f) in enumerate(calls.list)) +
                   "int main(void)\n{\n    for (;;)\n        switch (byte()) {\n" + cases + ending + "        }\n}\n")
    names = [n for n, _, _ in calls.list]
    with open(os.path.join(folder, "renamed"), "w", encoding="utf-8") as file:
        file.write("".join(f"{n} real_{n}\n" for n in names))
    print(f"{len(names)} calls")


main(sys.argv[1])
