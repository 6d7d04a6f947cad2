#!/usr/bin/env python3
"""The crates that rust/make makes, on this machine and on others: the same cases as tests/independent, and examples/calls.c.

usage: machines.py [MACHINE ..]      native armv7 s390x wasm32; all of them where none is named

On this machine the tester of tests/independent is linked with the crate in place of the archives (short: all edges and 2,100,000 generated cases).
For each machine, this one too, the calls that the tester makes to the proved archives are recorded, with their answers, and replayed there over
dhcpopt-c: RECORD_CALLS of them, by default 3,100,000, which are those of some 100,000 cases. Overflow checks and debug assertions are on, and a panic aborts.
examples/calls.c, compiled for the machine with DHCPOPT_RUST, must print what it prints over the archives.

A line `left out: ` says what is not done because a tool is missing: rust/fetch fetches those for other machines into target/rust/debian.
"""
import glob
import os
import re
import shutil
import subprocess
import sys

os.chdir(os.path.join(os.path.dirname(os.path.abspath(__file__)), "..", ".."))
TOP = os.getcwd()
OUT = os.path.join(TOP, "target", "rust", "tests")
DEBIAN = os.path.join(TOP, "target", "rust", "debian")
LIBRARIES = os.path.join(DEBIAN, "usr", "lib", "x86_64-linux-gnu")
ARCHIVES = sorted(glob.glob("target/staticlib/libdhcpopt_*.a"))
CHECKED = ["-C", "overflow-checks=on", "-C", "debug-assertions=on"]
MACHINES = {
    "native": ("x86_64-unknown-linux-gnu", ["gcc"], []),
    "armv7": ("armv7-unknown-linux-gnueabihf", ["arm-linux-gnueabihf-gcc"], ["qemu-arm"]),
    "s390x": ("s390x-unknown-linux-gnu", ["s390x-linux-gnu-gcc"], ["qemu-s390x"]),
    "wasm32": ("wasm32-wasi", ["clang", "--target=wasm32-wasi"], ["node", "--no-warnings", "tests/rust/wasi.mjs"]),
}


class Missing(Exception):
    pass


def failed(why):
    raise SystemExit(f"failed: {why}")


def environment(tool):
    made = dict(os.environ)
    if tool.startswith(DEBIAN):
        made["LD_LIBRARY_PATH"] = LIBRARIES
    return made


def run(words, **more):
    done = subprocess.run(words, env={**environment(words[0]), **more.pop("env", {})}, capture_output=True, text=True, **more)
    if done.returncode != 0:
        failed(f"{' '.join(words)}: status {done.returncode}\n{(done.stdout + done.stderr)[-4000:]}")
    return done.stdout


def tool(name):
    """A tool of this machine, or of target/rust/debian."""
    found = shutil.which(name) or shutil.which(name, path=os.path.join(DEBIAN, "usr", "bin"))
    if not found:
        raise Missing(f"{name} is not installed")
    return found


def rustc(triple):
    """A rustc that has the core library of a target."""
    for name in filter(None, [os.environ.get("RUSTC"), shutil.which("rustc"), "/usr/bin/rustc", os.path.join(DEBIAN, "usr", "bin", "rustc")]):
        if os.path.exists(name):
            folder = subprocess.run([name, "--print", "target-libdir", "--target", triple], env=environment(name), capture_output=True, text=True).stdout.strip()
            if glob.glob(os.path.join(folder, "libcore-*.rlib")):
                return name
    raise Missing(f"no rustc has the core library of {triple}")


def library(machine, how, crate="target/rust/dhcpopt", name="libdhcpoptc.a"):
    """dhcpopt-c as a static library for a machine."""
    triple, out = MACHINES[machine][0], os.path.join(OUT, machine)
    os.makedirs(out, exist_ok=True)
    words = [rustc(triple), "--edition", "2021", "--target", triple, "-C", "panic=abort", "-C", "codegen-units=1"] + how
    run(words + ["--crate-type", "rlib", "--crate-name", "dhcpopt", "-o", f"{out}/libdhcpopt.rlib", f"{crate}/src/lib.rs"])
    run(words + ["-C", "lto=fat", "--crate-type", "staticlib", "--crate-name", "dhcpoptc", "--cfg", 'feature="handler"', "--cfg", 'feature="abort"',
                 "--extern", f"dhcpopt={out}/libdhcpopt.rlib", "-o", f"{out}/{name}", "target/rust/dhcpopt-c/src/lib.rs"])
    return f"{out}/{name}"


def compiled(machine, source, archives, more):
    """A C program for a machine."""
    _, gcc, _ = MACHINES[machine]
    out = os.path.join(OUT, machine, os.path.basename(source)[:-2])
    words = [tool(gcc[0])] + gcc[1:] + ["-std=c11", "-O1", "-Iinclude"] + more
    if machine == "wasm32":
        root = next((d for d in ("/usr", os.path.join(DEBIAN, "usr")) if os.path.exists(f"{d}/lib/wasm32-wasi/libc.a")), None)
        if not root:
            raise Missing("wasi-libc is not installed")
        words += ["-isystem", f"{root}/include/wasm32-wasi", "-nostdlib", "-o", out, f"{root}/lib/wasm32-wasi/crt1.o", source] + archives
        builtins = glob.glob(f"{root}/lib/llvm-*/lib/clang/*/lib/wasi/libclang_rt.builtins-wasm32.a") + glob.glob(f"{root}/lib/clang/*/lib/wasi/libclang_rt.builtins-wasm32.a")
        run(words + [f"{root}/lib/wasm32-wasi/libc.a"] + builtins[:1])
    else:
        run(words + (["-static"] if machine != "native" else []) + ["-o", out, source] + archives)
    return out


def runner(machine):
    words = MACHINES[machine][2]
    return [tool(words[0])] + words[1:] if words else []


def calls(machine, archive):
    """The examples that look at every member print for the machine what they print over the archives, and a file of captures has its report."""
    for name in ("calls", "extra"):
        here = os.path.join(OUT, name + "-archives")
        run(["gcc", "-std=c11", "-O1", "-Iinclude", "-o", here, f"examples/{name}.c"] + ARCHIVES + ARCHIVES)
        there = compiled(machine, f"examples/{name}.c", [archive], ["-DDHCPOPT_RUST"])
        wanted, got = run([here]), run(runner(machine) + [there])
        if wanted != got:
            failed(f"{machine}: {name}.c prints\n{got}and not\n{wanted}")
    there = compiled(machine, "tests/rust/captures.c", [archive], ["-DDHCPOPT_RUST"])
    with open("crates/report_captures/stdin", "rb") as file:
        got = run(runner(machine) + [there], stdin=file)
    if got != open("crates/report_captures/stdout", encoding="utf-8").read():
        failed(f"{machine}: the report of captures is\n{got}")


def face():
    """Programs in Rust, which use the crate under its own names."""
    out = os.path.join(OUT, "native")
    words = [rustc(MACHINES["native"][0]), "--edition", "2021", "-D", "warnings"]
    run(words + ["--crate-type", "rlib", "--crate-name", "dhcpopt", "-o", f"{out}/libface.rlib", "target/rust/dhcpopt/src/lib.rs"])
    run(words + ["--extern", f"dhcpopt={out}/libface.rlib", "-o", f"{out}/lease_time", "rust/lease_time.rs"])
    for name, wanted in (("sample", "lease time: 3600 s, in file\n"), ("reply", "lease time: 3600 s, in options\nrouter: 192.0.2.1\nrouter: 192.0.2.2\n")):
        with open(f"examples/{name}.bin", "rb") as file:
            printed = run([f"{out}/lease_time"], stdin=file)
        if printed != wanted:
            failed(f"rust/lease_time.rs prints\n{printed}")
    run(words + ["--extern", f"dhcpopt={out}/libface.rlib", "-o", f"{out}/stages", "tests/rust/stages.rs"])
    captures = open("crates/report_captures/stdin", "rb").read()
    whole = captures[:stages(captures).rindex("t") + 1]
    for given in (captures, whole, whole + b"\x01\x00", whole + b"\x01\x00\x00\x02" + whole):
        with open(f"{out}/given", "wb") as file:
            file.write(given)
        with open(f"{out}/given", "rb") as file:
            printed = run([f"{out}/stages"], stdin=file)
        if printed != stages(given) + "\n":
            failed(f"tests/rust/stages.rs prints\n{printed}")


def stages(file):
    """The stage after each byte of a file of captures, by the rules: behind its tag, its high length byte, in its message, at the next tag; or stopped."""
    told, i = "", 0
    while i < len(file) and file[i] == 1:
        size = int.from_bytes(file[i + 1:i + 3], "big")
        told += "hl" + "m" * size + "t"
        i += 3 + size
    return told[:len(file)].ljust(len(file), "s")


def page():
    """The commands of docs/C-API.md, "Another machine", print what README.md says of this machine."""
    text = open("docs/C-API.md", encoding="utf-8").read().split("### Another machine\n")[1].split("## The words")[0]
    commands = "".join(line[4:] + "\n" for line in text.split("\n") if line.startswith("    "))
    folders = os.pathsep.join([os.environ["PATH"], os.path.join(DEBIAN, "usr", "bin")])
    # The page's rustc is one that has the target's core library.
    own = os.path.join(OUT, "bin")
    os.makedirs(own, exist_ok=True)
    if os.path.lexists(f"{own}/rustc"):
        os.remove(f"{own}/rustc")
    os.symlink(rustc(MACHINES["armv7"][0]), f"{own}/rustc")
    printed = run(["sh", "-ec", commands], env={"PATH": own + os.pathsep + folders, "LD_LIBRARY_PATH": LIBRARIES})
    if not printed.endswith("lease time: 3600 s, in file\n"):
        failed(f"the commands of docs/C-API.md print\n{printed}")


def tester(name, archives, last):
    """The tester of tests/independent over other archives, without the wrong variants of its mode `broken`."""
    out, source = os.path.join(OUT, name), "tests/independent/src"
    os.makedirs(out, exist_ok=True)
    with open(f"{out}/variants.rs", "w", encoding="utf-8") as file:
        file.write("pub static VARIANTS: [(&str, Yardstick); 0] = [];\npub static TALLIES: [(&str, TallyOf); 0] = [];\n")
    files = [open(path, encoding="utf-8").read() for path in sorted(glob.glob(f"{source}/tester/*.rs"))]
    named = list(dict.fromkeys(re.findall(r'#\[link\(name = "(\w+)"', "".join(files))))
    for one in named:
        path = f"{out}/lib{one}.a"
        if os.path.exists(path):
            os.remove(path)
        run(["ar", "rcs", path] + (archives if one == named[0] else []))
    words = [rustc("x86_64-unknown-linux-gnu"), "--edition", "2021", "-C", f"opt-level={os.environ.get('TESTER_OPT', '1')}", "--cap-lints", "allow"]
    rules = os.path.join(OUT, "libindependent.rlib")
    if not os.path.exists(rules):
        run(words + ["--crate-type", "rlib", "--crate-name", "independent", "-o", rules, f"{source}/lib.rs"])
    run(words + ["--crate-name", "tester", "--extern", f"independent={rules}", "-L", f"native={out}", "-o", f"{out}/tester", f"{source}/main.rs"] +
        [f"-Clink-arg={a}" for a in last], env={"OUT_DIR": out})
    return f"{out}/tester"


def recorder():
    """The tester over record.c, which passes each call on to the archives."""
    out = os.path.join(OUT, "record")
    os.makedirs(out, exist_ok=True)
    run([sys.executable, "tests/rust/cases.py", out])
    run(["gcc", "-std=gnu11", "-O1", "-c", "-o", f"{out}/record.o", f"{out}/record.c"])
    real = []
    for archive in ARCHIVES:
        real.append(f"{out}/real_{os.path.basename(archive)[3:]}")
        run(["objcopy", f"--redefine-syms={out}/renamed", archive, real[-1]])
    return tester("record", [f"{out}/record.o"], ["-Wl,--start-group"] + real + ["-Wl,--end-group"])


# Wrong edits of the made crate, of which the replaying must tell: file, old, new.
WRONG = [
    ("dhcpopt_reader", "if status == 5 { start - 2 } else { 0 }", "if status == 5 { start - 1 } else { 0 }"),
    ("codeset", "k as u32 * 64 + x.trailing_zeros()", "k as u32 * 64 + x.leading_zeros()"),
    ("field_writer", "*end = 255;", "*end = 254;"),
    ("records", "let need = t.used + codes as usize * 3;", "let need = t.used + codes as usize * 3 + (usize::MAX - 300);"),
]


def wrong(machine, recorded):
    """Whether each wrong edit is found, by a difference or, where a sum does not fit, by a panic."""
    crate = os.path.join(OUT, "wrong")
    for name, old, new in WRONG:
        shutil.rmtree(crate, ignore_errors=True)
        shutil.copytree("target/rust/dhcpopt", crate)
        path = os.path.join(crate, "src", "proved", name + ".rs")
        text = open(path, encoding="utf-8").read()
        if text.count(old) != 1:
            failed(f"{old} is not once in {name}.rs")
        with open(path, "w", encoding="utf-8") as file:
            file.write(text.replace(old, new))
        status, line = replay(machine, recorded, library(machine, ["-C", "opt-level=1"] + CHECKED, crate, "libwrong.a"), "60000")
        if status == 0:
            failed(f"{machine}: the wrong {new} was not found: {line}")
    return f"{len(WRONG)} wrong edits were found"


def replayed(machine, recorded, archive):
    status, text = replay(machine, recorded, archive, os.environ.get("RECORD_CALLS", "3100000"))
    line = text.strip().split("\n")[-1]
    if status != 0 or not re.search(r"^[1-9]\d* calls replayed, 0 differences", line):
        failed(f"{machine}: status {status}\n{text[-3000:]}")
    return line


def replay(machine, recorded, archive, count):
    program = compiled(machine, f"{OUT}/record/replay.c", [archive], [])
    read, write = os.pipe()
    # The tester's cases go to its descriptor 3, and from there to the standard input of the replaying program.
    made = subprocess.Popen(["sh", "-c", f"exec 3>&{write}; exec \"$0\" long 100 >/dev/null", recorded], env={**os.environ, "RECORD_CALLS": count}, pass_fds=[write])
    os.close(write)
    words = runner(machine) + [program]
    done = subprocess.run(words, stdin=read, env=environment(words[0]), capture_output=True, text=True)
    os.close(read)
    made.wait()
    return done.returncode, done.stderr[-3000:] + done.stdout


def short():
    """The crate in place of the archives, against the rules of tests/independent."""
    out = os.path.join(OUT, "short")
    os.makedirs(out, exist_ok=True)
    words = [rustc("x86_64-unknown-linux-gnu"), "--edition", "2021", "--crate-type", "rlib", "-C", "opt-level=2", "-C", "codegen-units=1"] + CHECKED
    run(words + ["--crate-name", "dhcpopt", "--emit", f"link={out}/libdhcpopt.rlib,obj={out}/dhcpopt.o", "target/rust/dhcpopt/src/lib.rs"])
    run(words + ["--crate-name", "dhcpoptc", "--extern", f"dhcpopt={out}/libdhcpopt.rlib", "--emit", f"obj={out}/dhcpoptc.o", "target/rust/dhcpopt-c/src/lib.rs"])
    done = subprocess.run([tester("short", [f"{out}/dhcpopt.o", f"{out}/dhcpoptc.o"], [])] + os.environ.get("TESTER_MODE", "short").split(), capture_output=True, text=True)
    compared, files = done.stdout.strip().split("\n")[-2:]
    if done.returncode != 0 or not compared.endswith(" compared, 0 differences") or not files.endswith(" files of captures, 0 differences"):
        failed(f"short: status {done.returncode}\n{done.stdout[-3000:]}{done.stderr[-3000:]}")
    return f"{compared}; {files}"


def main(machines):
    run([sys.executable, "rust/make"])
    if len(ARCHIVES) < 6:
        failed("the archives are not all in target/staticlib: packaging/build dhcpopt_reader, and so on")
    os.makedirs(OUT, exist_ok=True)
    for old in glob.glob(f"{OUT}/*.rlib"):
        os.remove(old)
    recorded, done = None, []
    for machine in machines:
        try:
            archive = library(machine, ["-C", "opt-level=1"] + CHECKED)
            calls(machine, archive)
            print(f"{machine}: the examples print the same, and the report of captures is the same", flush=True)
            recorded = recorded or recorder()
            print(f"{machine}: {replayed(machine, recorded, archive)}", flush=True)
            if machine in ("native", "armv7"):
                print(f"{machine}: {wrong(machine, recorded)}", flush=True)
            if machine == "native":
                face()
                print(f"{machine}: {short()}", flush=True)
            if machine == "armv7":
                page()
                print("armv7: the commands of docs/C-API.md print what they should", flush=True)
            done.append(machine)
        except Missing as missing:
            print(f"left out: {machine}: {missing}", flush=True)
    spent = os.times()
    print(f"no difference on {', '.join(done)}; {spent.children_user + spent.children_system:.0f} s of processor" if done else "nothing was done")
    return 0 if done else 77


sys.exit(main(sys.argv[1:] or list(MACHINES)))
