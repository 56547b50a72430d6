#!/usr/bin/env python3
"""Builds the C library into a folder, and over it, by the `cargo` that is there, the Rust crate in rust/vtdm: offline, its warnings as
errors, its target in a temporary folder.

What the crate declares is to be what c/vtdm.h says, and its refusals are to have the texts of the Rattle sources. Only one module has
`unsafe`, each with its reason. Where there is no library, or one of another header, the build says what makes it. The tests run, and
by valgrind where it is there; the examples of the documentation run; the example program prints what is stored beside it; and the
crate, optimized, calls no panic. The last line is `N passed, M failed`, and where there is no cargo `0 passed, 0 failed`."""

import glob
import os
import re
import shutil
import subprocess
import sys
import tempfile

sys.dont_write_bytecode = True
import c_header

TOP = os.path.dirname(os.path.dirname(os.path.abspath(__file__)))
CRATE = f"{TOP}/rust/vtdm"
FFI = f"{CRATE}/src/ffi.rs"
# Structs of the crate that C lays out, and what stands in it for a C type.
STRUCTS = {
    "Handle": "vtdm",
    "Segment": "vtdm_segment",
    "Answer": "vtdm_answer",
    "TotalsAnswer": "vtdm_totals_answer",
    "DomainTotalsAnswer": "vtdm_domain_totals_answer",
    "ContextAnswer": "vtdm_context_answer",
    "SentAnswer": "vtdm_sent_answer",
    "Effect": "vtdm_effect",
}
TYPES = {
    "u64": "uint64_t",
    "Frame": "uint64_t",
    "Pages": "uint64_t",
    "bool": "bool",
    "usize": "size_t",
    "*mut c_void": "void *",
    "&mut Handle": "struct vtdm *",
    "*const Segment": "const struct vtdm_segment *",
    "*mut u64": "uint64_t *",
    "*mut Effect": "struct vtdm_effect *",
    "": "void",
    **{rust: f"struct {c}" for rust, c in STRUCTS.items()},
}
# What the symbols have of the functions of Rust's core library that panic.
PANIC = re.compile(r"panick|unwrap_failed|expect_failed")
# Tests that valgrind runs. Of the others one is of little memory, and one of many calls of the same.
UNDER_VALGRIND = ["rows", "refusals", "readers", "driven"]


def rust(name):
    """A source of the crate without its comments."""
    return re.sub(r"//.*", "", c_header.text_of(f"{CRATE}/src/{name}.rs"))


def variants(text, name):
    """The variants of an enum that have numbers, by the names that C has for them."""
    body = re.search(rf"pub enum {name} \{{(.*?)^\}}", text, re.S | re.M)[1]
    return {c_header.shouted(variant): int(value) for variant, value in re.findall(r"(\w+) = (\d+),", body)}


def functions():
    """Each function of the header is declared with its types, called, and safe only where it takes no pointer but the handle."""
    text = rust("ffi")
    found = {}
    for safe, name, given, answer in re.findall(r"(safe )?fn (vtdm_\w+)\(([^)]*)\)(?: -> (\w+))?;", text):
        pairs = [it.split(": ") for it in " ".join(given.split()).rstrip(",").split(", ")]
        found[name] = (TYPES.get(answer, answer), [(TYPES.get(kind.rstrip(","), kind), each) for each, kind in pairs])
        if safe and re.search(r"\*(const|mut) ", given):
            return f"{name} takes a pointer, and is declared safe"
    calls = "".join(rust(os.path.basename(it)[:-3]) for it in glob.glob(f"{CRATE}/src/*.rs"))
    unused = [it for it in found if len(re.findall(rf"\b{it}\(", calls)) < 2]
    return c_header.difference(found, c_header.prototypes()) or (f"not called: {unused}" if unused else None)


def structs():
    """What C lays out has the same members in the same order."""
    text = rust("ffi") + rust("numbers")
    found = {}
    for name, body in re.findall(r"#\[repr\(C\)\]\s*(?:#\[[^\]]*\]\s*)*pub(?:\(crate\))? struct (\w+) \{(.*?)^\}", text, re.S | re.M):
        fields = re.findall(r"(\w+): ([^,]+),", body)
        found[STRUCTS.get(name, name)] = [(field, TYPES.get(kind, kind)) for field, kind in fields]
    named = re.findall(r"^struct (\w+) \{", c_header.header_text(), re.M)
    return c_header.difference(found, {name: c_header.members_in_header(name) for name in named})


def limits():
    macros = dict(re.findall(r"^#define VTDM_(\w+) (.*\d.*)$", c_header.header_text(), re.M))
    found = dict(re.findall(r"pub const (\w+): u64 = ([^;]+);", rust("limits")))
    numbers = [{name: c_header.number(value) for name, value in it.items()} for it in (found, macros)]
    return c_header.difference(*numbers)


def statuses():
    """Each status of the header is a refusal, but that for none; and is among those that are looked up."""
    text = rust("refused")
    ok = int(re.search(r"const OK: u64 = (\d+);", rust("manager"))[1])
    listed = re.search(r"pub const ALL: [^=]*= \[(.*?)\];", text, re.S)[1]
    found = variants(text, "Refused")
    lost = set(found) ^ {c_header.shouted(it) for it in re.findall(r"Refused::(\w+)", listed)}
    return c_header.difference({"OK": ok, **found}, c_header.enum_of("vtdm_status")) or (f"not listed: {sorted(lost)}" if lost else None)


def choices():
    """Rights, modes, caches, and kinds of effects."""
    kinds = {name: int(value) for name, value in re.findall(r"const (EFFECT_\w+): u64 = (\d+);", rust("ffi"))}
    caches = {f"CACHE_{name}": value for name, value in variants(rust("choices"), "Cache").items()}
    rights = {name: int(value) for name, value in re.findall(r"pub const (READ|WRITE): Rights = Rights\((\d+)\);", rust("rights"))}
    return (
        c_header.difference(kinds, c_header.enum_of("vtdm_effect_kind"))
        or c_header.difference(caches, c_header.enum_of("vtdm_cache"))
        or c_header.difference(variants(rust("choices"), "Mode"), c_header.enum_of("vtdm_mode"))
        or c_header.difference(rights, c_header.enum_of("vtdm_rights"))
    )


def texts():
    """Refusals and faults are told in the words of the Rattle sources."""
    wanted = {}
    for kind, before in (("Refusal", ""), ("Fault", "Fault")):
        body = re.search(rf"pub enum {kind} \{{(.*?)^\}}", c_header.source(c_header.REFUSALS), re.S | re.M)[1]
        pairs = re.findall(r"#\[error\(\"([^\"]*)\"\)\]\s*(\w+),", body)
        wanted.update({f"{before}{name}": text for text, name in pairs if name not in c_header.NOT_FOR_C})
    found = dict(re.findall(r"Refused::(\w+) => \"([^\"]*)\"", rust("refused")))
    return c_header.difference(wanted, {name: text for name, text in found.items() if name in wanted})


COMPARISONS = {
    "functions": functions,
    "structs": structs,
    "limits": limits,
    "statuses": statuses,
    "rights, modes, caches and kinds of effects": choices,
    "texts of refusals": texts,
}


def fault_of_unsafe():
    """One module has `unsafe`, and each use there a comment above it that gives the reason."""
    uses = 0
    for path in sorted(glob.glob(f"{CRATE}/**/*.rs", recursive=True)):
        lines = c_header.text_of(path).splitlines()
        for at, line in enumerate(lines):
            if not re.search(r"\bunsafe\b", line.split("//")[0]):
                continue
            uses += 1
            above = at
            while above and lines[above - 1].strip().startswith("//"):
                above -= 1
            if path != FFI or not lines[above].strip().startswith("// SAFETY:"):
                return f"{os.path.relpath(path, TOP)}, line {at + 1}: unsafe, and not in {os.path.basename(FFI)} with its reason"
    return None if uses else "there is none, which can't be"


class Steps:
    """Counts what passed and what failed, and says each."""

    def __init__(self):
        self.passed = self.failed = 0

    def say(self, name, fault):
        self.passed, self.failed = self.passed + (not fault), self.failed + bool(fault)
        print(f"Rust crate, {name}: {fault or 'ok'}", flush=True)


class Cargo:
    """cargo over a folder of the C library."""

    def __init__(self, room, folder):
        self.target = f"{room}/target"
        flags = {"RUSTFLAGS": "-D warnings", "RUSTDOCFLAGS": "-D warnings"}
        self.env = {**os.environ, **flags, "CARGO_TARGET_DIR": self.target, "CARGO_TERM_COLOR": "never", "VTDM_DIR": folder}

    def run(self, words, seconds=900, **more):
        """The status, and what it writes."""
        words = ["cargo", *words]
        try:
            done = subprocess.run(
                words, cwd=CRATE, env={**self.env, **more}, stdout=subprocess.PIPE, stderr=subprocess.STDOUT, text=True, timeout=seconds
            )
        except (OSError, subprocess.TimeoutExpired) as error:
            return 1, str(error)
        return done.returncode, done.stdout

    def fault(self, words, **more):
        status, said = self.run(words, **more)
        return f"status {status}\n{said[-3000:]}" if status else None

    def has(self, tool):
        return self.run([tool, "--version"])[0] == 0


def fault_without_library(cargo, room):
    """A build without the library fails, and says the command."""
    empty = f"{room}/empty"
    os.mkdir(empty)
    status, said = cargo.run(["build", "--offline", "--locked"], VTDM_DIR=empty)
    if not status:
        return "the crate is built"
    return None if f"/bin/vtdm-c {empty}`" in said and "panicked" not in said else f"it says {said[-1000:]!r}"


def fault_with_old_header(cargo, room, folder):
    """A library that was made with another header isn't linked."""
    old = f"{room}/old"
    shutil.copytree(folder, old)
    with open(f"{old}/include/vtdm.h", "a", encoding="utf-8") as file:
        file.write("/* of another time */\n")
    status, said = cargo.run(["build", "--offline", "--locked"], VTDM_DIR=old)
    return None if status and "another header" in said else f"status {status}, and it says {said[-1000:]!r}"


def run_tests(steps, cargo):
    """Each target's tests, and those of the documentation, a step each."""
    status, said = cargo.run(["test", "--offline", "--locked"])
    heads = r"^ +(?:Running (?:unittests )?(\S+)|(Doc-tests \w+))"
    parts = re.split(heads, said, flags=re.M)
    told = {one or other: text for one, other, text in zip(parts[1::3], parts[2::3], parts[3::3])}
    wanted = ["src/lib.rs", *sorted(os.path.relpath(it, CRATE) for it in glob.glob(f"{CRATE}/tests/*.rs")), "Doc-tests vtdm"]
    for name in wanted:
        result = re.search(r"^test result: ok\. [1-9]\d* passed; 0 failed;", told.get(name, ""), re.M)
        steps.say(f"tests, {name}", None if result else f"\n{told.get(name, said)[-3000:]}")
    steps.say("tests, status", f"status {status}" if status else None)


def fault_by_valgrind(cargo):
    runner = "valgrind -q --error-exitcode=9 --leak-check=full --errors-for-leak-kinds=definite"
    host = re.search(r"^host: (\S+)$", subprocess.run(["rustc", "-vV"], capture_output=True, text=True, check=True).stdout, re.M)[1]
    name = f"CARGO_TARGET_{host.upper().replace('-', '_')}_RUNNER"
    return cargo.fault(["test", "--offline", "--locked", *(word for it in UNDER_VALGRIND for word in ("--test", it))], **{name: runner})


def fault_of_example(cargo):
    status, said = cargo.run(["build", "--offline", "--locked", "--release", "--example", "vmm"])
    if status:
        return said[-3000:]
    done = subprocess.run([f"{cargo.target}/release/examples/vmm"], capture_output=True, text=True, timeout=120)
    wanted = c_header.text_of(f"{CRATE}/examples/vmm.output")
    return None if (done.returncode, done.stdout) == (0, wanted) else f"status {done.returncode}, {done.stdout!r}{done.stderr}"


def fault_of_panics(cargo):
    """The optimized crate's own objects call nothing that panics."""
    fault = cargo.fault(["build", "--offline", "--locked", "--release"])
    if fault:
        return fault
    listed = subprocess.run(["nm", f"{cargo.target}/release/libvtdm.rlib"], capture_output=True, text=True)
    needs = re.findall(r"^ +U (.+)$", listed.stdout, re.M)
    if not any("vtdm_map" in it for it in needs):
        return f"nm doesn't show its calls: {listed.stderr[-300:]}"
    found = [it for it in needs if PANIC.search(it)]
    return f"it calls {found}" if found else None


def check_style(steps, cargo):
    """What belongs to cargo where it was installed with it."""
    if cargo.has("fmt"):
        steps.say("layout", cargo.fault(["fmt", "--check"]))
    else:
        print("Rust crate: there is no cargo fmt here")
    if cargo.has("clippy"):
        steps.say("clippy", cargo.fault(["clippy", "--offline", "--locked", "--all-targets", "--", "-D", "warnings"]))
    else:
        print("Rust crate: there is no cargo clippy here")


def check_built(steps, room, folder):
    cargo = Cargo(room, folder)
    steps.say("without a library", fault_without_library(cargo, room))
    steps.say("with the library of another header", fault_with_old_header(cargo, room, folder))
    run_tests(steps, cargo)
    steps.say("documentation", cargo.fault(["doc", "--offline", "--locked", "--no-deps"]))
    steps.say("example", fault_of_example(cargo))
    steps.say("no panics", fault_of_panics(cargo))
    check_style(steps, cargo)
    if shutil.which("valgrind"):
        steps.say("tests by valgrind", fault_by_valgrind(cargo))
    else:
        print("Rust crate: there is no valgrind here")


def main():
    if not shutil.which("cargo"):
        print("Rust crate: there is no cargo here, so it isn't tried")
        print("0 passed, 0 failed")
        return 0
    steps = Steps()
    for name, comparison in COMPARISONS.items():
        steps.say(name, comparison())
    steps.say("unsafe", fault_of_unsafe())
    with tempfile.TemporaryDirectory() as room:
        folder = f"{room}/library"
        built = subprocess.run([f"{TOP}/bin/vtdm-c", folder], stdout=subprocess.PIPE, stderr=subprocess.STDOUT, text=True)
        steps.say("the C library", f"status {built.returncode}\n{built.stdout[-2000:]}" if built.returncode else None)
        if not built.returncode:
            check_built(steps, room, folder)
    print(f"{steps.passed} passed, {steps.failed} failed")
    return 1 if steps.failed else 0


if __name__ == "__main__":
    sys.exit(main())
