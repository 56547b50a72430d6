#!/usr/bin/env python3
"""Builds the C library and its header into a folder, moves the folder, and drives it there by programs in C: c/tests, c/measure.c,
examples/c.

The header is to be good C11 and C++17 with all warnings, and to say what the Rattle sources say; the library is to have the header's
functions, and to need from outside what the docs name. Each test runs plain, with the sanitizers that `cc` has (of addresses and
undefined behaviour, and for threads of races), and by valgrind where it is there, which sees the library's own accesses too. The last
line is `N passed, M failed`."""

import os
import re
import shutil
import subprocess
import sys
import tempfile

sys.dont_write_bytecode = True
import c_header
import c_package
import rows

TOP = os.path.dirname(os.path.dirname(os.path.abspath(__file__)))
TESTS = f"{TOP}/c/tests"
DECISIONS = f"{TOP}/docs/DECISIONS.md"
WARNINGS = ["-Wall", "-Wextra", "-Wpedantic", "-Wshadow", "-Wconversion", "-Werror"]
ADDRESS = "sanitizer of addresses and undefined behaviour"
THREAD = "sanitizer of threads"
VALGRIND = "valgrind"
# What is compiled with it, and what runs it.
FLAVOURS = {
    "plain": ([], []),
    ADDRESS: (["-fsanitize=address,undefined", "-fno-sanitize-recover=all"], []),
    THREAD: (["-fsanitize=thread"], []),
    VALGRIND: ([], ["valgrind", "-q", "--error-exitcode=9", "--leak-check=full"]),
}
# The sources of each test, the words that link it, and its flavours beside the plain one.
PROGRAMS = {
    "rows": (["answers.c", "script.c"], [], [ADDRESS, VALGRIND]),
    "statuses": (["statuses.c"], [], [ADDRESS, VALGRIND]),
    "bases": (["bases.c"], [], [ADDRESS, VALGRIND]),
    "walk": (["walk.c"], [], [ADDRESS, VALGRIND]),
    "effects": (["effects.c", "unit.c"], [], [ADDRESS, VALGRIND]),
    "memory": (["memory.c"], ["-Wl,--wrap=malloc,--wrap=realloc,--wrap=free"], [ADDRESS]),
    "threads": (["threads.c"], ["-pthread"], [ADDRESS, THREAD]),
    "stack": (["stack.c"], ["-pthread"], []),
    "owner in C++": (["owner.cpp"], ["-pthread"], [ADDRESS]),
}
# What the test of memory makes managers by.
CREATIONS = {"vtdm_create", "vtdm_create_caching", "vtdm_create_driven"}
# The header twice, alone in its file.
ALONE = "#include <vtdm.h>\n#include <vtdm.h>\nextern struct vtdm manager;\nstruct vtdm manager = VTDM_INIT;\n"


class Steps:
    """Counts what passed and what failed, and says each."""

    def __init__(self):
        self.passed = self.failed = 0

    def say(self, name, fault):
        self.passed, self.failed = self.passed + (not fault), self.failed + bool(fault)
        print(f"C interface, {name}: {fault or 'ok'}", flush=True)


def run(words, seconds=300):
    """Why a command fails, if it does, or None; and what it writes."""
    try:
        done = subprocess.run(words, stdout=subprocess.PIPE, stderr=subprocess.STDOUT, text=True, timeout=seconds)
    except (OSError, subprocess.TimeoutExpired) as error:
        return str(error), ""
    return (f"status {done.returncode}\n{done.stdout}" if done.returncode else None), done.stdout


def ran(words, seconds=300):
    return run(words, seconds)[0]


def compile_words(folder, out, sources, more):
    compiler = ["c++", "-std=c++17"] if sources[0].endswith(".cpp") else ["cc", "-std=c11", "-D_POSIX_C_SOURCE=200809L"]
    library = [f"-I{folder}/include", *sources, f"-L{folder}/lib", "-lvtdm"]
    return [*compiler, *WARNINGS, "-g", "-O2", *more, "-o", out, *library]


def flavours_of(room):
    """The flavours in which a program can be built and run here."""
    source = f"{room}/empty.c"
    c_package.write(source, "int main(void) { return 0; }\n")
    for name, (words, runner) in FLAVOURS.items():
        if ran(["cc", *words, "-o", f"{room}/empty", source]) or ran([*runner, f"{room}/empty"]):
            print(f"C interface: there is no {name} here")
        else:
            yield name


def named_by_docs():
    """What the docs say that the archive needs from outside, and what it has beside the header's functions."""
    item = r"\*\*What the archive needs from outside\*\*(.*?)The gate compares(.*?)\n- \*\*"
    needs, has = re.search(item, c_header.text_of(DECISIONS), re.S).groups()
    return set(re.findall(r"`(\w+)`", needs)), set(re.findall(r"`(\w+)`", has))


def fault_of_names(folder):
    """The library has the header's functions and what the docs name, and needs what the docs name."""
    listed = subprocess.run(["nm", f"{folder}/lib/libvtdm.a"], capture_output=True, text=True, check=True)
    # U, w and v are undefined; the other small letters but u and i are of local symbols.
    symbols = re.findall(r"^[0-9a-f]* +([A-Zuiwv]) (.+)$", listed.stdout, re.M)
    has = {name for kind, name in symbols if kind not in "Uwv"}
    needs = {name for kind, name in symbols if kind in "Uwv"} - has
    may_need, may_have = named_by_docs()
    odd = has ^ (may_have | set(c_header.prototypes()))
    if odd:
        return f"in the library or in the header and docs, and not in both: {sorted(odd)}"
    return f"needed or named by the docs, and not both: {sorted(needs ^ may_need)}" if needs ^ may_need else None


def fault_of_calls(output):
    """The test of memory counts each function of the header but those that take memory."""
    counted = set(re.findall(r"^(vtdm_\w+): \d+ calls", output, re.M))
    odd = counted ^ (set(c_header.prototypes()) - CREATIONS)
    return f"not counted, or not in the header: {sorted(odd)}" if odd else None


def fault_alone(room, folder, compiler, suffix):
    source = f"{room}/alone.{suffix}"
    c_package.write(source, ALONE)
    return ran([*compiler, *WARNINGS, f"-I{folder}/include", "-fsyntax-only", source])


def check_texts(steps, room, folder):
    for name, comparison in c_header.COMPARISONS.items():
        steps.say(f"the header's {name}", comparison())
    steps.say("the header in C11", fault_alone(room, folder, ["cc", "-std=c11"], "c"))
    steps.say("the header in C++17", fault_alone(room, folder, ["c++", "-std=c++17"], "cpp"))
    steps.say("the names of the library", fault_of_names(folder))


def fault_of_test(room, folder, name, flavour):
    """A test is built and run. That of the rows is run for each, and that of memory counts the calls."""
    sources, more, _ = PROGRAMS[name]
    words, runner = FLAVOURS[flavour]
    out = f"{room}/test"
    fault = ran(compile_words(folder, out, [f"{TESTS}/{it}" for it in sources], [*words, *more]))
    if fault:
        return fault
    if name == "rows":
        return rows.fault_elsewhere([*runner, out], evicts=flavour == "plain")
    fault, output = run([*runner, out])
    if fault or not re.search(r"^[1-9]\d* passed, 0 failed\s*\Z", output, re.M):
        return fault or f"it ends without its count: {output[-200:]!r}"
    return fault_of_calls(output) if (name, flavour) == ("memory", "plain") else None


def run_tests(steps, room, folder):
    here = list(flavours_of(room))
    for name, (_, _, flavours) in PROGRAMS.items():
        for flavour in ["plain", *flavours]:
            if flavour in here:
                steps.say(f"{name}, {flavour}", fault_of_test(room, folder, name, flavour))


def check_package(steps, folder, moved_from):
    flags = c_package.flags_of_file(folder)
    steps.say("the example by the flags of vtdm.pc", c_package.fault_of_example(flags, folder, moved_from, WARNINGS))
    if not shutil.which("pkg-config"):
        print("C interface: there is no pkg-config here")
        return
    flags = c_package.flags_of_pkg_config(folder)
    steps.say("the example by pkg-config", c_package.fault_of_example(flags, folder, moved_from, WARNINGS))


def main():
    steps = Steps()
    missing = [it for it in ("cc", "c++", "ar", "nm") if not shutil.which(it)]
    if missing:
        print(f"C interface: a C and a C++ compiler are needed, by the names cc and c++; there is no {', '.join(missing)}")
        print("0 passed, 1 failed")
        return 1
    with tempfile.TemporaryDirectory() as room:
        built, folder = f"{room}/built", f"{room}/elsewhere/moved"
        steps.say("the script of the package", c_package.fault_of_rebuilds(f"{room}/script"))
        fault = ran([f"{TOP}/bin/vtdm-c", built], 3600)
        steps.say("the library", fault)
        if not fault:
            os.mkdir(os.path.dirname(folder))
            os.rename(built, folder)
            check_texts(steps, room, folder)
            run_tests(steps, room, folder)
            check_package(steps, folder, built)
            measure = f"{room}/measure"
            steps.say("measure", ran(compile_words(folder, measure, [f"{TOP}/c/measure.c"], [])) or ran([measure, "300"]))
    print(f"{steps.passed} passed, {steps.failed} failed")
    return 1 if steps.failed else 0


if __name__ == "__main__":
    sys.exit(main())
