#!/usr/bin/env python3
r"""Runs the rows in examples/rows by the built program: scripts with what they are to be answered.

A file NAME.row holds runs of the program. Lines of it that begin with `#` say what is shown, and are no part of a run. A run is

    $ vtdm WORDS        the command line
    > TEXT              a line of the script; a backslash at its end stands for a line without its newline
    TEXT                a line that the program is to write; `...` alone stands for any lines
    ! TEXT              a line that it is to write to standard error
    ? STATUS            the exit status, where it isn't 0

Lines between `@ FIRST..LAST` and `@` stand for themselves with n from FIRST to LAST; in them `{n}`, `{4096*n}` and `{4096*n+1}`
are numbers, and `{hex 4096*n}` one in hexadecimal. `\\` is a backslash, `\xHH` the byte of these two hexadecimal digits, and
`\{TEXT*N}` the text N times.

Besides, each run of a script is run again with Caching Mode, but those of RING_ASKED, and is to do the same; each whose domains are
all strict is run again with entries of each cache evicted between all lines, with Caching Mode and without it, and the answers are
to be the same; each is traced, which writes its lines with their answers, and the trace is found legal; the scripts of CUT are cut at
each byte; and each command that reads a script meets input and output that fail. The last line of this
script is `N passed, M failed`, a run each."""

import os
import re
import subprocess
import sys

TOP = os.path.dirname(os.path.dirname(os.path.abspath(__file__)))
ROWS = f"{TOP}/examples/rows"
VTDM = f"{TOP}/crates/vtdm/out/vtdm"
SECONDS = 60
ESCAPE = re.compile(rb"\\(?:(\\)|x([0-9a-f]{2})|\{([^*]+)\*([0-9]+)\})|(\\)", re.S)
NUMBER = re.compile(r"\{(hex )?(?:(\d+)\*)?n(?:\+(\d+))?\}")
LOOP = re.compile(r"@ (\d+)\.\.(\d+)")
# What a call is answered for which the history has no room.
FULL = "refused 15"
# The rows whose scripts are cut at each byte.
CUT = ["split-leaf.row", "lazy-reuse.row"]
# What asks for Caching Mode, and the runs, by file and number, where it changes an answer. There a map comes while descriptors wait, and
# works them off with its own, and a step of the unit is asked for later.
CACHING_MODE = "--caching-mode"
RING_ASKED = [("begun-flush-and-a-device.row", 1), ("caching-mode.row", 6)]
# Between two lines, the entries that are evicted of each cache, and what that is answered.
EVICTED = 4
CACHES = (b"leaf", b"nonleaf", b"context", b"fault")
EVICTIONS = b"".join(b"evict %s %d\n" % (cache, place) for place in range(EVICTED) for cache in CACHES)
EVICTION_ANSWERS = b"ok\n" * (len(CACHES) * EVICTED)
# What the caches, or their number of descriptors, may change.
UNEVICTED = re.compile(rb"^(domain lazy|begin|reap|unit|evict)\b", re.M)


class Run:
    """A run of the program, and what it is to do."""

    def __init__(self, words):
        self.words, self.script, self.output, self.errors, self.status = words, b"", [], b"", 0

    def fault(self, program):
        """Why a program does otherwise, if it does."""
        return fault_of([*program, *self.words], self.script, pattern_of(self.output), self.errors, self.status)

    def with_caching_mode(self):
        """The same run with Caching Mode."""
        run = Run([*self.words, CACHING_MODE])
        run.script, run.output, run.errors, run.status = self.script, self.output, self.errors, self.status
        return run


def unescaped(text):
    def one(found):
        backslash, byte, text, count, bad = found.groups()
        if bad:
            raise ValueError("a backslash that begins no escape")
        return backslash or (bytes([int(byte, 16)]) if byte else text * int(count))

    return ESCAPE.sub(one, text.encode("ascii"))


def numbered(line, n):
    def one(found):
        number = int(found[2] or 1) * n + int(found[3] or 0)
        return hex(number) if found[1] else str(number)

    return NUMBER.sub(one, line)


def unrolled(lines):
    """The lines with those of each loop as often as it says."""
    wanted, body = [], None
    for line in lines:
        loop = LOOP.fullmatch(line)
        if loop:
            first, last, body = int(loop[1]), int(loop[2]), []
        elif line == "@":
            wanted += [numbered(it, n) for n in range(first, last + 1) for it in body]
            body = None
        else:
            (wanted if body is None else body).append(line)
    if body is not None:
        raise ValueError("a loop without its end")
    return wanted


def runs_of(name):
    """The runs of a file."""
    with open(f"{ROWS}/{name}", encoding="ascii") as file:
        lines = file.read().split("\n")
    if lines.pop():
        raise ValueError("its last line lacks its newline")
    runs = []
    for line in unrolled([it for it in lines if it and not it.startswith("#")]):
        if line.startswith("$ vtdm "):
            runs.append(Run(line.split()[2:]))
        elif line.startswith(">"):
            text = line[2:]
            runs[-1].script += unescaped(text[:-1]) if re.search(r"(?<!\\)\\$", text) else unescaped(text) + b"\n"
        elif line.startswith("! "):
            runs[-1].errors += unescaped(line[2:]) + b"\n"
        elif line.startswith("? "):
            runs[-1].status = int(line[2:])
        else:
            runs[-1].output.append(line)
    return runs


def pattern_of(lines):
    """What matches an output of these lines."""
    once = [it for it, before in zip(lines, [None, *lines]) if (it, before) != ("...", "...")]
    return b"".join(rb"(?:.*\n)*?" if it == "..." else re.escape(unescaped(it) + b"\n") for it in once)


def fault_of(words, script, pattern, errors, status):
    ran = subprocess.run(words, input=script, capture_output=True, timeout=SECONDS)
    if not re.fullmatch(pattern, ran.stdout):
        return f"standard output is {ran.stdout[-300:]!r}"
    if ran.stderr != errors:
        return f"standard error is {ran.stderr!r}"
    return None if ran.returncode == status else f"the status is {ran.returncode}"


def answers_of(words, script):
    return subprocess.run(words, input=script, capture_output=True, timeout=SECONDS).stdout


def fault_where_evicted(run, program):
    """Why the answers aren't the same with entries evicted between all lines, if they aren't."""
    woven = re.sub(rb"\n", lambda it: b"\n" + EVICTIONS, run.script)
    words = [*program, *run.words]
    answers = re.sub(rb"\n", lambda it: b"\n" + EVICTION_ANSWERS, answers_of(words, run.script))
    return fault_of(words, woven, re.escape(answers), b"", 0)


def fault_where_cut(run):
    """Why the whole lines before a cut aren't answered alone, if they aren't. A cut inside a line makes it a bad one."""
    words = [VTDM, *run.words]
    answers = answers_of(words, run.script).splitlines(keepends=True)
    for end in range(len(run.script) + 1):
        script = run.script[:end]
        whole = script.count(b"\n")
        inside = script and not script.endswith(b"\n")
        errors = b"line %d\n" % (whole + 1) if inside else b""
        fault = fault_of(words, script, re.escape(b"".join(answers[:whole])), errors, 2 if inside else 0)
        if fault:
            return f"cut at byte {end}: {fault}"
    return None


def fault_where_traced(run):
    """Why the trace of a script isn't its lines with their answers, as far as they are entered, or is found illegal, if it is so."""
    answers = zip(run.script.splitlines(), answers_of([VTDM, *run.words], run.script).splitlines())
    events = [b"%s => %s\n" % it for it in answers if it[1] != FULL.encode()]
    fault = fault_of([VTDM, *run.words, "--trace"], run.script, re.escape(b"".join(events)), run.errors, run.status)
    frames = [it for option in zip(run.words, run.words[1:]) if option[0] == "--frames" for it in option]
    return fault or fault_of([VTDM, "check", *frames], b"".join(events), b"legal %d\n" % len(events), b"", 0)


def is_evicted(run):
    """Whether evictions are to change no answer: the domains are strict, no line is bad, and the history has room."""
    return run.words[0] == "run" and not (run.status or "--calls" in run.words or UNEVICTED.search(run.script))


def with_the_mode(name, number, run):
    """A run of a file, and the same with Caching Mode where that changes no answer."""
    yield run
    if (name, number) not in RING_ASKED and CACHING_MODE not in run.words and run.words[0] in ("run", "report"):
        yield run.with_caching_mode()


def faults_of(name):
    """Each thing that is tried of a file, and why it fails."""
    for number, run in enumerate(runs_of(name), 1):
        for each in with_the_mode(name, number, run):
            yield f"run {number} by {each.words}", each.fault([VTDM])
            if each.words[0] == "run":
                yield f"run {number} by {each.words}, traced", fault_where_traced(each)
            if is_evicted(each):
                yield f"run {number} by {each.words}, with evictions", fault_where_evicted(each, [VTDM])
        if name in CUT and run.words[0] == "run":
            yield f"run {number}, cut", fault_where_cut(run)


def fault_elsewhere(program, evicts):
    """Why another program, which answers good lines, and has no history and no option but --frames and Caching Mode, fails at a row,
    if it does."""
    for name in sorted(os.listdir(ROWS)):
        runs = runs_of(name)
        for number, run in enumerate(runs, 1):
            if any(FULL in it.output for it in runs) or run.errors or {"check", "--calls", "--iova"} & set(run.words):
                continue
            for each in with_the_mode(name, number, run):
                fault = each.fault(program) or (evicts and is_evicted(each) and fault_where_evicted(each, program))
                if fault:
                    return f"{name}, run {number} by {each.words}: {fault}"
    return None


def fault_of_end(words, said, **ends):
    """Why the program doesn't end with this line on standard error and the status of failed input or output, if it doesn't."""
    ran = subprocess.run([VTDM, *words], stderr=subprocess.PIPE, timeout=SECONDS, **ends)
    return None if (ran.returncode, ran.stderr) == (1, said) else f"standard error is {ran.stderr!r}, the status {ran.returncode}"


def faults_of_ends():
    """Input that can't be read, and output that can't be written, of each command."""
    with open("/dev/full", "wb") as full:
        for words in (["run"], ["run", "--trace"], ["report"], ["report", "--iova"]):
            folder = os.open(ROWS, os.O_RDONLY)
            yield f"{words}, a folder as input", fault_of_end(words, b"input failed\n", stdin=folder, stdout=subprocess.DEVNULL)
            os.close(folder)
            yield f"{words}, a full output", fault_of_end(words, b"output failed\n", input=b"domain strict\n", stdout=full)


def tried_of(name):
    """Each thing that is tried of a file, and why it fails; of a bad file, why it's bad."""
    if not name.endswith(".row"):
        return [("name", "it doesn't end in .row")]
    try:
        return list(faults_of(name)) or [("row", "it has no run")]
    except (ValueError, IndexError, OSError, subprocess.TimeoutExpired) as error:
        return [("row", str(error) or "it can't be read")]


def main():
    if not os.path.isfile(VTDM):
        print("rows: the program isn't built; bin/vtdm builds it")
        print("0 passed, 1 failed")
        return 1
    tried = [(name, *it) for name in sorted(os.listdir(ROWS)) for it in tried_of(name)]
    tried += [("failing ends", *it) for it in faults_of_ends()]
    failed = [it for it in tried if it[2]]
    for name, what, fault in failed:
        print(f"{name}, {what}: {fault}")
    print(f"{len(tried) - len(failed)} passed, {len(failed)} failed")
    return 1 if failed else 0


if __name__ == "__main__":
    sys.exit(main())
