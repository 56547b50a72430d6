#!/usr/bin/env python3
"""Refuses each request for memory of the programs in turn, as LLVM built them: what they then answer, and that nothing leaks.
Likewise each thread of a storm.

Of `vtdm` the answer is `no memory` with status 3, and what was written is a beginning of what ample memory gives (of a report
nothing), or all is as with ample memory. Of `memory` one thing lacks memory, and the others are answered as ever. Of a storm
the answer is `no thread` where a thread is refused. Where a request is refused that the toolchain or the C library makes for a
thread, either may be answered; there are no others once the first thread was asked for. No run holds a block at its end.

An address space that is too small has no room for what the program asks for, or for its stack to grow: within it `vtdm` answers
that there is no memory, or all, from where the system can load it on; and a storm that there is no memory, or no thread.

That each way to ask for memory is seen is tried first, by a program of its own; and the programs import no other way. The last
line is `N passed, M failed`."""

import os
import subprocess
import sys
import tempfile

TOP = os.path.dirname(os.path.dirname(os.path.abspath(__file__)))
VTDM = f"{TOP}/crates/vtdm/out/vtdm"
MEMORY = f"{TOP}/crates/memory/out/memory"
SMALL = ["--frames", "16", "--calls", "100"]
STORM = [VTDM, "storm", "--drivers", "2", "--devices", "2", "--calls", "3"]
STORM_THREADS = 5
SMALL_STORM = [VTDM, "storm", "--drivers", "1", "--devices", "1", "--calls", "1"]
# What is asked for at the making of a thread: by the toolchain, before it asks for the thread, and then by the C library at most. The
# latter also uses again what a thread had that has ended.
TOOLCHAIN_REQUESTS = 1
C_LIBRARY_REQUESTS = 1
WAYS = ("malloc", "calloc", "realloc", "posix_memalign", "aligned_alloc", "memalign")
# The C library's other calls that hand out memory.
OTHER_WAYS = {
    *("mmap", "mmap64", "mremap", "brk", "sbrk", "valloc", "pvalloc", "reallocarray", "strdup", "strndup", "asprintf", "vasprintf"),
    *("getline", "getdelim", "fopen", "fdopen", "open_memstream", "opendir", "getaddrinfo"),
}
SCRIPT = b"domain strict\nattach 3 1\nmap 1 0x400 512 9 rw\nunmap 1 0x201000 1\ndma 3 0x202000 r look fill\n"
TRACE = b"domain lazy => domain 1\nmap 1 0x100 1 0 rw => map 0x1000\nunmap 1 0x1000 1 => unmapped 0\n"
REUSED = b"map 1 0x200 1 0 rw => map 0x1000\n"
# Segments of maps that lie side by side, each a frame and its pages. Their frames don't follow one another, so that each is a run of its
# own. They are as many as an unmap takes in one call. And how many a map has at most.
SEGMENTS = [(0x100, 2), *[(0x200 + 2 * at, 1) for at in range(31)], (0x300, 2)]
MOST_SEGMENTS, PAGE_BYTES = 16, 4096
# An address space of as many KiB is given to a command; and how far they lie apart, from the least one tried on: a page. Past the one
# in which a program first has room so many more are tried.
WITHIN = 'ulimit -v "$0" && exec "$@"'
SPACE_STEP, LEAST_SPACE, MORE_SPACES = 4, 2_000, 20
# The status where there is no room to load the program.
NOT_LOADED = 127
NO_MEMORY = (3, b"no memory\n")
NO_THREAD = (3, b"no thread\n")


def cutting_trace(mode):
    """A trace whose unmap takes a part of each of the segments: of the first one its second page, of the last one its first. So two
    runs are cut, and the pages on both sides stay."""
    lines, page = [f"domain {mode} => domain 1", "attach 3 1 => ok"], 1
    for at in range(0, len(SEGMENTS), MOST_SEGMENTS):
        part = SEGMENTS[at:at + MOST_SEGMENTS]
        listed = " ".join(f"{frame:#x}:{pages}" for frame, pages in part)
        lines.append(f"maplist 1 0 rw {listed} => map {page * PAGE_BYTES:#x}")
        page += sum(pages for _, pages in part)
    lines.append(f"unmap 1 {2 * PAGE_BYTES:#x} {page - 3} => unmapped 0")
    for stays, frame in ((1, SEGMENTS[0][0]), (page - 1, SEGMENTS[-1][0] + 1)):
        lines.append(f"dma 3 {stays * PAGE_BYTES:#x} r => host {frame * PAGE_BYTES:#x}")
    return "".join(f"{it}\n" for it in lines).encode("ascii")


class Run:
    """One run of a program in which the request of this number is refused, or none where it is 0.

    Its output, what it said on standard error, its status; and its requests: all, those before the first thread, and those of the
    C library while threads were made; how many blocks it held at its end; and how many threads it joined."""

    def __init__(self, room, words, given, number, what="REFUSE"):
        log = f"{room}/log"
        env = {"LD_PRELOAD": f"{room}/refuse.so", what: str(number), "REFUSE_LOG": log}
        ran = subprocess.run(words, input=given, capture_output=True, env=env, timeout=60)
        self.number, self.output, self.said, self.status = number, ran.stdout, ran.stderr, ran.returncode
        with open(log, encoding="ascii") as file:
            self.asked, self.before, self.in_making, self.held, self.joined = map(int, file.read().split())
        os.remove(log)


def is_same(run, ample):
    return (run.status, run.output, run.said) == (ample.status, ample.output, ample.said)


def stops(run, ample):
    """There is no memory, and what was written is a beginning of the whole."""
    return (run.status, run.said) == NO_MEMORY and ample.output.startswith(run.output)


def writes_nothing(run, ample):
    return (run.status, run.said) == NO_MEMORY and not run.output


def is_no_storm(run, ample):
    """There is no memory; or no thread, where the request is one for a thread."""
    is_for_thread = run.number > ample.before - TOOLCHAIN_REQUESTS
    return (run.status, run.said) in (NO_MEMORY, *[NO_THREAD] * is_for_thread) and not run.output


def lacks_one(run, ample):
    """One thing lacks memory; all other lines stand, up to the end or to the thing without which there is no more."""
    lines, whole = run.output.splitlines(), ample.output.splitlines()
    lacking = [line.split()[0] for line in lines if line.endswith(b" no memory")]
    if run.status or run.said or len(lacking) != 1:
        return False
    rest = [line for line in lines if not line.endswith(b" no memory")]
    if lacking == [b"report"]:
        report = whole[whole.index(b"events 1"):][: len(whole[whole.index(b"events 1"):]) // 2]
        return rest == whole[: -len(report)]
    before = [line for line in whole if line.split()[0] != lacking[0]]
    if lacking[0] in (b"seed", b"manager"):
        return lines[-1] == lacking[0] + b" no memory" and rest == whole[: len(rest)]
    return rest == before


CASES = [
    ("run", [VTDM, "run", *SMALL], SCRIPT, stops),
    ("run of a bad line", [VTDM, "run", *SMALL], SCRIPT + b"drop\n", stops),
    ("trace", [VTDM, "run", "--trace", *SMALL], SCRIPT, stops),
    ("run that forgets", [VTDM, "run", "--forever", "--frames", "16", "--calls", "1"], SCRIPT, stops),
    ("report", [VTDM, "report", *SMALL], SCRIPT, writes_nothing),
    ("check of a legal trace", [VTDM, "check"], TRACE, writes_nothing),
    ("check of another", [VTDM, "check"], TRACE + REUSED, writes_nothing),
    ("check of a strict unmap of cut runs", [VTDM, "check"], cutting_trace("strict"), writes_nothing),
    ("check of a lazy unmap of cut runs", [VTDM, "check"], cutting_trace("lazy"), writes_nothing),
    ("help", [VTDM, "run", "--help"], b"", writes_nothing),
    ("bad command line", [VTDM, "run", "--frames", "15"], b"", writes_nothing),
    ("storm", STORM, b"", is_no_storm),
    ("each thing that takes memory", [MEMORY], b"", lacks_one),
]


def fault_of(room, words, given, fits):
    """Why a case fails, if it does."""
    ample = Run(room, words, given, 0)
    for number in range(1, ample.asked + 1):
        run = Run(room, words, given, number)
        if not is_same(run, ample) and not fits(run, ample):
            return f"request {number}: status {run.status}, {run.said!r}, {run.output!r}"
        if run.held:
            return f"request {number}: {run.held} blocks are held at the end"
    if ample.held:
        return f"{ample.held} blocks are held at the end"
    return None if ample.asked else "it asks for no memory"


def fault_of_requests(ample):
    """Why the requests of a storm aren't those before its threads and those for its threads, if they aren't."""
    if not 1 <= ample.in_making <= STORM_THREADS * C_LIBRARY_REQUESTS:
        return f"the C library asks {ample.in_making} times for {STORM_THREADS} threads"
    others = ample.asked - ample.before - ample.in_making - (STORM_THREADS - 1) * TOOLCHAIN_REQUESTS
    return f"{others} requests after the first thread are for none" if others else None


def fault_of_threads(room):
    """Why a storm with a refused thread goes wrong, if it does: those that were made before it are joined, and nothing leaks."""
    ample = Run(room, STORM, b"", 0)
    if ample.joined != STORM_THREADS:
        return f"{ample.joined} of {STORM_THREADS} threads are joined"
    for number in range(1, STORM_THREADS + 1):
        run = Run(room, STORM, b"", number, "REFUSE_THREAD")
        if (run.status, run.said) != NO_THREAD or run.output or run.held:
            return f"thread {number}: status {run.status}, {run.said!r}, {run.output!r}, {run.held} blocks held"
        if run.joined != number - 1:
            return f"thread {number}: {run.joined} of the {number - 1} before it are joined"
    if not is_same(Run(room, STORM, b"", STORM_THREADS + 1, "REFUSE_THREAD"), ample):
        return "there are more threads"
    return fault_of_requests(ample)


def within(space, words):
    """What a program does in an address space of as many KiB: its status, its output and what it said."""
    ran = subprocess.run(["bash", "-c", WITHIN, str(space), *words], input=SCRIPT, capture_output=True, env={}, timeout=60)
    return ran.returncode, ran.stdout, ran.stderr


def fault_of_spaces():
    """Why the program does otherwise than to say that there is no memory (of a storm, or no thread), or to do all, in an address space in
    which it is loaded."""
    for words in ([VTDM, "run", *SMALL], [VTDM, "report", *SMALL], [VTDM, "report", "--iova", *SMALL], SMALL_STORM):
        ample = within("unlimited", words)
        # The stacks of threads take far more than such steps: a storm is tried up to where it is told that there is no thread.
        last = (NO_THREAD[0], b"", NO_THREAD[1]) if words is SMALL_STORM else ample
        space, is_loaded, done, lacked = LEAST_SPACE, False, 0, 0
        while done < MORE_SPACES:
            space += SPACE_STEP
            status, output, said = within(space, words)
            if not is_loaded and status == NOT_LOADED:
                continue
            is_loaded = True
            if (status, output, said) == last:
                done += 1
            elif (status, said) == NO_MEMORY and ample[1].startswith(output):
                lacked, done = lacked + 1, 0
            else:
                return f"{words[1:]} in {space} KiB: status {status}, {said!r}, {output!r}"
        if ample[0] or not lacked:
            return f"{words[1:]}: status {ample[0]}, and {lacked} times there was no memory"
    return None


def fault_of_ways(room):
    """Why a way to ask for memory isn't seen, if one isn't: each is refused in turn, and else given."""
    for number in range(len(WAYS) + 1):
        run = Run(room, [f"{room}/asks"], b"", number)
        wanted = [f"{way} {'refused' if at == number else 'given'}" for at, way in enumerate(WAYS, 1)]
        if run.output.decode("ascii").splitlines() != wanted or run.asked != len(WAYS) or run.held:
            return f"request {number} of {run.asked}: {run.output!r}, {run.held} blocks are held at the end"
    for program in (VTDM, MEMORY):
        listed = subprocess.run(["nm", "-D", "--undefined-only", program], capture_output=True, text=True, check=True).stdout
        others = OTHER_WAYS & {line.split()[-1].split("@")[0] for line in listed.splitlines()}
        if others:
            return f"{os.path.relpath(program, TOP)} has {', '.join(sorted(others))}, whose requests aren't seen"
    return None


def build(room):
    """The library that is preloaded, and the program that asks in each way."""
    for words in (["-shared", "-fPIC", "-O2", "-o", f"{room}/refuse.so", f"{TOP}/.ci/refuse.c", "-ldl"],
                  ["-O0", "-o", f"{room}/asks", f"{TOP}/.ci/asks.c"]):
        subprocess.run(["cc", "-Wall", "-Wextra", *words], check=True)


def main():
    faults = {}
    with tempfile.TemporaryDirectory() as room:
        try:
            build(room)
        except (OSError, subprocess.CalledProcessError) as error:
            print(f"refused memory: a C compiler is needed, by the name cc ({error})")
            print("0 passed, 1 failed")
            return 1
        steps = {"refused memory, each way to ask": lambda: fault_of_ways(room)}
        for name, *case in CASES:
            steps[f"refused memory, {name}"] = lambda case=case: fault_of(room, *case)
        steps["refused threads"] = lambda: fault_of_threads(room)
        steps["address spaces that are too small"] = fault_of_spaces
        for name, step in steps.items():
            faults[name] = step()
            print(f"{name}: {faults[name] or 'ok'}", flush=True)
    failed = sum(it is not None for it in faults.values())
    print(f"{len(faults) - failed} passed, {failed} failed")
    return 1 if failed else 0


if __name__ == "__main__":
    sys.exit(main())
