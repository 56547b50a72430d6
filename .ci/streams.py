#!/usr/bin/env python3
"""The program `vtdm`, as LLVM built it, over input, output and standard error that go wrong at each place.

Its streams move few bytes at a time, or, of a long script, more. One read fails or is interrupted, or one write fails, is interrupted
or takes nothing, each in turn, and then standard error too. Beside it: that answers come before the next read, what a command line
reads, options at their limits, runs that forget events, and words that are no text. The last line is `N passed, M failed`."""

import itertools
import os
import re
import subprocess
import sys
import tempfile

TOP = os.path.dirname(os.path.dirname(os.path.abspath(__file__)))
VTDM = f"{TOP}/crates/vtdm/out/vtdm"
SCRIPT = b"domain strict\nattach 3 1\nmap 1 0x100 1 0 rw\ndma 3 0x1234 r look fill\n"
BAD_LINE = b"domain strict\nno line\nattach 3 1\n"
# A script of several blocks, and of answers that are twice as long.
LONG_SCRIPT = b"unit\n" * 2_000
TASKS = (["run"], ["run", "--trace"], ["report"], ["report", "--iova"])
STORM = ["storm", "--drivers=1", "--devices=1", "--calls=1"]
# A legal trace, and one whose last event is no step.
TRACE = b"domain strict => domain 1\nmap 1 0x100 1 0 rw => map 0x1000\n"
TRACES = (TRACE, TRACE + b"map 1 0x100 1 0 rw => map 0x1000\n")
# What ends by words on standard error.
FAULTS = ((["run"], BAD_LINE), (["report"], BAD_LINE), (["run", "--frames", "15"], SCRIPT), (["reports"], SCRIPT),
          (["run", "\x1b"], SCRIPT))
USUAL_FRAMES, USUAL_CALLS = 64, 65_536
# Rounds of a lazy domain, in which a device's reads tell what the unit remembers, and a run's room that they go beyond many times.
FEW_CALLS = 16
ROUNDS = b"domain lazy\nattach 3 1\n" + b"".join(
    b"map 1 %d 1 0 rw\ndma 3 0x1000 r look fill\nunmap 1 0x1000 1\ndma 3 0x1000 r look\nflush 1\ndma 3 0x1000 r look\n" % (256 + n)
    for n in range(166))
# A stream of calls in pieces of so many lines, two of which map a page and unmap it. The first pieces take all the memory that the
# run is to have; the greatest is what it has for so many calls, its frames and its spaces, with some room.
PIECE = b"map 1 0x100 1 0 rw\nunmap 1 0x1000 1\n" * 5_000
PIECES, FIRST_PIECES = 300, 10
MOST_KILOBYTES, SPARE_KILOBYTES = 4_096, 128
# The most bytes that a call moves, that one moves of a long text, and those of a long script: a part of a block, and a block.
PART = 3
LARGE_PART = 64
LATE_PARTS = (1_500, 4_096)
# How a read goes wrong, and how a write does. A text that is written at once, as help, goes on where a write was interrupted.
ERRORS = ("failure", "interruption")
HITCHES = (*ERRORS, "nothing")
TEXT_HITCHES = ("failure", "nothing")
# Scripts, and what is written at once, with the most bytes that a call moves.
SCRIPTS = ((SCRIPT, PART), *((LONG_SCRIPT, part) for part in LATE_PARTS))
TEXTS = ((["run", "--help"], LARGE_PART), (["--version"], PART), (STORM, PART))


class Run:
    """One run in which the call of this number goes wrong for a stream, or none where it is 0: its status and what it wrote, and each
    call of its streams, as `r1` for a read of one newline, `w0` and `e0` for writes of none, `r!` for the one that went wrong."""

    def __init__(self, room, words, given, hitch="failure", read=0, write=0, error=0, part=PART):
        log = f"{room}/log"
        env = {"LD_PRELOAD": f"{room}/streams.so", "STREAMS_LOG": log, "HITCH": hitch, "PART": str(part)}
        env |= {"BAD_0": str(read), "BAD_1": str(write), "BAD_2": str(error)}
        # A file: how much of a pipe one read finds depends on who comes first.
        with open(f"{room}/given", "w+b") as file:
            file.write(given)
            file.seek(0)
            ran = subprocess.run([VTDM, *words], stdin=file, capture_output=True, env=env, timeout=60)
        self.status, self.output, self.said = ran.returncode, ran.stdout, ran.stderr
        with open(log, encoding="ascii") as file:
            self.calls = file.read().split()
        os.remove(log)

    def of(self, stream):
        """The calls of a stream: r, w or e."""
        return [it for it in self.calls if it[0] == stream]

    def stops_at(self, stream, others):
        """The one call of a stream that went wrong is its last, and the last of the others too."""
        at = self.calls.index(f"{stream}!")
        return not any(it[0] in stream + others for it in self.calls[at + 1:])


def plain(words, given):
    """A run as ever: its status, its output and what it said."""
    ran = subprocess.run([VTDM, *words], input=given, capture_output=True, timeout=60)
    return ran.returncode, ran.stdout, ran.stderr


def whole_lines(given):
    return given[: given.rfind(b"\n") + 1]


def command_lines(room):
    """A bad command line ends before anything is read. Help and a storm read nothing either."""
    bad = [[], ["reports"], ["run", "\x1b"], ["run", "--frames=15"], ["run", "--calls=0"], ["report", "--frames=4097"],
           ["report", "--calls=1048577"], ["storm", "--drivers=9", "--devices=1", "--calls=1"]]
    good = [STORM, ["--help"], ["run", "--help"], ["report", "--version"], ["storm", "--help"]]
    for status, lines in ((2, bad), (0, good)):
        for words in lines:
            run = Run(room, words, SCRIPT)
            yield words, (run.status, run.of("r"), bool(run.output), bool(run.said)) == (status, [], status == 0, status == 2)


def options_at_their_limits(_):
    """An option's least and greatest value are the manager's, beside the other option's usual one."""
    for option, frames, calls in (("--frames=16", 16, USUAL_CALLS), ("--frames=4096", 4096, USUAL_CALLS),
                                  ("--calls=1", USUAL_FRAMES, 1), ("--calls=1048576", USUAL_FRAMES, 1_048_576)):
        given = b"unit\n" * (calls + 1)
        yield f"run {option}", plain(["run", option], given) == (0, b"unit idle\n" * calls + b"refused 15\n", b"")
        status, output, _ = plain(["report", option], given)
        heads = [f"events {calls}".encode(), f"frames {frames} free 0 used 0 retired".encode()]
        yield f"report {option}", (status, output.splitlines()[:2]) == (0, heads)


def forgets_and_goes_on(_):
    """With little room and --forever a run is answered, and traced, as one with room for all. Without the option it is refused."""
    few, lines = f"--calls={FEW_CALLS}", ROUNDS.count(b"\n")
    for words in (["run"], ["run", "--trace"]):
        whole = plain([*words, "--calls=1048576"], ROUNDS)
        answers = whole[1].splitlines()
        yield words, (whole[0], len(answers), b"refused" in whole[1]) == (0, lines, False)
        yield (words, "forever"), plain([*words, few, "--forever"], ROUNDS) == whole
        refused = [] if "--trace" in words else [b"refused 15"] * (lines - FEW_CALLS)
        yield (words, few), plain([*words, few], ROUNDS)[1].splitlines() == answers[:FEW_CALLS] + refused


def most_memory(process):
    """The most memory that a process had so far, in kilobytes."""
    with open(f"/proc/{process.pid}/status", encoding="ascii") as file:
        return int(re.search(r"^VmHWM:\s*([0-9]+) kB$", file.read(), re.M)[1])


def memory_stays_flat(_):
    """A run with --forever has no more memory after all pieces of a stream than after the first ones, and goes on to its end."""
    words = [VTDM, "run", "--forever", "--calls=1024"]
    with subprocess.Popen(words, stdin=subprocess.PIPE, stdout=subprocess.DEVNULL) as process:
        process.stdin.write(b"domain strict\n")
        seen = []
        for number in range(PIECES):
            process.stdin.write(PIECE)
            if number + 1 in (FIRST_PIECES, PIECES):
                seen.append(most_memory(process))
        process.stdin.close()
        yield "status", process.wait(timeout=60) == 0
    yield ("kilobytes", seen), seen[1] <= min(seen[0] + SPARE_KILOBYTES, MOST_KILOBYTES)


def parts_of_streams(room):
    """What moves in small parts is what moves at once."""
    for words in TASKS:
        for given in (SCRIPT, BAD_LINE):
            run = Run(room, words, given)
            yield (words, given), (run.status, run.output, run.said) == plain(words, given)


def answers_before_the_next_read(room):
    """Each line that was read whole is answered before more is read."""
    asked = answered = 0
    for call in Run(room, ["run"], SCRIPT).calls:
        if call[0] == "r":
            yield call, answered == asked
            asked += int(call[1:])
        else:
            answered += int(call[1:])
    yield "all", answered == SCRIPT.count(b"\n")


def reads_fail(room):
    """Where a read fails or is interrupted, the whole lines before it are answered, or reported, nothing is read after it, and standard
    error says so; the status stays where that fails too."""
    for words, (given, part) in itertools.product(TASKS, SCRIPTS):
        reads = len(Run(room, words, given, part=part).of("r"))
        yield (words, part), reads > len(given) // part
        for bad, hitch in itertools.product(range(1, reads + 1), ERRORS):
            output = plain(words, whole_lines(given[: part * (bad - 1)]))[1]
            run = Run(room, words, given, hitch, read=bad, part=part)
            yield (words, part, bad, hitch), (run.status, run.output, run.said) == (1, output, b"input failed\n")
            yield (words, part, bad, hitch, "stops"), run.stops_at("r", "w" if words[0] == "run" else "")
            if hitch == "failure":
                untold = Run(room, words, given, read=bad, error=1, part=part)
                yield (words, part, bad, 1), (untold.status, untold.of("e"), untold.output) == (1, ["e!"], output)


def writes_go_wrong(room):
    """Where a write to the output goes wrong, what was taken before it is written, nothing is read or written after, and standard
    error says so; the status stays where that goes wrong too. So it is with a report after a read that failed, or a bad line."""
    cases = [(words, given, 0, part, HITCHES) for words in TASKS for given, part in (*SCRIPTS, (BAD_LINE, PART))]
    cases += [(["report"], SCRIPT, bad_read, PART, HITCHES) for bad_read in (5, 6)]
    cases += [(words, b"", 0, part, TEXT_HITCHES) for words, part in TEXTS]
    for words, given, bad_read, part, hitches in cases:
        whole = Run(room, words, given, read=bad_read, part=part)
        yield words, len(whole.of("w")) > 0
        for bad, hitch in itertools.product(range(1, len(whole.of("w")) + 1), hitches):
            run = Run(room, words, given, hitch, read=bad_read, write=bad, part=part)
            is_beginning = run.output != whole.output and whole.output.startswith(run.output)
            yield (words, hitch, bad), (run.status, run.said, is_beginning) == (1, b"output failed\n", True)
            yield (words, hitch, bad, "stops"), run.stops_at("w", "r")
            if hitch in TEXT_HITCHES:
                untold = Run(room, words, given, hitch, read=bad_read, write=bad, error=1, part=part)
                yield (words, hitch, bad, 1), (untold.status, untold.of("e"), untold.output) == (1, ["e!"], run.output)


def verdicts(room):
    """A trace that moves in small parts has the verdict of one that moves at once. Where a read goes wrong, it has none; where the write
    of it does, a beginning of it is written, and nothing after."""
    for trace in TRACES:
        whole = Run(room, ["check"], trace, part=PART)
        yield trace, (whole.status, whole.output, whole.said) == plain(["check"], trace)
        for bad, hitch in itertools.product(range(1, len(whole.of("r")) + 1), ERRORS):
            run = Run(room, ["check"], trace, hitch, read=bad, part=PART)
            yield (trace, bad, hitch), (run.status, run.output, run.said) == (1, b"", b"input failed\n")
            yield (trace, bad, hitch, "stops"), run.stops_at("r", "")
        for bad, hitch in itertools.product(range(1, len(whole.of("w")) + 1), TEXT_HITCHES):
            run = Run(room, ["check"], trace, hitch, write=bad, part=PART)
            is_beginning = run.output != whole.output and whole.output.startswith(run.output)
            yield (trace, bad, hitch), (run.status, run.said, is_beginning) == (1, b"output failed\n", True)
            yield (trace, bad, hitch, "stops"), run.stops_at("w", "r")


def texts_go_on(room):
    """Where a write of help, of a storm's line or of an error is interrupted, it is made again, and all is as ever."""
    for words, given, stream, part in [(words, b"", "w", part) for words, part in TEXTS] + [(*it, "e", PART) for it in FAULTS]:
        whole = Run(room, words, given, part=part)
        yield words, len(whole.of(stream)) > 0
        for bad in range(1, len(whole.of(stream)) + 1):
            place = {"write": bad} if stream == "w" else {"error": bad}
            run = Run(room, words, given, "interruption", part=part, **place)
            yield (words, bad), (run.status, run.output, run.said) == (whole.status, whole.output, whole.said)
            yield (words, bad, "again"), len(run.of(stream)) == len(whole.of(stream)) + 1


def errors_go_wrong(room):
    """Where a write to standard error goes wrong, a beginning of it is written and nothing after, and the status and output stay."""
    for words, given in FAULTS:
        whole = Run(room, words, given)
        yield words, len(whole.of("e")) > 0
        for hitch in TEXT_HITCHES:
            for bad in range(1, len(whole.of("e")) + 1):
                run = Run(room, words, given, hitch, error=bad)
                is_beginning = whole.said.startswith(run.said) and run.said != whole.said
                yield (words, hitch, bad), (run.status, run.output, is_beginning, run.stops_at("e", "rw")) == (2, whole.output, True, True)


def words_that_are_no_text(room):
    """Where a word isn't UTF-8, nothing is read, and standard error says so; the status stays where that goes wrong too."""
    for hitch in TEXT_HITCHES:
        run = Run(room, ["run", b"\xff"], SCRIPT)
        yield hitch, (run.status, run.output, run.of("r")) == (2, b"", [])
        yield hitch, run.said == b"error: a word of the command line isn't UTF-8\n"
        untold = Run(room, ["run", b"\xff"], SCRIPT, hitch, error=1)
        yield (hitch, 1), (untold.status, untold.of("e"), untold.output) == (2, ["e!"], b"")


STEPS = (command_lines, options_at_their_limits, forgets_and_goes_on, memory_stays_flat, parts_of_streams, answers_before_the_next_read,
         reads_fail, writes_go_wrong, verdicts, texts_go_on, errors_go_wrong, words_that_are_no_text)


def main():
    failed = 0
    with tempfile.TemporaryDirectory() as room:
        words = ["cc", "-Wall", "-Wextra", "-shared", "-fPIC", "-O2", "-o", f"{room}/streams.so", f"{TOP}/.ci/streams.c"]
        try:
            subprocess.run(words, check=True)
        except (OSError, subprocess.CalledProcessError) as error:
            print(f"streams: a C compiler is needed, by the name cc ({error})\n0 passed, 1 failed")
            return 1
        for step in STEPS:
            tried = list(step(room))
            faults = [what for what, is_right in tried if not is_right]
            failed += bool(faults or not tried)
            print(f"streams, {step.__name__}: {faults[:3] if faults else f'ok ({len(tried)} tried)'}", flush=True)
    print(f"{len(STEPS) - failed} passed, {failed} failed")
    return 1 if failed else 0


if __name__ == "__main__":
    sys.exit(main())
