#!/usr/bin/env python3
r"""Runs the examples by the built program, and compares all that it writes with the stored texts.

Each examples/NAME.script is run, and what is written compared with NAME.output; it is traced, and the trace is found legal; and what
`vtdm report` writes is compared with NAME.report, and what `vtdm report --iova` writes with NAME.iova, where there are such files.

Each script is run, each trace checked and a small storm made a second time, with no more of the stack than README says that they need.

Each examples/traces/NAME.trace is checked, and what is written compared with NAME.checked: the status is 0 where that says `legal`, and
else 4. What the converter makes of NAME.perf is to be NAME.trace.

Each examples/words/NAME.words is a command line. The program is given these words, and SCRIPT at its standard input. Its standard
output, standard error and status are compared with NAME.output, NAME.errors and NAME.status; where there is no such file, nothing
is to be written there, or the status is to be 0. Besides, these texts are of printable ASCII, none of their lines but one that
begins with `error: ` is over 80 columns, and a usage is a command that can be typed. With the word --store the texts are first
written anew: read them before you commit them.

A file of words has one word a line. In it `\\` is a backslash, `\xHH` the byte of these two hexadecimal digits, and `\{TEXT*N}`
the text N times. The last line of this script is `N passed, M failed`."""

import os
import re
import resource
import subprocess
import sys

TOP = os.path.dirname(os.path.dirname(os.path.abspath(__file__)))
EXAMPLES = f"{TOP}/examples"
WORDS = f"{EXAMPLES}/words"
TRACES = f"{EXAMPLES}/traces"
CONVERTER = f"{TRACES}/perf_to_trace.py"
VTDM = f"{TOP}/crates/vtdm/out/vtdm"
# What each command line is given to read. Of it a full history answers the second line otherwise.
SCRIPT = b"domain strict\ndomain lazy\n"
COLUMNS = 80
SECONDS = 60
# The most of the stack that a command needs, in KiB (README.md, Limits), and a small storm with its first words.
STACK = {"run": 84, "storm": 72, "check": 36}
STORM = ["storm", "--drivers=1", "--devices=1", "--calls=10"]
STORMED = b"storm drivers 1 devices 1 calls 10 events "
# The endings of what is stored of a script, and the command that writes it.
COMMANDS = {"output": ["run"], "report": ["report"], "iova": ["report", "--iova"]}
# The endings of the stored texts, and what they are.
STORED = {"output": "standard output", "errors": "standard error", "status": "status"}
ESCAPE = re.compile(rb"\\(?:(\\)|x([0-9a-f]{2})|\{([^*]+)\*([0-9]+)\})|(\\)", re.S)
USAGE = re.compile(r"^Usage:(.*(?:\n {7}.*)*)", re.M)


def bytes_of(path):
    with open(path, "rb") as file:
        return file.read()


def names_of(folder, ending):
    return sorted(it[: -len(ending)] for it in os.listdir(folder) if it.endswith(ending))


def fault_of_script(name, words, wanted):
    """Why the program's answer to the script isn't the one that is wanted, if it isn't."""
    if not os.path.isfile(wanted):
        return "there is no such file"
    ran = subprocess.run([VTDM, *words], input=bytes_of(f"{EXAMPLES}/{name}.script"), capture_output=True, timeout=SECONDS)
    if ran.returncode or ran.stderr:
        return f"status {ran.returncode}, {ran.stderr!r}"
    return None if ran.stdout == bytes_of(wanted) else f"the program writes {ran.stdout!r}"


def fault_where_traced(name):
    """Why the trace of a script isn't found legal, with as many events as the script has lines, if it isn't."""
    script = bytes_of(f"{EXAMPLES}/{name}.script")
    traced = subprocess.run([VTDM, "run", "--trace"], input=script, capture_output=True, timeout=SECONDS).stdout
    ran = subprocess.run([VTDM, "check"], input=traced, capture_output=True, timeout=SECONDS)
    return None if ran.stdout == b"legal %d\n" % script.count(b"\n") else f"the check writes {ran.stdout!r}, and {ran.stderr!r}"


def faults_of_scripts():
    """Each script's command with its stored text, and why it fails."""
    for name in names_of(EXAMPLES, ".script"):
        for ending, words in COMMANDS.items():
            path = f"{EXAMPLES}/{name}.{ending}"
            if ending == "output" or os.path.isfile(path):
                yield path, fault_of_script(name, words, path)
        yield f"{EXAMPLES}/{name}.script, traced", fault_where_traced(name)


def fault_of_trace(name):
    """Why the program's verdict on a trace isn't the stored one, if it isn't."""
    verdict = bytes_of(f"{TRACES}/{name}.checked")
    ran = subprocess.run([VTDM, "check"], input=bytes_of(f"{TRACES}/{name}.trace"), capture_output=True, timeout=SECONDS)
    if (ran.stdout, ran.stderr) != (verdict, b""):
        return f"the program writes {ran.stdout!r}, and {ran.stderr!r}"
    return None if ran.returncode == (0 if verdict.startswith(b"legal ") else 4) else f"the status is {ran.returncode}"


def fault_of_conversion(name):
    """Why the converter doesn't make the stored trace of recorded events, if it doesn't."""
    ran = subprocess.run([sys.executable, CONVERTER], input=bytes_of(f"{TRACES}/{name}.perf"), capture_output=True, timeout=SECONDS)
    return None if ran.stdout == bytes_of(f"{TRACES}/{name}.trace") else f"the converter writes {ran.stdout!r}, and {ran.stderr!r}"


def faults_of_traces():
    """Each trace and each recording, and why it fails."""
    for name in names_of(TRACES, ".trace"):
        yield f"{TRACES}/{name}.trace", fault_of_trace(name)
    for name in names_of(TRACES, ".perf"):
        yield f"{TRACES}/{name}.perf", fault_of_conversion(name)


def on_little_stack(words, given):
    """What a command writes, and its status, with no more of the stack than it needs, and with no environment, which lies on it too."""
    most = STACK[words[0]] * 1024
    ran = subprocess.run([VTDM, *words], input=given, capture_output=True, timeout=SECONDS, env={},
                         preexec_fn=lambda: resource.setrlimit(resource.RLIMIT_STACK, (most, most)))
    return ran.stdout, ran.stderr, ran.returncode


def faults_of_stack():
    """Each script, each trace and a storm on little stack, and why it fails."""
    for name in names_of(EXAMPLES, ".script"):
        wanted = bytes_of(f"{EXAMPLES}/{name}.output")
        wrote, said, status = on_little_stack(["run"], bytes_of(f"{EXAMPLES}/{name}.script"))
        yield f"{EXAMPLES}/{name}.script, on little stack", None if (wrote, status) == (wanted, 0) else f"status {status}, {said!r}"
    for name in names_of(TRACES, ".trace"):
        wrote, said, status = on_little_stack(["check"], bytes_of(f"{TRACES}/{name}.trace"))
        fault = None if wrote == bytes_of(f"{TRACES}/{name}.checked") else f"status {status}, {said!r}"
        yield f"{TRACES}/{name}.trace, on little stack", fault
    wrote, said, status = on_little_stack(STORM, b"")
    yield "a storm on little stack", None if wrote.startswith(STORMED) and status == 0 else f"status {status}, {said!r}"


def unescaped(found):
    backslash, byte, text, count, bad = found.groups()
    if bad:
        raise ValueError("a backslash that begins no escape")
    return backslash or (bytes([int(byte, 16)]) if byte else text * int(count))


def words_of(name):
    """The words of a command line."""
    text = bytes_of(f"{WORDS}/{name}.words")
    if text and not text.endswith(b"\n"):
        raise ValueError("its last line lacks its newline")
    return [ESCAPE.sub(unescaped, line) for line in text.split(b"\n")[:-1]]


def answers_of(name):
    """What the program answers to a command line, by the endings of its stored texts."""
    ran = subprocess.run([VTDM, *words_of(name)], input=SCRIPT, capture_output=True, timeout=SECONDS)
    return {"output": ran.stdout, "errors": ran.stderr, "status": b"%d\n" % ran.returncode if ran.returncode else b""}


def fault_of_text(text):
    """Why a text isn't one to show on a terminal, if it isn't."""
    if re.search(rb"[^\n -~]", text):
        return "has bytes that aren't printable"
    text = text.decode("ascii")
    if any(len(it) > COLUMNS and not it.startswith("error: ") for it in text.splitlines()):
        return f"has a line of more than {COLUMNS} columns"
    usages = [line for usage in USAGE.findall(text) for line in usage.splitlines()]
    return None if all(it.split()[:1] == ["vtdm"] for it in usages) else f"has the usage {usages}"


def fault_of_words(name):
    """Why the program's answer to a command line isn't the stored one, if it isn't."""
    faults = []
    for ending, text in answers_of(name).items():
        path = f"{WORDS}/{name}.{ending}"
        wanted = bytes_of(path) if os.path.isfile(path) else b""
        if text != wanted:
            faults.append(f"the {STORED[ending]} is {text!r}")
        fault = fault_of_text(text)
        if fault:
            faults.append(f"the {STORED[ending]} {fault}")
    return "; ".join(faults) or None


def faults_of_words():
    """Each command line, and why it fails; and each stored text that is of none."""
    names = names_of(WORDS, ".words")
    for name in names:
        try:
            fault = fault_of_words(name)
        except (ValueError, OSError, subprocess.TimeoutExpired) as error:
            fault = str(error)
        yield f"{WORDS}/{name}.words", fault
    for ending in STORED:
        for name in set(names_of(WORDS, f".{ending}")) - set(names):
            yield f"{WORDS}/{name}.{ending}", "there are no such words"
    if not names:
        yield WORDS, "there are no words"


def store():
    """Writes the texts of the command lines anew."""
    for name in names_of(WORDS, ".words"):
        for ending, text in answers_of(name).items():
            path = f"{WORDS}/{name}.{ending}"
            if text:
                with open(path, "wb") as file:
                    file.write(text)
            elif os.path.isfile(path):
                os.remove(path)


def main():
    if not os.path.isfile(VTDM):
        print("examples: the program isn't built; bin/vtdm builds it")
        print("0 passed, 1 failed")
        return 1
    if sys.argv[1:] == ["--store"]:
        store()
    passed = failed = 0
    for path, fault in [*faults_of_scripts(), *faults_of_traces(), *faults_of_stack(), *faults_of_words()]:
        passed, failed = passed + (fault is None), failed + (fault is not None)
        if fault:
            print(f"{os.path.relpath(path, TOP)}: {fault}")
    print(f"{passed} passed, {failed} failed")
    return 1 if failed else 0


if __name__ == "__main__":
    sys.exit(main())
