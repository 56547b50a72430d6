#!/usr/bin/env python3
"""Builds the C library into a folder, and runs the guest of examples/qemu with it on QEMU's VT-d unit, where QEMU is: each run as it is
meant differs in nothing, and each that leaves a part of the protocol out differs in something. The last line is `N passed, M failed`, and
where there is no qemu-system-x86_64 `0 passed, 0 failed`."""

import concurrent.futures
import os
import re
import shutil
import subprocess
import sys
import tempfile

TOP = os.path.dirname(os.path.dirname(os.path.abspath(__file__)))
# The names that run.sh takes: of runs that agree, and of runs that show that the guest can fail.
AGREE = [[], ["WIDE"], ["CACHING"], ["WIDE", "CACHING"], ["BASE"], ["WIDE", "BASE_BEHIND"], ["IN_PLACE"]]
DIFFER = [
    ["WITHOUT_DESCRIPTORS"],
    ["WRONG_ORDER"],
    ["WORDS_LATE"],
    ["WRONG_HALVES"],
    ["BASE", "WITHOUT_BASE"],
    ["DETACH_ALONE"],
    ["IN_PLACE", "WITHOUT_DESCRIPTORS"],
]
# How many comparisons a run makes; with WIDE two fewer, of requests beyond 39 bits. Another number would be of a guest that ended early or
# leaves a case out.
COMPARISONS = 140
BEYOND_39_BITS = 2


def run(folder, names):
    """How many comparisons agree and how many differ, and all that was said."""
    try:
        done = subprocess.run(
            [f"{TOP}/examples/qemu/run.sh", folder, *names], stdout=subprocess.PIPE, stderr=subprocess.STDOUT, text=True, timeout=600
        )
    except (OSError, subprocess.TimeoutExpired) as error:
        return 0, 0, str(error)
    found = re.search(r"^(\d+) agree, (\d+) differ$", done.stdout, re.M)
    agree, differ = (int(it) for it in found.groups()) if found else (0, 0)
    expected = 1 if differ else 0
    return agree, differ, None if found and done.returncode == expected else f"status {done.returncode}\n{done.stdout[-2000:]}"


def fault(folder, names, differs):
    agree, differ, said = run(folder, names)
    if said:
        return said
    wanted = COMPARISONS - (BEYOND_39_BITS if "WIDE" in names else 0)
    if agree + differ != wanted:
        return f"{agree} agree, {differ} differ: not {wanted} together"
    return None if bool(differ) == differs else f"{agree} agree, {differ} differ"


def main():
    if not shutil.which("qemu-system-x86_64"):
        print("QEMU: there is no qemu-system-x86_64 here, so the guest isn't run")
        print("0 passed, 0 failed")
        return 0
    with tempfile.TemporaryDirectory() as folder:
        built = subprocess.run([f"{TOP}/bin/vtdm-c", folder], stdout=subprocess.PIPE, stderr=subprocess.STDOUT, text=True)
        if built.returncode:
            print(f"QEMU, the C library: status {built.returncode}\n{built.stdout[-2000:]}\n0 passed, 1 failed")
            return 1
        runs = [(names, False) for names in AGREE] + [(names, True) for names in DIFFER]
        with concurrent.futures.ThreadPoolExecutor(os.cpu_count()) as pool:
            faults = list(pool.map(lambda it: fault(folder, *it), runs))
    for (names, _), said in zip(runs, faults):
        print(f"QEMU, {' '.join(names) or 'as it is'}: {said or 'ok'}")
    failed = sum(it is not None for it in faults)
    print(f"{len(runs) - failed} passed, {failed} failed")
    return 1 if failed else 0


if __name__ == "__main__":
    sys.exit(main())
