#!/usr/bin/env python3
"""Builds the C library, proved, by `rt lib`, for the steps that drive it by programs in C and in Rust.

`rt ci` proves its crate, and leaves no library. The last line is `N passed, M failed`."""

import os
import subprocess
import sys

TOP = os.path.dirname(os.path.dirname(os.path.abspath(__file__)))
FOLDER = f"{TOP}/crates/vtdm_c"
LIBRARY = f"{FOLDER}/out/libvtdm_c.a"


def fault():
    """Why there is no library, if there is none."""
    try:
        built = subprocess.run(["rt", "lib"], cwd=FOLDER, stdout=subprocess.PIPE, stderr=subprocess.STDOUT, text=True)
    except OSError as error:
        return str(error)
    if built.returncode:
        return f"status {built.returncode}\n{built.stdout[-2000:]}"
    return None if os.path.isfile(LIBRARY) else "there is no library"


def main():
    said = fault()
    print(f"the C library: {said or 'proved and built'}")
    print("0 passed, 1 failed" if said else "1 passed, 0 failed")
    return 1 if said else 0


if __name__ == "__main__":
    sys.exit(main())
