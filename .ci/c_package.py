"""The folder that bin/vtdm-c makes: it is used where it was moved to, and built again when a source has changed.

Each check answers what is wrong, as text, or None where nothing is."""

import os
import shlex
import shutil
import subprocess
import time

TOP = os.path.dirname(os.path.dirname(os.path.abspath(__file__)))
EXAMPLE = f"{TOP}/examples/c/vmm"
# A toolchain of no use but to count how often it builds; {room} is where it lies.
TOOLCHAIN = """#!/bin/sh
case $1 in
doc) echo {room}/kit/START-HERE.md ;;
lib) echo built >> {room}/builds; mkdir -p out; rm -f out/libvtdm_c.a; ar rcs out/libvtdm_c.a {room}/library.o ;;
esac
"""
SOURCES = ["crates.txt", "crates/low/src/lib.rt", "crates/low/src/more.rt", "crates/low/specs/Lib.antt", "crates/vtdm_c/src/lib.rt"]
AWAY = 1000  # seconds


def write(path, text, mode=0o644):
    os.makedirs(os.path.dirname(path), exist_ok=True)
    with open(path, "w", encoding="utf-8") as file:
        file.write(text)
    os.chmod(path, mode)


def flags_of_pkg_config(folder):
    env = {**os.environ, "PKG_CONFIG_PATH": "", "PKG_CONFIG_LIBDIR": f"{folder}/lib/pkgconfig"}
    said = subprocess.run(["pkg-config", "--cflags", "--libs", "vtdm"], env=env, capture_output=True, text=True, check=True)
    return shlex.split(said.stdout)


def flags_of_file(folder):
    """What the .pc file says, read as pkg-config reads it."""
    values, fields = {"pcfiledir": f"{folder}/lib/pkgconfig"}, {}
    with open(f"{folder}/lib/pkgconfig/vtdm.pc", encoding="ascii") as file:
        for line in file.read().splitlines():
            for name, value in values.items():
                line = line.replace(f"${{{name}}}", value)
            name, equals, value = line.partition("=")
            if equals and name.isidentifier():
                values[name] = value
            elif ":" in line:
                name, _, value = line.partition(":")
                fields[name] = value
    return shlex.split(f"{fields['Cflags']} {fields['Libs']}")


def fault_of_example(flags, folder, moved_from, warnings):
    """The example is compiled by the package's own flags, and prints what it should."""
    if any(moved_from in word for word in flags) or not any(folder in word for word in flags):
        return f"the flags are not of the moved folder: {flags}"
    program = f"{folder}/vmm"
    built = subprocess.run(
        ["cc", "-std=c11", "-O2", *warnings, f"{EXAMPLE}.c", *flags, "-pthread", "-o", program], capture_output=True, text=True
    )
    if built.returncode:
        return built.stderr
    done = subprocess.run([program], capture_output=True, text=True, timeout=60)
    with open(f"{EXAMPLE}.output", encoding="ascii") as file:
        wanted = file.read()
    os.remove(program)
    return None if (done.returncode, done.stdout) == (0, wanted) else f"status {done.returncode}, {done.stdout!r}{done.stderr}"


class Tree:
    """A repository of a few empty sources, with bin/vtdm-c and a toolchain that counts its builds."""

    def __init__(self, room):
        self.room, self.top = room, f"{room}/top"
        write(f"{room}/tools/rt", TOOLCHAIN.format(room=room), 0o755)
        os.makedirs(f"{room}/kit/c")
        for name in ("library", "liblibc_c"):
            write(f"{room}/{name}.c", f"int {name};\n")
            subprocess.run(["cc", "-c", f"{room}/{name}.c", "-o", f"{room}/{name}.o"], check=True)
        subprocess.run(["ar", "rcs", f"{room}/kit/c/liblibc_c.a", f"{room}/liblibc_c.o"], check=True)
        for path in ["c/vtdm.h", *SOURCES]:
            write(f"{self.top}/{path}", "")
        os.makedirs(f"{self.top}/bin")
        for name in ("vtdm-c", "progress.sh"):
            shutil.copy(f"{TOP}/bin/{name}", f"{self.top}/bin/{name}")
        self.age(-AWAY)

    def age(self, seconds):
        """All is that much older or younger than now."""
        for at, folders, files in os.walk(self.top):
            for name in [*folders, *files]:
                self.date(os.path.join(at, name), seconds)

    def date(self, path, seconds):
        when = time.time() + seconds
        os.utime(path, (when, when))

    def builds(self):
        """How often the library was built when the script is done."""
        env = {**os.environ, "PATH": f"{self.room}/tools:{os.environ['PATH']}"}
        subprocess.run([f"{self.top}/bin/vtdm-c", f"{self.room}/out"], env=env, check=True, capture_output=True)
        with open(f"{self.room}/builds", encoding="ascii") as file:
            return len(file.readlines())


def fault_of_rebuilds(room):
    """The library is built where there is none, and again exactly when a source has changed; the header is always the latest."""
    tree = Tree(room)
    if tree.builds() != 1 or tree.builds() != 1:
        return "it is not built once"
    count = 1
    for path in SOURCES:
        tree.date(f"{tree.top}/{path}", AWAY)
        count += 1
        if tree.builds() != count:
            return f"it is not built again for {path}"
        tree.date(f"{tree.top}/{path}", -AWAY)
        if tree.builds() != count:
            return f"it is built again for an old {path}"
    os.remove(f"{tree.top}/crates/low/src/more.rt")
    tree.date(f"{tree.top}/crates/low/src", AWAY)
    if tree.builds() != count + 1:
        return "it is not built again where a source was removed"
    write(f"{tree.top}/c/vtdm.h", "/* new */\n")
    tree.builds()
    with open(f"{tree.room}/out/include/vtdm.h", encoding="ascii") as file:
        return None if file.read() == "/* new */\n" else "the header is not the latest"
