#!/usr/bin/env python3
"""Builds the proved library as out/libspki_c.a and out/libspki_c.so. Needs the toolchain's `rt` in the path, and a C compiler with
binutils.

Both have the exports of src/, the toolchain's calls of `malloc`, `realloc` and `free`, and spki.c, which passes on from the
calls of spki.h to the exports. They are linked into one object whose only global symbols are the calls that spki.h declares: so the
library links beside any other, also beside another one of the toolchain, and a program links with nothing else. In the shared library
these symbols have a version, such as SPKI_0.2, so that a program does not run with a library of another interface. All is made in
out/new/ first: where this program ends, each library is the old one or the new one, whole.

`rt ci` leaves the libraries below in a form that `rt lib` does not accept, so that it would prove all of them again. Right behind it,
--over-gate builds over that form. --again links anew over the proved code of the last run, where only the files in C have changed.

--target aarch64-unknown-linux-gnu builds both for Linux on ARM with 64 bits, in out/aarch64-unknown-linux-gnu/. What is proved is the code for
this target. The toolchain has its calls of `malloc`, `realloc` and `free` for x86-64 alone: those of heap.c take their place, which is
trusted. Debian's gcc-aarch64-linux-gnu compiles and links.

Usage: crates/spki_c/archive.py [--over-gate | --again] [--target TARGET]
"""
import argparse
import importlib.machinery
import importlib.util
import os
import re
import shutil
import subprocess
import sys
import tempfile

CRATE = os.path.realpath(os.path.dirname(__file__))
ROOT = os.path.realpath(os.path.join(CRATE, "..", ".."))
OWN, ARM = "x86_64-unknown-linux-gnu", "aarch64-unknown-linux-gnu"
# Of each target: the folder of its libraries, its C compiler, how its other tools begin, and the Debian packages of compiler and tools.
TARGETS = {OWN: ("out", "cc", "", "gcc", "binutils"),
           ARM: (f"out/{ARM}", "aarch64-linux-gnu-gcc", "aarch64-linux-gnu-", "gcc-aarch64-linux-gnu", "binutils-aarch64-linux-gnu")}
# A declaration of a call. What the header defines itself does not match, since its line has a parenthesis before the name: SPKI_INLINE(..).
CALL = re.compile(r"^\w[\w *]*\b(spki_\w+)\(", re.MULTILINE)
OF_C = ["-std=c11", "-O2", "-fPIC", "-Wall", "-Wextra", "-Wpedantic", "-Werror"]


def toolchain(path):
    """The toolchain's program `rt`, loaded as a module by its path. `build_over_gate` builds by it, since `rt lib` does not accept what `rt ci`
    leaves, and `build_as_lib`, since `rt lib` writes nowhere but over out/libspki_c.a."""
    loader = importlib.machinery.SourceFileLoader("rt", path)
    module = importlib.util.module_from_spec(importlib.util.spec_from_loader("rt", loader))
    loader.exec_module(module)
    return module


def build_over_gate(rtlib, flags, to):
    """Builds the proved code as the file `to`, over what `rt ci` left of the libraries below. `rtlib` is that of `toolchain`, and `flags` are words
    of `rt lib`. Returns whether it is built: if false, `rt lib` must build it. It is not tried if these libraries are built already, or if
    `rt ci` has not left all of them."""
    crate = next(it for it in rtlib.crates_below(ROOT) if it.name == "spki_c")
    below = crate.below()
    if all(it.is_built() for it in below) or not all(os.path.isdir(it.rlib) for it in below):
        return False
    # (`rt ci` leaves the statements of these libraries without their proofs)
    rtlib.Crate.cuts_libraries = True
    return crate.compile(flags, to) == 0


def build_as_lib(module, flags, to):
    """Builds the proved code as `rt lib` does, but as the file `to`. `module` is that of `toolchain`, and `flags` are words of `rt lib`. Ends the
    process if it fails."""
    if not hasattr(module.rtlib.Crate, "build_static"):
        sys.exit(f"this toolchain builds a library otherwise than {__file__} expects")
    module.rtlib.Crate.build_static = lambda crate, words: crate.compile(words, to)
    if status := module.main(["lib", *flags]):
        sys.exit(status)


def build_proved(rt, options, new, to):
    """Builds the proved code as the file `to`, which --again links anew, in the folder `new`. `rt` is the path of the toolchain's program, and
    `options` are by `arguments`. Ends the process if it fails."""
    flags = [] if options.target == OWN else [f"--target={options.target}"]
    made = os.path.join(new, "proved.a")
    if not (options.over_gate and build_over_gate(toolchain(rt).rtlib, flags, made)):
        build_as_lib(toolchain(rt), flags, made)
    os.makedirs(os.path.dirname(to), exist_ok=True)
    os.replace(made, to)


def exports():
    """The names of the calls that spki.h declares, in its order. This folder must be the current one."""
    with open("spki.h", encoding="ascii") as header:
        return CALL.findall(header.read())


def interface_version():
    """The version of the calls, which is the first two numbers of VERSION, such as 0.2: the calls may change where the second number does."""
    with open(os.path.join(ROOT, "VERSION"), encoding="ascii") as version:
        return ".".join(version.read().split(".")[:2])


def version_script():
    """The text of the linker's version script for the shared library: the calls have the version of the interface, other symbols are not exported."""
    return f"SPKI_{interface_version()} {{\n    global: {' '.join(name + ';' for name in exports())}\n    local: *;\n}};\n"


def link(target, kit, proved, new):
    """Links the proved code, the archive at the path `proved`, and the C code into one object, and this into both libraries, in the folder `new`.
    Then puts them in their place. `kit` is the folder of the toolchain."""
    def run(*words):
        """Runs a command. Raises CalledProcessError if it fails."""
        subprocess.run(words, check=True)

    folder, cc, prefix, _, _ = TARGETS[target]
    archive, shared = (os.path.join(new, f"libspki_c.{end}") for end in ("a", "so"))
    with tempfile.TemporaryDirectory() as room:
        whole, script = (os.path.join(room, name) for name in ("spki_c.o", "versions"))
        with open(script, "w", encoding="ascii") as file:
            file.write(version_script())
        of_c = []
        for source in ["spki.c"] if target == OWN else ["spki.c", "heap.c"]:
            of_c.append(os.path.join(room, f"{source}.o"))
            run(cc, *OF_C, "-c", "-o", of_c[-1], source)
        of_kit = [os.path.join(kit, "c", "liblibc_c.a")] if target == OWN else []  # (in its place heap.c)
        run(f"{prefix}ld", "-r", "-o", whole, *of_c, "--whole-archive", proved, *of_kit)
        run(f"{prefix}objcopy", *(f"--keep-global-symbol={name}" for name in exports()), whole)
        run(f"{prefix}ar", "rcsD", archive, whole)
        run(cc, "-shared", "-o", shared, whole, f"-Wl,-soname,libspki_c.so.{interface_version()}", f"-Wl,--version-script={script}", "-Wl,-z,defs",
            "-Wl,-z,relro", "-Wl,-z,now")
    for made in (archive, shared):
        os.replace(made, os.path.join(folder, os.path.basename(made)))


def arguments():
    """The parsed command line: `over_gate`, `again` and `target`."""
    parser = argparse.ArgumentParser(description="Builds the proved library for C programs, static and shared.")
    how = parser.add_mutually_exclusive_group()
    how.add_argument("--over-gate", action="store_true", help="over what rt ci has left of the libraries below")
    how.add_argument("--again", action="store_true", help="over the proved code of the last run")
    parser.add_argument("--target", choices=TARGETS, default=OWN, help="the system that the libraries are for")
    return parser.parse_args()


def main():
    """Builds both libraries. Ends with a message if a tool is missing, and by CalledProcessError if a command of C fails."""
    options = arguments()
    os.chdir(CRATE)
    folder, cc, prefix, package_of_cc, package = TARGETS[options.target]
    for tool, name in {cc: package_of_cc, **dict.fromkeys([f"{prefix}{it}" for it in ("ld", "objcopy", "ar")], package)}.items():
        if not shutil.which(tool):
            sys.exit(f"there is no {tool} (Debian: {name}): it links the library")
    rt = os.path.realpath(shutil.which("rt") or sys.exit("rt is not in the path: it builds the library"))
    proved, new = os.path.join(folder, "proved", "libspki_c.a"), os.path.join(folder, "new")
    # (what an interrupted run has left: `ar` would add to it)
    shutil.rmtree(new, ignore_errors=True)
    os.makedirs(new)
    if not options.again:
        build_proved(rt, options, new, proved)
    link(options.target, os.path.dirname(os.path.dirname(rt)), proved, new)
    shutil.rmtree(new)


if __name__ == "__main__":
    main()
