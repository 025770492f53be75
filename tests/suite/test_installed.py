"""Installs into a folder that has files of others, asks the installed program and libraries, looks at the manuals, and uninstalls.

A C program is compiled as `pkg-config` and CMake say, and linked with the shared library and with the static one. The header, the manual of spki, the
README and `spki.pc` must have the version of the file VERSION. The manuals must be shown without a warning, and that of spki must name every fault
that a refusal in the tables of `tables/` names. After uninstalling, the files that were there before must be left, and no others. Words that are
refused, or ask for help, build nothing, and what is interrupted leaves each library whole."""
import os
import pathlib
import re
import shlex
import shutil
import signal
import subprocess
import tempfile
import time
import unittest

from harness import built, needs
from harness.support import EXAMPLES, SECONDS, TESTS, TOP, output_of, room_for, tables_here, text_of

# The end of a row of tables/: the words behind `refused`, and %n for the line's end.
REFUSAL = re.compile(r" refused ([A-Za-z0-9 ]+)%n$", re.MULTILINE)
# Files that are in the folder before, and are not of this project.
OTHERS = ("lib/libother.so", "bin/other")
# A tool that writes its output, the word behind `-o`, for `ar` the second one and for `install` the last one, first half of it. If its name is in the
# file `stop`, it makes the file `reached` then, and waits for its end. `rt` is a module too, as that of the toolchain, and is in the folder kit/bin.
TOOL = """#!/usr/bin/env python3
import os, sys, time, types
ROOM = {room!r}

def make(name, path):
    with open(path, "w") as file:
        file.write("half ")
        file.flush()
        if open(ROOM + "/stop").read() == name:
            open(ROOM + "/reached", "w").close()
            time.sleep({seconds})
        file.write("new")

class Crate:
    def build_static(self, flags):
        return self.compile(flags, "out/libspki_c.a")

    def compile(self, flags, to):
        make("rt", to)
        return 0

rtlib = types.SimpleNamespace(Crate=Crate)

def main(words):
    open(ROOM + "/ran", "w").close()
    return Crate().build_static(words[1:])

if __name__ == "__main__":
    name, words = os.path.basename(sys.argv[0]), sys.argv[1:]
    if name == "rt":
        sys.exit(main(words))
    if name != "objcopy":
        make("shared" if "-shared" in words else name, words[1] if name == "ar" else words[-1] if name == "install" else words[words.index("-o") + 1])
"""


def files_below(folder: str) -> set[str]:
    """The paths of all files in a folder and in its folders, relative to it."""
    return {os.path.relpath(os.path.join(at, name), folder) for at, _, names in os.walk(folder) for name in names}


def first_group(pattern: str, text: str) -> str:
    """The text of the group in a pattern's first match, or an empty text without a match. `^` and `$` match at each line."""
    match = re.search(pattern, text, re.MULTILINE)
    return match[1] if match else ""


def install(program: str, library: str, **settings: str) -> tuple[tempfile.TemporaryDirectory, str]:
    """Runs install.sh with the paths of a built program and static library, into a new folder with spaces in its name and the files of OTHERS in it.
    `settings` are added to its environment. Returns the folder, which goes with this object, and output. Raises AssertionError if it fails."""
    prefix = tempfile.TemporaryDirectory(suffix=" with a space")
    for place in OTHERS:
        os.makedirs(os.path.dirname(os.path.join(prefix.name, place)))
        open(os.path.join(prefix.name, place), "w", encoding="ascii").close()
    status, output = output_of(os.path.join(TOP, "install.sh"), prefix.name, program, library, env={**os.environ, **settings})
    if status:
        raise AssertionError(f"install.sh ended with status {status}: {output}")
    return prefix, output


@needs.needs(*needs.LIBRARY)
class Installed(built.OfLibrary):
    """What is installed: `prefix` is its folder, `page` the path of the manual of spki there, and `output` what install.sh wrote."""

    prefix: str
    page: str
    output: str

    @classmethod
    def setUpClass(cls) -> None:
        super().setUpClass()
        room, cls.output = install(cls.program, cls.library)
        cls.addClassCleanup(room.cleanup)
        cls.prefix, cls.page = room.name, os.path.join(room.name, "share", "man", "man1", "spki.1")

    def check_linking(self, *linking: str) -> None:
        """Compiles `linked.c` with these options for the installed files, and runs it. Both must succeed and print nothing."""
        with tempfile.TemporaryDirectory() as room:
            linked = os.path.join(room, "linked")
            words = ["cc", "-std=c11", "-Wall", "-Wextra", "-Werror", "-o", linked, os.path.join(TESTS, "programs", "linked.c"), *linking]
            self.assertEqual(output_of(*words), (0, ""), " ".join(words))
            settings = {**os.environ, "LD_LIBRARY_PATH": os.path.join(self.prefix, "lib")}
            self.assertEqual(output_of(linked, env=settings), (0, ""))

    def test_program_decides(self) -> None:
        answer = output_of(os.path.join(self.prefix, "bin", "spki"), "check", text=text_of(os.path.join(EXAMPLES, "delegation.sexp")))
        self.assertEqual(answer, (0, "yes entry 1\n"))

    def test_shared_library(self) -> None:
        self.check_linking(f"-I{self.prefix}/include", f"-L{self.prefix}/lib", "-lspki_c")

    def test_static_library(self) -> None:
        self.check_linking(f"-I{self.prefix}/include", os.path.join(self.prefix, "lib", "libspki_c.a"))

    @needs.needs("pkg-config")
    def test_pkg_config(self) -> None:
        settings = {**os.environ, "PKG_CONFIG_PATH": os.path.join(self.prefix, "lib", "pkgconfig")}
        self.check_linking(*shlex.split(output_of("pkg-config", "--cflags", "--libs", "spki", env=settings)[1]))

    @needs.needs("cmake")
    def test_cmake(self) -> None:
        """CMake finds both libraries, of version 0.2.0, if a project requires no version, 0.2 or 0.2.0: its program runs. For others it fails."""
        for target, version, is_found in (("spki::spki", "", True), ("spki::spki", "0.2", True), ("spki::static", "0.2.0", True),
                                          ("spki::spki", "0.3", False), ("spki::spki", "0.2.1", False), ("spki::spki", "0.1.9", False)):
            with self.subTest(target=target, version=version), tempfile.TemporaryDirectory() as room:
                with open(os.path.join(room, "CMakeLists.txt"), "w", encoding="ascii") as file:
                    file.write(f"cmake_minimum_required(VERSION 3.13)\nproject(linked C)\nfind_package(spki {version} REQUIRED)\n"
                               f"add_executable(linked {TESTS}/programs/linked.c)\ntarget_link_libraries(linked {target})\n")
                status, output = output_of("cmake", "-S", room, "-B", room, f"-DCMAKE_PREFIX_PATH={self.prefix}")
                self.assertEqual(status == 0, is_found, output)
                if is_found:
                    self.assertEqual(output_of("cmake", "--build", room)[0], 0)
                    self.assertEqual(output_of(os.path.join(room, "linked")), (0, ""))

    def test_remark_on_the_loader(self) -> None:
        """The last line of install.sh says what to do, since the loader does not search this folder."""
        self.assertIn(f"the loader does not look into {self.prefix}/lib: name the folder in", self.output.splitlines()[-1])

    def test_version(self) -> None:
        """The header, as text and in numbers, the manual of spki, the README and spki.pc have the version of the file VERSION."""
        header = text_of(os.path.join(self.prefix, "include", "spki.h"))
        numbers = [first_group(rf"^#define SPKI_VERSION_{part} (\d+)$", header) for part in ("MAJOR", "MINOR", "PATCH")]
        versions = {"the header's numbers": ".".join(numbers), "the header": first_group(r'^#define SPKI_VERSION "(.*)"$', header),
                    "the manual": first_group(r'^\.TH SPKI 1 "[^"]*" "Conguraki (.*?)"', text_of(self.page)),
                    "the README": first_group(r"The version is\s+(\d+\.\d+\.\d+)\.", text_of("README.md")),
                    "spki.pc": first_group(r"^Version: (.*)$", text_of(os.path.join(self.prefix, "lib", "pkgconfig", "spki.pc")))}
        self.assertEqual(versions, dict.fromkeys(versions, text_of("VERSION").strip()))

    @needs.needs("man")
    def test_the_manuals_are_shown_without_warnings(self) -> None:
        settings = {**os.environ, "LC_ALL": "C.UTF-8", "MANPAGER": "cat", "MANWIDTH": "80"}
        for page in (self.page, os.path.join(os.path.dirname(self.page), "spki-cert.1")):
            done = subprocess.run(["man", "--warnings", "-l", page], stdout=subprocess.DEVNULL, stderr=subprocess.PIPE, text=True, env=settings,
                                  timeout=SECONDS)
            self.assertEqual((done.returncode, done.stderr), (0, ""), page)

    def test_faults_in_the_manual(self) -> None:
        """The manual names every fault that a refusal in the tables names."""
        named, faults = set(re.findall(r"[A-Za-z]+", text_of(self.page))), set()
        for table in tables_here():
            with open(table, encoding="utf-8", errors="replace") as rows:
                faults |= {word for line in REFUSAL.findall(rows.read()) for word in re.findall(r"[A-Za-z]+", line)}
        self.assertTrue(faults)
        self.assertEqual(sorted(faults - named), [], "the manual does not name these")


@needs.needs(*needs.LIBRARY)
class Uninstalled(built.OfLibrary):
    def test_files_left(self) -> None:
        """Uninstalling leaves only the files that were there before, wherever LIBDIR, a folder below the prefix, has put the libraries."""
        for folder in ("/lib/", "lib/x86_64-linux-gnu"):
            with self.subTest(folder=folder), install(self.program, self.library, LIBDIR=folder)[0] as prefix:
                self.assertTrue(os.path.exists(f"{prefix}/{folder}/libspki_c.so"))
                status, output = output_of(os.path.join(TOP, "install.sh"), "--uninstall", prefix, env={**os.environ, "LIBDIR": folder})
                self.assertEqual((status, files_below(prefix)), (0, set(OTHERS)), output)


class Scripts(unittest.TestCase):
    """What install.sh, packages.sh and archive.py do with wrong words, and where they are interrupted. The tools that they call are those of TOOL."""

    def setUp(self) -> None:
        """Copies the scripts into the folder `room`, where they may write, and makes the tools in its folder `kit/bin`."""
        self.room = room_for(self)
        shutil.copytree(os.path.join(TOP, "crates", "spki_c"), os.path.join(self.room, "crates", "spki_c"), ignore=shutil.ignore_patterns("out"))
        os.mkdir(os.path.join(self.room, "crates", "spki"))
        for name in ("install.sh", "packages.sh", "VERSION"):
            shutil.copy(os.path.join(TOP, name), self.room)
        self.tools = os.path.join(self.room, "kit", "bin")
        os.makedirs(self.tools)
        for name in ("rt", "cc", "ld", "ar", "objcopy", "install"):
            path = pathlib.Path(self.tools, name)
            path.write_text(TOOL.format(room=self.room, seconds=SECONDS), encoding="ascii")
            path.chmod(0o755)
        self.write("stop", "")

    def write(self, path: str, text: str) -> None:
        """Writes a file of `room`, and makes its folder."""
        os.makedirs(os.path.dirname(os.path.join(self.room, path)), exist_ok=True)
        pathlib.Path(self.room, path).write_text(text, encoding="ascii")

    def stopped_at(self, tool: str, number: int, words: list[str]) -> None:
        """Runs a command, and ends it and its tools by a signal as soon as this tool has written half of its output."""
        reached = os.path.join(self.room, "reached")
        self.write("stop", tool)
        with open(os.path.join(self.room, "log"), "w", encoding="ascii") as log:
            process = subprocess.Popen(words, cwd=self.room, env={**os.environ, "PATH": f"{self.tools}:{os.environ['PATH']}"}, stdout=log, stderr=log,
                                       start_new_session=True)
        end = time.monotonic() + SECONDS
        while not os.path.exists(reached):
            self.assertTrue(process.poll() is None and time.monotonic() < end, text_of(os.path.join(self.room, "log")))
            time.sleep(0.01)
        os.killpg(process.pid, number)
        process.wait()
        os.remove(reached)
        self.write("stop", "")

    def test_words_of_scripts(self) -> None:
        """Where a word asks for help, a script prints it with status 0. Words that are wrong have status 2 and one line. Nothing is built."""
        prefix = os.path.join(self.room, "prefix")
        for script, words, status in [
                *((name, words, 0) for name in ("install.sh", "packages.sh")
                  for words in (["--help"], ["-h"], [prefix, "--help"], [prefix, "p", "-h"])),
                *((name, words, 2) for name in ("install.sh", "packages.sh")
                  for words in ([prefix, "--frob"], ["-x"], [prefix, "p", "-l"], [prefix, "p", "l", "x"])),
                ("install.sh", ["--uninstall", prefix, "p"], 2), ("install.sh", [prefix, "--uninstall"], 2),
                ("packages.sh", ["--arm64", "--help"], 0)]:
            with self.subTest(script=script, words=words):
                done = subprocess.run([os.path.join(self.room, script), *words], env={**os.environ, "PATH": f"{self.tools}:{os.environ['PATH']}"},
                                      stdout=subprocess.PIPE, stderr=subprocess.PIPE, text=True, timeout=SECONDS)
                self.assertEqual((done.returncode, done.stderr.count("\n"), f"Usage: ./{script}" in done.stdout), (status, status // 2, not status),
                                 done.stderr)
        self.assertEqual([name for name in ("ran", "prefix") if os.path.exists(os.path.join(self.room, name))], [])

    def test_a_library_is_old_or_new(self) -> None:
        """Where archive.py ends, by any signal, both libraries and the proved code are as they were before or new, and never a part. The next run,
        which nothing stops, makes them new."""
        names = ["libspki_c.a", "libspki_c.so", "proved/libspki_c.a"]
        command, old = [os.path.join(self.room, "crates", "spki_c", "archive.py")], dict.fromkeys(names, "old")
        for tool, number in (("rt", signal.SIGKILL), ("rt", signal.SIGTERM), ("rt", signal.SIGINT), ("cc", signal.SIGKILL), ("ld", signal.SIGTERM),
                             ("ar", signal.SIGKILL), ("shared", signal.SIGKILL), ("shared", signal.SIGINT)):
            with self.subTest(tool=tool, number=number):
                for name in names:
                    self.write(f"crates/spki_c/out/{name}", "old")
                self.stopped_at(tool, number, command)
                texts = {name: text_of(os.path.join(self.room, "crates", "spki_c", "out", name)) for name in names}
                self.assertEqual({**texts, "proved/libspki_c.a": "old"}, old)
                self.assertIn(texts["proved/libspki_c.a"], ("old", "half new"))
        done = subprocess.run(command, env={**os.environ, "PATH": f"{self.tools}:{os.environ['PATH']}"}, stdout=subprocess.DEVNULL, timeout=SECONDS)
        self.assertEqual(done.returncode, 0)
        self.assertEqual(files_below(os.path.join(self.room, "crates", "spki_c", "out")), set(names))
        self.assertEqual({text_of(os.path.join(self.room, "crates", "spki_c", "out", name)) for name in names}, {"half new"})

    def test_an_installed_file_is_old_or_new(self) -> None:
        """Where install.sh ends while it installs, the file that it was to replace is whole."""
        for name in ("spki", "libspki_c.a", "libspki_c.so"):
            self.write(name, "new")
        self.write("prefix/bin/spki", "old")
        words = [*(os.path.join(self.room, name) for name in ("install.sh", "prefix", "spki", "libspki_c.a"))]
        self.stopped_at("install", signal.SIGKILL, words)
        self.assertEqual(text_of(os.path.join(self.room, "prefix", "bin", "spki")), "old")
