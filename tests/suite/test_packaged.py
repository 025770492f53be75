"""Makes the Debian packages twice, of the repository and of a copy of its sources elsewhere, and compares all octets. Looks at what is inside:
the program and the libraries without what is for debuggers, a C program that is compiled with the one package and runs with the other, the list of
all files, the changelog, and what lintian says. Those for ARM must have the libraries for ARM.
The packages are compressed less than usual, which takes less time: nothing else depends on it."""
import hashlib
import json
import os
import pathlib
import re
import runpy
import shutil
import subprocess
import sys
import tempfile
import unittest

from harness import built, golang, needs
from harness.support import EXAMPLES, TESTS, TOP, output_of, room_for, run, text_of

VERSION = text_of("VERSION").strip()
# The version without its last number, as the soname has it; the package of the shared library, and the folder of both libraries on amd64.
INTERFACE = VERSION.rpartition(".")[0]
SHARED, PLACE = f"libspki-c{INTERFACE}", "usr/lib/x86_64-linux-gnu"
MAINTAINER = "Ann Smith <ann@conguraki.org>"
# The files that each package must have. All have a changelog and a copyright.
FILES = {
    "spki": ["usr/bin/spki", "usr/share/man/man1/spki.1.gz"], SHARED: [f"{PLACE}/libspki_c.so.{INTERFACE}"],
    "libspki-dev": ["usr/include/spki.h", "usr/include/spki.hpp", f"{PLACE}/cmake/spki/spki-config.cmake", f"{PLACE}/libspki_c.a",
                    f"{PLACE}/libspki_c.so", f"{PLACE}/pkgconfig/spki.pc"],
    "spki-cert": ["usr/bin/spki-cert", "usr/share/spki-cert/spki/__init__.py", "usr/share/spki-cert/spki_cert_tool/commands.py",
                  "usr/share/man/man1/spki-cert.1.gz"],
    "spki-authd": ["usr/bin/spki-authd", "lib/systemd/system/spki-authd.service", "usr/share/man/man8/spki-authd.8.gz", "etc/spki-authd",
                   "usr/share/doc/spki-authd/examples/nginx/authd.json", "usr/share/doc/spki-authd/README.md"]}
# What a package depends on, or recommends: the line of its control file, and of spki-authd the beginning of this line.
RELATIONS = {"spki": r"Depends: libc6 \(>= 2\.\d+\)$", SHARED: r"Depends: libc6 \(>= 2\.\d+\)$",
             "libspki-dev": rf"Depends: {SHARED} \(= {VERSION}\), libc6-dev$", "spki-cert": rf"Recommends: {SHARED}, python3-bcrypt$",
             "spki-authd": r"Depends: libc6 \(>= 2\.\d+\), adduser, init-system-helpers"}
# What packages.sh reads.
SOURCES = ("*.sh", "VERSION", "CHANGELOG.md", "README.md", "apps", "bindings", "crates/spki_c/*.h*", "docs", "examples", "packaging")
# What lintian says since there is no license yet.
TAGS_OF_LINTIAN = {"copyright-without-copyright-notice"}
# The sections that programs and shared libraries must not have, and those that the static library must not have, which needs its symbols.
SYMBOLS, DEBUG = re.compile(r"\.(?:symtab|strtab|z?debug\w*)$"), re.compile(r"\.z?debug\w*$")
SECTIONS = re.compile(r"^ +\[ *\d+\] (\S+) ", re.MULTILINE)
GO_CACHE = os.path.join(TESTS, "out", "go")
SETTINGS = {**os.environ, "DPKG_DEB_COMPRESSOR_TYPE": "gzip", "DPKG_DEB_COMPRESSOR_LEVEL": "1", "GOCACHE": GO_CACHE}


def make_packages(top: str, *words: str, **settings: str) -> tuple[int, str]:
    """Runs the packages.sh of the folder `top` with these words, and more settings of its environment. Returns its status, and what it writes."""
    return output_of(os.path.join(top, "packages.sh"), *words, env={**SETTINGS, **settings}, seconds=golang.SECONDS)


def sections(path: str) -> list[str]:
    """The names of the sections of a program or a library."""
    return SECTIONS.findall(output_of("readelf", "-SW", path)[1])


def logics(path: str) -> set[bytes]:
    """The words `rattle logic=DIGEST` in a program or a library. The digest is that of the logic by which it was proved."""
    return set(re.findall(rb"rattle logic=[0-9a-f]{64}", pathlib.Path(path).read_bytes()))


def copy_sources(folder: str) -> str:
    """Copies the sources of the packages into a folder, which is no clone of git. Returns the folder."""
    words = ["git", "ls-files", "-z", "-co", "--exclude-standard", "--", *SOURCES]
    listed = subprocess.run(words, cwd=TOP, stdout=subprocess.PIPE, check=True).stdout
    subprocess.run(["xargs", "-0", "cp", "--parents", "-t", folder], cwd=TOP, input=listed, check=True)
    return folder


@needs.needs("dpkg-deb", "go", *needs.LIBRARY)
class Packages(built.OfLibrary):
    """What is in the packages. `packages` has the path of each by its name, `folder` is where they are, and `unpacked` where they are unpacked."""

    folder: str
    unpacked: str
    packages: dict[str, str]

    @classmethod
    def setUpClass(cls) -> None:
        super().setUpClass()
        room = room_for(cls)
        cls.folder = os.path.join(room, "packages")
        status, output = make_packages(TOP, "--maintainer", MAINTAINER, cls.folder, cls.program, cls.library)
        if status:
            raise AssertionError(f"packages.sh ended with status {status}: {output}")
        cls.packages = {name.split("_")[0]: os.path.join(cls.folder, name) for name in os.listdir(cls.folder) if name.endswith(".deb")}
        cls.unpacked = os.path.join(room, "unpacked")
        os.mkdir(cls.unpacked)
        for name, path in cls.packages.items():
            output_of("dpkg-deb", "-x", path, cls.inside(name))
            output_of("dpkg-deb", "-e", path, cls.inside(name, "DEBIAN"))

    @classmethod
    def inside(cls, name: str, *path: str) -> str:
        """The path of an unpacked package, or of a file of it."""
        return os.path.join(cls.unpacked, name, *path)

    def test_names_of_packages(self) -> None:
        self.assertEqual(set(self.packages), set(FILES))

    def test_files(self) -> None:
        """Each package has its files of FILES, a copyright and a changelog. A link counts also if the file is in another package."""
        documents = ("usr/share/doc/{0}/copyright", "usr/share/doc/{0}/changelog.gz")
        missing = [f"{name}: {file}" for name, files in FILES.items() for file in (*files, *(path.format(name) for path in documents))
                   if not os.path.lexists(self.inside(name, file))]
        self.assertEqual(missing, [])

    def test_control_fields(self) -> None:
        for name in self.packages:
            control = text_of(self.inside(name, "DEBIAN", "control"))
            with self.subTest(name=name):
                self.assertIn(f"\nVersion: {VERSION}\n", control)
                self.assertIn(f"\nMaintainer: {MAINTAINER}\n", control)
                self.assertRegex(control, re.compile(f"^{RELATIONS[name]}", re.MULTILINE))

    def test_soname(self) -> None:
        """The library's package has the version of its soname in its name. Its `shlibs` makes packages of linked programs depend on it."""
        soname = re.findall(r"SONAME.*\[(.*)\]", output_of("readelf", "-dW", self.shared)[1])
        self.assertEqual(soname, [f"libspki_c.so.{INTERFACE}"])
        self.assertEqual(text_of(self.inside(SHARED, "DEBIAN", "shlibs")), f"libspki_c {INTERFACE} {SHARED} (>= {INTERFACE})\n")
        self.assertEqual(text_of(self.inside(SHARED, "DEBIAN", "triggers")), "activate-noawait ldconfig\n")

    def test_program_decides(self) -> None:
        case = pathlib.Path(EXAMPLES, "delegation.sexp").read_bytes()
        self.assertEqual(run(self.inside("spki", "usr", "bin", "spki"), "check", case), (0, b"yes entry 1\n"))

    def test_version_and_paths_of_daemon(self) -> None:
        """The daemon has the version, and no path of the folder in which it was built. The page beside it has logrotate run this program."""
        program = self.inside("spki-authd", "usr", "bin", "spki-authd")
        self.assertEqual(output_of(program, "-version"), (0, f"spki-authd {VERSION}\n"))
        self.assertNotIn(TOP.encode(), pathlib.Path(program).read_bytes())
        self.assertIn(" /usr/bin/spki-authd -reopen\n", text_of(self.inside("spki-authd", "usr/share/doc/spki-authd/README.md")))

    def test_stripped(self) -> None:
        """Nothing is left that is for debuggers. The words that name the logic of the proofs are left: in the daemon, those of the library in it."""
        for name, place, source in (("spki", "usr/bin/spki", self.program), (SHARED, f"{PLACE}/libspki_c.so.{INTERFACE}", self.shared),
                                    ("libspki-dev", f"{PLACE}/libspki_c.a", self.library), ("spki-authd", "usr/bin/spki-authd", self.library)):
            left = sections(self.inside(name, place))
            with self.subTest(name=name):
                self.assertEqual([section for section in left if (DEBUG if name == "libspki-dev" else SYMBOLS).match(section)], [])
                self.assertEqual(logics(self.inside(name, place)), logics(source))

    def root_with(self, *names: str) -> str:
        """A folder with several unpacked packages, in which /lib is a link, as in Debian."""
        room = room_for(self)
        for name in names:
            shutil.copytree(self.inside(name), room, symlinks=True, dirs_exist_ok=True)
        os.symlink("usr/lib", os.path.join(room, "lib"))
        return room

    @needs.needs("cmake")
    def test_cmake(self) -> None:
        """CMake finds the libraries and the header of the packages, also by the path through /lib. It does not look for those of the system."""
        root = self.root_with("libspki-dev", SHARED)
        for prefix in (os.path.join(root, "usr"), root):
            with self.subTest(prefix=prefix), tempfile.TemporaryDirectory() as room:
                pathlib.Path(room, "CMakeLists.txt").write_text(
                    "cmake_minimum_required(VERSION 3.13)\nproject(found C)\nset(CMAKE_FIND_USE_CMAKE_SYSTEM_PATH FALSE)\n"
                    "find_package(spki REQUIRED)\nforeach(name spki static)\nget_target_property(place spki::${name} IMPORTED_LOCATION)\n"
                    "get_target_property(headers spki::${name} INTERFACE_INCLUDE_DIRECTORIES)\n"
                    "message(STATUS \"found ${place} ${headers}\")\nendforeach()\n", encoding="ascii")
                output = output_of("cmake", "-S", room, "-B", room, f"-DCMAKE_PREFIX_PATH={prefix}")[1]
                lines = re.findall("^-- found (.*) (.*)$", output, re.MULTILINE)
                self.assertEqual(len(lines), 2, output)
                self.assertEqual([path for line in lines for path in line if not os.path.exists(path)], [])

    def test_module_loads_its_library(self) -> None:
        """The module of spki-cert loads the library of its version, also if a `libspki_c.so` that is none is beside it. The command names none."""
        self.assertEqual(text_of(self.inside("spki-cert", "usr", "bin", "spki-cert")), text_of("apps/spki-cert/spki-cert"))
        folder = self.root_with(SHARED)
        shutil.copy(self.inside(SHARED, "DEBIAN", "control"), os.path.join(folder, PLACE, "libspki_c.so"))
        settings = {name: value for name, value in os.environ.items() if name != "SPKI_LIBRARY"}
        settings.update(PYTHONPATH=self.inside("spki-cert", "usr", "share", "spki-cert"), LD_LIBRARY_PATH=os.path.join(folder, PLACE))
        output = output_of(sys.executable, "-B", "-c", "import spki; print(spki.library._name)", env=settings)
        self.assertEqual(output, (0, f"libspki_c.so.{INTERFACE}\n"))

    @needs.needs("pkg-config")
    def test_linking(self) -> None:
        """What is compiled with libspki-dev runs with the package of the shared library, or alone if it is linked with the static one."""
        root = self.root_with("libspki-dev", SHARED)
        linked, settings = os.path.join(root, "linked"), {**os.environ, "PKG_CONFIG_LIBDIR": os.path.join(root, PLACE, "pkgconfig"),
                                                          "PKG_CONFIG_SYSROOT_DIR": root}
        flags = output_of("pkg-config", "--cflags", "--libs", "spki", env=settings)[1].split()
        self.assertEqual([flag.split("/")[-1] for flag in flags], ["include", "x86_64-linux-gnu", "-lspki_c"])
        words = ("cc", "-o", linked, os.path.join(TESTS, "programs", "linked.c"))
        self.assertEqual(output_of(*words, *flags), (0, ""))
        environment = {**os.environ, "LD_LIBRARY_PATH": self.inside(SHARED, PLACE)}
        self.assertEqual(output_of(linked, env=environment), (0, ""))
        self.assertEqual(output_of(*words, flags[0], os.path.join(root, PLACE, "libspki_c.a")), (0, ""))
        self.assertEqual(output_of(linked), (0, ""))

    def test_same_octets(self) -> None:
        """The same sources in another place, which is no clone, make the same octets with another home, time zone and language, and the maintainer in
        the environment. In the long tests Go compiles everything once more."""
        epoch = output_of("git", "log", "-1", "--format=%ct", cwd=TOP)[1].strip()
        name, address = MAINTAINER.rstrip(">").split(" <")
        with tempfile.TemporaryDirectory(suffix=" with a space") as room:
            top, folder = copy_sources(room), os.path.join(room, "made")
            settings = {"SOURCE_DATE_EPOCH": epoch, "DEBFULLNAME": name, "DEBEMAIL": address, "TZ": "Asia/Tokyo", "LC_ALL": "C.UTF-8",
                        "HOME": room, "GOCACHE": os.path.join(room, "go") if built.IS_LONG else GO_CACHE}
            status, output = make_packages(top, folder, self.program, self.library, **settings)
            self.assertEqual(status, 0, output)
            self.assertEqual(sorted(os.listdir(folder)), sorted(os.listdir(self.folder)))
            for file in sorted(os.listdir(folder)):
                octets, first_octets = (pathlib.Path(each, file).read_bytes() for each in (folder, self.folder))
                self.assertTrue(octets == first_octets, f"{file} has other octets")

    def check_lintian(self, *names: str) -> None:
        """The only error or warning of lintian about packages, for each of them, must be that the license is missing (TAGS_OF_LINTIAN)."""
        status, output = output_of("lintian", "--allow-root", "--tag-display-limit", "0", *map(self.packages.__getitem__, names), seconds=600)
        tags = [line for line in output.splitlines() if re.match("[EW]: ", line)]
        self.assertEqual([line for line in tags if line.split()[2] not in TAGS_OF_LINTIAN], [], output)
        self.assertEqual({line.split()[1].rstrip(":") for line in tags}, set(names), output)

    @needs.needs("lintian")
    def test_lintian_of_the_libraries(self) -> None:
        self.check_lintian("spki", SHARED, "libspki-dev")

    @needs.needs("lintian")
    def test_lintian_of_the_commands(self) -> None:
        self.check_lintian("spki-cert", "spki-authd")

    def test_checksums(self) -> None:
        """SHA256SUMS has the right digest of each file beside it."""
        self.assertEqual(output_of("sha256sum", "--strict", "--check", "--quiet", "SHA256SUMS", cwd=self.folder), (0, ""))
        listed = {line.split("  ")[1] for line in text_of(os.path.join(self.folder, "SHA256SUMS")).splitlines()}
        self.assertEqual(listed | {"SHA256SUMS"}, set(os.listdir(self.folder)))

    def test_list_in_spdx(self) -> None:
        """The list in SPDX has each package and each file, with the digests of what was unpacked, and what is linked into each package."""
        listed = json.loads(text_of(os.path.join(self.folder, f"spki_{VERSION}.spdx.json")))
        self.assertEqual((listed["spdxVersion"], listed["SPDXID"]), ("SPDX-2.3", "SPDXRef-DOCUMENT"))
        files = {file["SPDXID"]: file for file in listed["files"]}
        related = {kind: [(each["spdxElementId"], each["relatedSpdxElement"]) for each in listed["relationships"] if each["relationshipType"] == kind]
                   for kind in ("CONTAINS", "STATIC_LINK")}
        packages = [package for package in listed["packages"] if "packageFileName" in package]
        for package in packages:
            name = package["name"]
            contained = [files[file] for owner, file in related["CONTAINS"] if owner == package["SPDXID"]]
            digests = {file["fileName"]: {each["algorithm"]: each["checksumValue"] for each in file["checksums"]} for file in contained}
            self.assertEqual(digests, self.digests(name), name)
            # (as SPDX has it: the SHA-1 of the sorted SHA-1 digests of the files)
            code = hashlib.sha1("".join(sorted(each["SHA1"] for each in digests.values())).encode()).hexdigest()
            self.assertEqual(package["packageVerificationCode"]["packageVerificationCodeValue"], code, name)
        # (each package with proved code names the logic of its proof, and only the daemon has code of Go's)
        proved = {f"SPDXRef-{name}-amd64" for name in FILES if name != "spki-cert"}
        used = {f"SPDXRef-rattle-logic-{word.partition(b'=')[2].decode()}" for word in logics(self.program)}
        self.assertEqual({pair for pair in related["STATIC_LINK"] if "logic" in pair[1]}, {(name, logic) for name in proved for logic in used})
        self.assertEqual({pair[0] for pair in related["STATIC_LINK"] if "SPDXRef-go-" in pair[1]}, {"SPDXRef-spki-authd-amd64"})
        self.assertEqual({package["packageFileName"] for package in packages}, {os.path.basename(path) for path in self.packages.values()})

    def digests(self, name: str) -> dict[str, dict[str, str]]:
        """The SHA-1 and the SHA-256 of each file that a package installs, but not of links, by its path, which begins with `./`."""
        digests: dict[str, dict[str, str]] = {}
        for path in output_of("find", ".", "-name", "DEBIAN", "-prune", "-o", "-type", "f", "-print", cwd=self.inside(name))[1].splitlines():
            octets = pathlib.Path(self.inside(name, path)).read_bytes()
            digests[path] = {"SHA1": hashlib.sha1(octets).hexdigest(), "SHA256": hashlib.sha256(octets).hexdigest()}
        return digests

    @needs.needs("dpkg-parsechangelog")
    def test_changelog(self) -> None:
        """The changelog in Debian's form has the version, the maintainer, and as many items as CHANGELOG.md."""
        packed = self.inside("spki", "usr", "share", "doc", "spki", "changelog.gz")
        text = subprocess.run(["gzip", "-dc", packed], stdout=subprocess.PIPE, check=True, text=True).stdout
        output = output_of("dpkg-parsechangelog", "-l", "-", text=text)[1]
        for line in ("Source: spki", f"Version: {VERSION}", f"Maintainer: {MAINTAINER}"):
            self.assertIn(f"{line}\n", output)
        packed_items = re.findall(r"^  \* ", text, re.MULTILINE)
        # (an item of CHANGELOG.md is a paragraph, or a point of a list)
        items = [part for part in re.split(r"\n\n|\n(?=- )", text_of("CHANGELOG.md")) if part.strip() and not part.strip().startswith("#")]
        self.assertEqual(len(packed_items), len(items))


@needs.needs("dpkg-deb", "go", *needs.LIBRARY)
class Scripts(unittest.TestCase):
    """What runs where a package is installed, what packages.sh refuses, the modules that it lists, and the manual of the daemon."""

    def test_maintainer_is_required(self) -> None:
        """Without the name and the address of a maintainer, or with an option that is misspelled, no packages are made."""
        rows: list[tuple[list[str], dict[str, str]]] = [
            ([], {}), ([], {"DEBFULLNAME": "Ann"}), ([], {"DEBEMAIL": "ann@conguraki.org"}), (["--maintainer"], {}), (["--maintainer", ""], {}),
            (["--maintainer", "ann"], {}), (["--maintainer", "ann@conguraki.org"], {}), (["--maintainer", "Ann <ann>"], {}),
            (["--maintainer", "Ann\nX: y <a@conguraki.org>"], {}), (["--maintaner", MAINTAINER], {})]
        for words, settings in rows:
            with self.subTest(words=words, settings=settings), tempfile.TemporaryDirectory() as room:
                environment = {"PATH": os.environ["PATH"], **settings}
                status, output = output_of(os.path.join(TOP, "packages.sh"), *words, os.path.join(room, "made"), env=environment)
                self.assertNotEqual(status, 0, output)
                self.assertIn("packages.sh: ", output)
                self.assertEqual(os.listdir(room), [])

    def test_time_is_required(self) -> None:
        """Sources that are no clone of git need SOURCE_DATE_EPOCH, the time of the files in the packages: without it the status is 2."""
        with tempfile.TemporaryDirectory() as room:
            status, output = make_packages(copy_sources(room), "--maintainer", MAINTAINER, os.path.join(room, "made"))
            self.assertEqual((status, "set SOURCE_DATE_EPOCH" in output), (2, True), output)
            self.assertFalse(os.path.exists(os.path.join(room, "made")))

    def test_modules_in_spdx(self) -> None:
        """The list in SPDX has the modules that the build information of a program in Go names, but those of this repository."""
        describe = runpy.run_path(os.path.join(TOP, "packaging", "describe.py"))
        linked = describe["linked_into"]([b"\ndep\tconguraki/spki\tv0.2.0\n=>\t../go\t(devel)\t\ndep\tgithub.com/lib/pq\tv1.10.7\n"])
        self.assertEqual({describe["foreign_package"](*other)["SPDXID"] for other in linked}, {"SPDXRef-github.com-lib-pq-v1.10.7"})

    def test_scripts_of_the_daemon(self) -> None:
        """A first installation makes the user, opens the configuration's folder to root and this user, and starts nothing. A later one restarts the
        daemon if the packaged program accepts the configuration. A purge removes the links to units that are gone. The scripts run on a folder of
        their own, with programs that print their names and arguments in place of those by which they would change the system."""
        room, outputs, units = room_for(self), [], "etc/systemd/system"
        for name in ("adduser", "chown", "chmod", "systemctl", "deb-systemd-invoke", "runuser"):
            pathlib.Path(room, name).write_text(f'#!/bin/sh\necho {name} "$@" >&2\n', encoding="ascii")
            os.chmod(os.path.join(room, name), 0o755)
        for path in ("run/systemd/system", "etc/spki-authd/config.json", f"{units}/multi-user.target.wants", f"{units}/sockets.target.wants"):
            os.makedirs(os.path.join(room, path))
        for link in ("multi-user.target.wants/spki-authd.service", "sockets.target.wants/spki-authd.socket"):
            os.symlink("nothing", os.path.join(room, units, link))
        for script, word, version in (("postinst", "configure", ""), ("postinst", "configure", "0.1.0"), ("postrm", "purge", "")):
            text = re.sub("/(?=etc/|run/)", f"{room}/", text_of(f"packaging/spki-authd.{script}"))
            status, output = output_of("sh", "-s", word, version, text=text, env={**os.environ, "PATH": f"{room}:{os.environ['PATH']}"})
            self.assertEqual(status, 0, output)
            outputs.append(output.replace(room, ""))
        self.assertRegex(outputs[0], "adduser .*--system --group .* spki-authd\nchown root:spki-authd /etc/spki-authd\nchmod 750 /etc/spki-authd\n")
        self.assertEqual(re.findall(r"^(?:systemctl|deb-systemd-invoke) .*(?:start|enable).*", outputs[0], re.MULTILINE), [])
        self.assertIn("\nrunuser -u spki-authd -- /usr/bin/spki-authd -test\ndeb-systemd-invoke restart spki-authd.service\n", outputs[1])
        self.assertEqual([*pathlib.Path(room, units).glob("*/*")], [])

    @needs.needs("man")
    def test_manual_of_the_daemon(self) -> None:
        """The manual has each flag of the program, and is shown without a warning."""
        flags = re.findall(r'flags\.\w*Var\(&[\w.]+, "([\w-]+)"', text_of(os.path.join(golang.DAEMON, "main.go")))
        page = text_of("docs/spki-authd.8").replace("\\-", "-")
        self.assertTrue(flags)
        self.assertEqual([flag for flag in flags if not re.search(rf"-{flag}\b", page)], [])
        settings = {**os.environ, "LC_ALL": "C.UTF-8", "MANPAGER": "cat", "MANWIDTH": "80"}
        words = ["man", "--warnings", "-l", os.path.join(TOP, "docs", "spki-authd.8")]
        done = subprocess.run(words, stdout=subprocess.DEVNULL, stderr=subprocess.PIPE, text=True, env=settings)
        self.assertEqual((done.returncode, done.stderr), (0, ""))


@needs.needs("dpkg-deb", "go", *needs.ARM)
class PackagesForArm(built.OfLibrary):
    """The packages of the library for ARM."""

    def test_libraries(self) -> None:
        """With `--arm64` two more packages are made. The code in them is that of the libraries for ARM."""
        with tempfile.TemporaryDirectory() as room:
            status, output = make_packages(TOP, "--maintainer", MAINTAINER, "--arm64", room, self.program, self.library)
            self.assertEqual(status, 0, output)
            self.assertEqual(len([name for name in os.listdir(room) if name.endswith(".deb")]), len(FILES) + 2)
            # (the package, and how the library's name ends there and where it was built)
            for name, end, end_of_built in ((SHARED, f"so.{INTERFACE}", "so"), ("libspki-dev", "a", "a")):
                package = os.path.join(room, f"{name}_{VERSION}_arm64.deb")
                self.assertEqual(output_of("dpkg-deb", "-f", package, "Architecture"), (0, "arm64\n"))
                output_of("dpkg-deb", "-x", package, os.path.join(room, "unpacked"))
                packed = os.path.join(room, "unpacked", "usr", "lib", "aarch64-linux-gnu", f"libspki_c.{end}")
                self.assertEqual(self.code(packed), self.code(f"{built.arm().removesuffix('a')}{end_of_built}"), end)

    def code(self, library: str) -> bytes:
        """The code of a library for ARM, as objdump prints it behind the lines with the library's path."""
        words = ["aarch64-linux-gnu-objdump", "-s", "-j", ".text", library]
        return subprocess.run(words, stdout=subprocess.PIPE, check=True).stdout.partition(b"Contents of section")[2]
