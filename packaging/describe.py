#!/usr/bin/env python3
"""Writes what packages.sh puts beside and into the packages: the changelog in Debian's form, and the list of what is inside in SPDX 2.3.

SOURCE_DATE_EPOCH is the time of the list, and of a release without a date. Usage: packaging/describe.py changelog MAINTAINER
       packaging/describe.py contents MAINTAINER PACKAGE.deb ..
"""
from __future__ import annotations

import hashlib
import io
import json
import os
import re
import subprocess
import sys
import tarfile
import textwrap
from collections.abc import Iterator
from datetime import datetime, timezone
from email.utils import format_datetime

TOP = os.path.dirname(os.path.dirname(os.path.realpath(__file__)))
# The heading of a release in CHANGELOG.md: its version, and its date or other words.
SECTION = re.compile(r"^## (\d+\.\d+\.\d+), (.*)$", re.MULTILINE)
DATE = re.compile(r"\d{4}-\d\d-\d\d")
# The most letters of a line of the changelog.
WIDTH = 78
# What a program or a library says of itself: the logic by which the toolchain has proved it, and the version of Go whose libraries it has.
LINKED = {"rattle-logic": re.compile(rb"rattle logic=([0-9a-f]{64})"), "go": re.compile(rb"\xff Go buildinf:.{19}go([\d.]+)", re.DOTALL)}
# A module in the build information of a program in Go, but those of this repository: its path and its version.
MODULE = re.compile(rb"\ndep\t((?!conguraki/)[^\t\n]+)\t([^\t\n]+)")
# An object of SPDX, as JSON has it.
Row = dict[str, object]


def text_of(name: str) -> str:
    """The text of a file of the repository."""
    with open(os.path.join(TOP, name), encoding="utf-8") as file:
        return file.read()


def time_of_sources() -> datetime:
    """The time of the sources, SOURCE_DATE_EPOCH. Raises KeyError if it is not set."""
    return datetime.fromtimestamp(int(os.environ["SOURCE_DATE_EPOCH"]), timezone.utc)


# ---- the changelog


def releases(text: str, version: str) -> Iterator[tuple[str, str, str]]:
    """Yields the releases of CHANGELOG.md, which is given as a text, the newest first: version, date, text. `version` is the present one. What has no
    date was not released: it is in the release of the present version, whose date may be other words or empty."""
    _, *parts = SECTION.split(text)
    sections = [*zip(parts[0::3], parts[1::3], parts[2::3])]
    present = [part for number, date, part in sections if not DATE.fullmatch(date) or number == version]
    yield version, next((date for number, date, _ in sections if number == version), ""), "".join(present)
    yield from (section for section in sections if DATE.fullmatch(section[1]) and section[0] != version)


def items(text: str) -> Iterator[str]:
    """Yields the paragraphs and the items of lists in a section, each on one line, without the marks of bold type."""
    for part in re.split(r"\n\s*\n|\n(?=- )", text):
        if part.strip():
            yield " ".join(part.strip().removeprefix("- ").split()).replace("**", "")


def changelog(maintainer: str) -> str:
    """The changelog in Debian's form. The maintainer is given as `NAME <ADDRESS>`. A release without a date has the time of the sources."""
    entries = []
    for version, date, text in releases(text_of("CHANGELOG.md"), text_of("VERSION").strip()):
        when = datetime.fromisoformat(date).replace(tzinfo=timezone.utc) if DATE.fullmatch(date) else time_of_sources()
        lines = [textwrap.fill(item, WIDTH, initial_indent="  * ", subsequent_indent="    ", break_on_hyphens=False) for item in items(text)]
        entries.append("\n".join([f"spki ({version}) unstable; urgency=medium\n", *lines, f"\n -- {maintainer}  {format_datetime(when)}\n"]))
    return "\n".join(entries)


# ---- what is inside


def digests(octets: bytes, *names: str) -> list[Row]:
    """The digests of some octets, as SPDX has them, by the algorithms of these names."""
    return [{"algorithm": name.upper(), "checksumValue": hashlib.new(name, octets).hexdigest()} for name in names]


def files_in(package: str) -> Iterator[tuple[str, bytes]]:
    """Yields the paths and the octets of the files, but not the links, in the Debian package at a path."""
    tar = subprocess.run(["dpkg-deb", "--fsys-tarfile", package], stdout=subprocess.PIPE, check=True).stdout
    with tarfile.open(fileobj=io.BytesIO(tar)) as archive:
        for member in archive:
            file = archive.extractfile(member) if member.isfile() else None
            if file is not None:
                yield member.name, file.read()


def fields_of(package: str) -> dict[str, str]:
    """The name, version, architecture and short description of the package at a path, by the names of these fields."""
    lines = subprocess.run(["dpkg-deb", "-f", package, "Package", "Version", "Architecture", "Description"], stdout=subprocess.PIPE, check=True,
                           text=True).stdout.splitlines()
    # (further lines of the description begin with a space)
    return dict(line.split(": ", 1) for line in lines if not line.startswith(" "))


def description_of(package: str, maintainer: str) -> tuple[Row, list[Row], set[tuple[str, str]]]:
    """The package at a path as SPDX has it, each of its files so, and what `linked_into` finds in them. `maintainer` is as for `contents`."""
    with open(package, "rb") as file:
        octets = file.read()
    fields = fields_of(package)
    name = f"SPDXRef-{fields['Package']}-{fields['Architecture']}"
    contents_of_files = [*files_in(package)]
    files: list[Row] = [{"SPDXID": f"{name}-{number}", "fileName": path, "checksums": digests(content, "sha1", "sha256"),
                         "licenseConcluded": "NOASSERTION", "copyrightText": "NOASSERTION"}
                        for number, (path, content) in enumerate(contents_of_files, 1)]
    sums = [hashlib.sha1(content).hexdigest() for _, content in contents_of_files]
    whole = {"SPDXID": name, "name": fields["Package"], "versionInfo": fields["Version"], "packageFileName": os.path.basename(package),
             "summary": fields["Description"], "supplier": f"Person: {maintainer.replace(' <', ' (').replace('>', ')')}",
             "downloadLocation": "NOASSERTION", "filesAnalyzed": True,
             "packageVerificationCode": {"packageVerificationCodeValue": hashlib.sha1("".join(sorted(sums)).encode()).hexdigest()},
             "checksums": digests(octets, "sha256"), "licenseConcluded": "NOASSERTION", "licenseDeclared": "NOASSERTION",
             "copyrightText": "NOASSERTION"}
    return whole, files, linked_into([content for _, content in contents_of_files])


def relationship(element: object, kind: str, other: object) -> Row:
    """The relationship of an element to another, both given by their SPDXID, as SPDX has it. `kind` is a word of SPDX, such as `CONTAINS`."""
    return {"spdxElementId": element, "relationshipType": kind, "relatedSpdxElement": other}


def linked_into(contents_of_files: list[bytes]) -> set[tuple[str, str]]:
    """The names and versions, by LINKED and MODULE, of the logic that has proved programs and libraries of a package, and of what is linked into
    them. All files are searched: only programs and libraries say so."""
    named = {(name, version) for octets in contents_of_files for name, pattern in LINKED.items() for version in pattern.findall(octets)}
    named |= {(path.decode(), version) for octets in contents_of_files for path, version in MODULE.findall(octets)}
    return {(name, version.decode()) for name, version in named}


def foreign_package(name: str, version: str) -> Row:
    """What is not of this repository and is linked into packages, as SPDX has it."""
    # (an SPDXID has no other characters)
    reference = re.sub("[^A-Za-z0-9.-]", "-", f"SPDXRef-{name}-{version}")
    return {"SPDXID": reference, "name": name, "versionInfo": version, "supplier": "NOASSERTION", "downloadLocation": "NOASSERTION",
            "filesAnalyzed": False, "licenseConcluded": "NOASSERTION", "licenseDeclared": "NOASSERTION", "copyrightText": "NOASSERTION"}


def contents(maintainer: str, paths: list[str]) -> str:
    """The list, in SPDX as JSON, of what is inside the packages at these paths. The maintainer is given as `NAME <ADDRESS>`."""
    descriptions = [description_of(path, maintainer) for path in paths]
    relations = [relationship("SPDXRef-DOCUMENT", "DESCRIBES", package["SPDXID"]) for package, _, _ in descriptions]
    relations += [relationship(package["SPDXID"], "CONTAINS", file["SPDXID"]) for package, files, _ in descriptions for file in files]
    relations += [relationship(package["SPDXID"], "STATIC_LINK", foreign_package(*other)["SPDXID"])
                  for package, _, linked in descriptions for other in sorted(linked)]
    all_linked = sorted({other for _, _, linked in descriptions for other in linked})
    packages = [package for package, _, _ in descriptions] + [foreign_package(*other) for other in all_linked]
    version, digest = text_of("VERSION").strip(), hashlib.sha256(json.dumps(packages).encode()).hexdigest()
    whole = {"spdxVersion": "SPDX-2.3", "dataLicense": "CC0-1.0", "SPDXID": "SPDXRef-DOCUMENT", "name": f"spki-{version}",
             "documentNamespace": f"https://spdx.org/spdxdocs/spki-{version}-{digest}",
             "creationInfo": {"created": f"{time_of_sources():%Y-%m-%dT%H:%M:%SZ}", "creators": ["Tool: packages.sh", str(packages[0]["supplier"])]},
             "packages": packages, "files": [file for _, files, _ in descriptions for file in files], "relationships": relations}
    return json.dumps(whole, indent=1) + "\n"


def main() -> None:
    """Writes what the words of the command line say to standard output. Ends with the usage and status 1 for other words."""
    match sys.argv[1:]:
        case ["changelog", maintainer]:
            print(changelog(maintainer), end="")
        case ["contents", maintainer, *paths] if paths:
            print(contents(maintainer, paths), end="")
        case _:
            sys.exit(__doc__)


if __name__ == "__main__":
    main()
