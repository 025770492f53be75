"""Machines that have nothing but what a page names: Debian's mmdebstrap makes each as a chroot, runs two scripts there, and removes it.

A machine has the system's smallest set of packages, those that the page names, and the files of the repository in ~/clone, with what is built where
the page's own commands would leave it. Root's script runs in ~/clone, then the user's in an empty folder, with no environment but HOME and PATH."""
from __future__ import annotations

import os
import re
import subprocess
import tempfile

from harness import needs
from harness.support import output_of

SECONDS = 1800
USER = "someone"
PATH = "/usr/local/bin:/usr/bin:/bin"
# The packages that a page may name besides those that the tests use, and words that stand for one.
OTHERS, BY_WORD = ("python3-venv",), {"Python": "python3", "Go 1.": "golang-go", "C compiler": "gcc"}


def packages_of(page: str) -> list[str]:
    """The Debian packages that the text `page` names, sorted: those of OTHERS and of the tests' needs that it has in backticks, or as plain words if
    it has no backticks; and those for whose word in BY_WORD the text has this word."""
    # (a page of the manual has `\-` for a hyphen)
    words = re.findall(r"`([^`\n]+)`", page) or re.split(r"[^\w.+-]+", page.replace("\\-", "-"))
    packages = {*(need.package for need in needs.NEEDS), *OTHERS}
    return sorted(packages & set(words) | {package for word, package in BY_WORD.items() if word in page})


def release() -> str:
    """The name of this machine's release of Debian."""
    with open("/etc/os-release", encoding="utf-8") as lines:
        return re.findall(r"^VERSION_CODENAME=(\w+)$", lines.read(), re.MULTILINE)[0]


def output_on_machine(packages: list[str], clone: str, by_root: str, script: str) -> str:
    """Makes a machine with these packages and a copy of the folder `clone`, and runs two scripts there: root runs `by_root` in the copy, then a user
    runs `script` in an empty folder. Returns all that they write. Raises CalledProcessError if the machine is not made or `by_root` fails."""
    with tempfile.TemporaryDirectory() as room:
        # (mmdebstrap may fail before a hook writes to `output`, which is read in any case)
        for name, text in (("by-root", by_root), ("script", script), ("output", "")):
            with open(os.path.join(room, name), "w", encoding="utf-8") as file:
                file.write(text)
        into = f">> {room}/output 2>&1 < /dev/null"
        bare = f"/usr/bin/env -i HOME=/home/{USER} PATH={PATH}"
        hooks = [f'chroot "$1" useradd --create-home {USER} && mkdir "$1/home/{USER}/clone" "$1/home/{USER}/empty"',
                 f"sync-in {clone} /home/{USER}/clone", f"upload {room}/by-root /by-root", f"upload {room}/script /script",
                 f'chroot "$1" chown -R {USER}: /home/{USER}',
                 f'chroot "$1" env -i HOME=/root PATH={PATH}:/usr/sbin:/sbin sh -c "cd /home/{USER}/clone && . /by-root" {into}',
                 f'chroot --userspec={USER}:{USER} "$1" {bare} sh -c "cd ~/empty && . /script" {into} || true']
        # (a script that fails says so in its output. apt-get installs what a package recommends, too)
        words = ["mmdebstrap", "--quiet", "--variant=apt", '--aptopt=Apt::Install-Recommends "true"', f"--include={','.join(packages)}",
                 *(f"--customize-hook={hook}" for hook in hooks), release(), "/dev/null"]
        status, log = output_of(*words, seconds=SECONDS)
        with open(os.path.join(room, "output"), encoding="utf-8", errors="replace") as file:
            output = file.read()
    if status:
        raise subprocess.CalledProcessError(status, words, f"{log[-3000:]}\n{output[-3000:]}")
    return output
