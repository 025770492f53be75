"""The snippets of README.md in C, Rust, Python and Go. Each is put, as it stands on the page, into a program that asks what it says, with the
library for C. The keys and signatures are words, as in examples/c/decide.c."""
import os
import subprocess
import sys
import textwrap

from harness import golang
from harness.support import CARGO, EXAMPLES, TOP, on_one_line, read, run

SECONDS = 600
CRATE, RUST, PYTHON = (os.path.join(TOP, *words) for words in (["crates", "spki_c"], ["bindings", "rust"], ["bindings", "python"]))
# The program around each snippet. Its arguments are an access list, a sequence and a key. It takes each signature whose value is `sig` as valid.
PROGRAMS = {
    "C": """
#include <spki.h>
#include <stdbool.h>
#include <stdio.h>
#include <string.h>
#include <time.h>

static bool verifies(const struct spki_signed *it)
{
    return it->value.length == 5 && memcmp(it->value.octets, "3:sig", 5) == 0;
}

static void ask(const char *list, size_t list_length, struct spki_text sequence, struct spki_text key, const struct spki_text *words,
                int64_t now)
{
    spki_guard *guard;
    spki_asked *asked;
    struct spki_signed it;
    unsigned char line[128];
    size_t place = 0;
SNIPPET
    spki_guard_close(guard);
}

int main(int count, char **given)
{
    const struct spki_text words[] = {SPKI_LITERAL("packages"), SPKI_LITERAL("read"), SPKI_LITERAL("/builds/web")};
    if (count != 4)
        return 2;
    ask(given[1], strlen(given[1]), (struct spki_text){given[2], strlen(given[2])}, (struct spki_text){given[3], strlen(given[3])}, words,
        time(NULL));
    return 0;
}
""",
    "Rust": """
use spki::{Guard, Limits, Policy, ProvenKey, Question, Refusal, Request, Signature};
use std::time::SystemTime;

fn verify(it: Signature) -> bool {
    it.value == b"3:sig"
}

fn ask(list: &[u8], sequence: &[u8], key: &[u8], path: &[u8]) -> Result<bool, Refusal> {
SNIPPET
    Ok(is_granted)
}

fn main() {
    let given: Vec<String> = std::env::args().collect();
    let [list, sequence, key] = [1, 2, 3].map(|place| given[place].as_bytes());
    println!("{:?}", ask(list, sequence, key, b"/builds/web").map(|is| if is { "granted" } else { "denied" }));
}
""",
    "Python": """
import os
import sys
from datetime import datetime, timezone

import spki

def verify(signature):
    return signature.value == b"3:sig"

def ask(access_list, sequence, key, path):
SNIPPET
    return "granted" if is_granted else "denied"

print(ask(*map(os.fsencode, sys.argv[1:]), b"/builds/web"))
""",
    "Go": """
package main

import (
    "bytes"
    "fmt"
    "os"
    "time"

    "conguraki/spki"
    "conguraki/spki/guard"
)

func verify(it spki.Signature) bool {
    return bytes.Equal(it.Value, []byte("3:sig"))
}

func ask(accessList, sequence, key []byte, path string) (bool, error) {
SNIPPET
    return isGranted, nil
}

func main() {
    isGranted, err := ask([]byte(os.Args[1]), []byte(os.Args[2]), []byte(os.Args[3]), "/builds/web")
    fmt.Println(map[bool]string{true: "granted", false: "denied"}[isGranted && err == nil])
}
"""}
# What the programs print for a yes and for a no.
ANSWERS = {"C": ("granted\n", ""), "Rust": ('Ok("granted")\n', 'Ok("denied")\n'), "Python": ("granted\n", "denied\n"),
           "Go": ("granted\n", "denied\n")}
MANIFEST = """
[package]
name = "snippet"
version = "0.0.0"
edition = "2021"
[dependencies]
spki = {{ path = "{crate}" }}
"""
GO_MODULE = """
module snippet
go 1.19
require conguraki/spki v0.2.0
replace conguraki/spki => {module}
"""


def build(language, source, room, library):
    """Builds a program in C, Rust, Python or Go from its source, in a folder of its own below `room`. `library` is the static library. Returns the
    words that run the program, or None if the compiler fails."""
    folder = os.path.join(room, language)
    os.makedirs(os.path.join(folder, "src"), exist_ok=True)
    names = {"C": "snippet.c", "Rust": os.path.join("src", "main.rs"), "Python": "snippet.py", "Go": "snippet.go"}
    path, program = os.path.join(folder, names[language]), os.path.join(folder, "snippet")
    with open(path, "w", encoding="utf-8") as file:
        file.write(source)
    if language == "Python":
        return [sys.executable, path]
    if language == "Go":
        with open(os.path.join(folder, "go.mod"), "w", encoding="utf-8") as file:
            file.write(GO_MODULE.format(module=golang.MODULE))
        return [program] if golang.go(folder, ["build", "-o", program, "."], library).returncode == 0 else None
    if language == "C":
        words = ["cc", "-std=c11", "-Wall", "-Wextra", "-Wpedantic", "-Werror", "-I", CRATE, "-o", program, path, library]
    else:
        with open(os.path.join(folder, "Cargo.toml"), "w", encoding="utf-8") as file:
            file.write(MANIFEST.format(crate=RUST))
        program = os.path.join(folder, "target", "debug", "snippet")
        words = ["cargo", "build", "--quiet", "--offline"]
    settings = {**os.environ, **CARGO, "SPKI_LIB_DIR": os.path.dirname(library), "CARGO_TARGET_DIR": os.path.join(folder, "target"),
                "RUSTFLAGS": "-D warnings"}
    return [program] if subprocess.run(words, cwd=folder, env=settings, timeout=SECONDS).returncode == 0 else None


def fault_of_snippet(language, snippet, room, program, library):
    """What is wrong with a snippet, None if nothing is. In its program of PROGRAMS it must grant a request to the key of examples/delegation.sexp, by
    the access list and the sequence of this case, and deny it to another key. `language` is a key of PROGRAMS, `snippet` its text, `room` a folder to
    build in, `program` the path of `spki`, which reads the case, and `library` that of the static library."""
    words = build(language, PROGRAMS[language].replace("SNIPPET", textwrap.indent(snippet, "    ").rstrip("\n")), room, library)
    if words is None:
        return f"the snippet in {language} is not compiled"
    with open(os.path.join(EXAMPLES, "delegation.sexp"), "rb") as file:
        _, access_list, _, sequence, (_, key), *_ = read(run(program, "canonical", file.read())[1])
    settings = {**os.environ, "PYTHONPATH": PYTHON, "SPKI_LIBRARY": library.removesuffix(".a") + ".so"}
    for holder, wanted in zip((key, [b"public-key", [b"test", b"c"]]), ANSWERS[language]):
        texts = [on_one_line(value) for value in (access_list, sequence, holder)]
        done = subprocess.run([*words, *texts], stdout=subprocess.PIPE, stderr=subprocess.STDOUT, text=True, env=settings, timeout=SECONDS)
        if (done.returncode, done.stdout) != (0, wanted):
            return f"the snippet in {language}, of {texts[-1]}: status {done.returncode}, {done.stdout!r}, and not {wanted!r}"
    return None
