//! Links `libspki_c`: that in the folder that `SPKI_LIB_DIR` names, else that of `pkg-config`. If there is none, the build ends with an error.
//!
//! The static library is linked if the folder has it, so that programs need no library where they run. `SPKI_SHARED=1` chooses the shared one.
//! `PKG_CONFIG` names another program in place of `pkg-config`. This variable and those of `pkg-config` may have the target at the end, as in
//! `PKG_CONFIG_PATH_aarch64-unknown-linux-gnu`. For another target than the host `pkg-config` is asked only if `PKG_CONFIG_SYSROOT_DIR`,
//! `PKG_CONFIG_ALLOW_CROSS` or `PKG_CONFIG` is set, with or without the target at its end: otherwise it would name a library of the host.

use std::env;
use std::ffi::OsString;
use std::path::{Path, PathBuf};
use std::process::{exit, Command};

/// The versions that this crate can call, from the first and below the second.
const FIRST: &str = "0.2";
const END: &str = "0.3";
/// The variables that say where `pkg-config` looks, and those that let it be asked for another target than the host.
const PLACES: [&str; 2] = ["PKG_CONFIG_PATH", "PKG_CONFIG_LIBDIR"];
const PERMISSIONS: [&str; 2] = ["PKG_CONFIG_SYSROOT_DIR", "PKG_CONFIG_ALLOW_CROSS"];

/// Prints the lines that link the library, or ends with a message and status 1. docs.rs makes pages and no program, and has no library, so nothing is
/// linked there.
fn main() {
    if variable("DOCS_RS").is_some() {
        return;
    }
    let folder = match variable("SPKI_LIB_DIR").map(PathBuf::from) {
        Some(named) if named.is_absolute() => Ok(named),
        Some(named) => Err(format!(
            "SPKI_LIB_DIR must be a whole path, and is {}",
            named.display()
        )),
        None => folder_by_pkg_config(),
    };
    match folder.and_then(|folder| link_lines(&folder)) {
        Ok(lines) => lines.iter().for_each(|line| println!("cargo:{line}")),
        Err(fault) => {
            eprintln!("spki-sys: {fault}");
            exit(1);
        }
    }
}

/// A variable of the environment, which Cargo watches from now on. `None` if it is not set, or empty.
fn variable(name: &str) -> Option<OsString> {
    println!("cargo:rerun-if-env-changed={name}");
    env::var_os(name).filter(|value| !value.is_empty())
}

/// The value of a variable for the target: of `NAME_TARGET`, of the same with `_` for each `-`, or of `NAME`. `None` if none of them is set.
fn variable_for_target(name: &str) -> Option<OsString> {
    let target = env::var("TARGET").unwrap_or_default();
    variable(&format!("{name}_{target}"))
        .or_else(|| variable(&format!("{name}_{}", target.replace('-', "_"))))
        .or_else(|| variable(name))
}

/// The lines that tell Cargo to link the library of a folder, without `cargo:` in front. `SPKI_SHARED` chooses the shared one, unless it is `0`.
/// `libdir` is for the build scripts of crates that depend on this one. The error says that the folder has none.
fn link_lines(folder: &Path) -> Result<Vec<String>, String> {
    let (archive, shared) = (folder.join("libspki_c.a"), folder.join("libspki_c.so"));
    let wants_shared = variable("SPKI_SHARED").is_some_and(|value| value != "0");
    let (kind, file) = if archive.is_file() && !wants_shared {
        ("static", archive)
    } else {
        ("dylib", shared)
    };
    if !file.is_file() {
        let wanted = if wants_shared {
            "libspki_c.so"
        } else {
            "libspki_c.a or libspki_c.so"
        };
        return Err(format!("there is no {wanted} in {}", folder.display()));
    }
    Ok(vec![
        format!("rerun-if-changed={}", file.display()),
        format!("rustc-link-search=native={}", folder.display()),
        format!("rustc-link-lib={kind}=spki_c"),
        format!("libdir={}", folder.display()),
    ])
}

/// The folder in which `pkg-config` has the library. If `PKG_CONFIG_SYSROOT_DIR` is set, `pkg-config` puts it before the folder. The variables of
/// PLACES and PERMISSIONS that are set for the target are given to it without the target's name. The error says what to do.
fn folder_by_pkg_config() -> Result<PathBuf, String> {
    let if_set = |name: &&'static str| variable_for_target(name).map(|value| (*name, value));
    let places: Vec<_> = PLACES.iter().filter_map(if_set).collect();
    let permissions: Vec<_> = PERMISSIONS.iter().filter_map(if_set).collect();
    let program = variable_for_target("PKG_CONFIG");
    if env::var("HOST") != env::var("TARGET") && permissions.is_empty() && program.is_none() {
        return Err(String::from(
            "for another target, name the folder of its libspki_c in SPKI_LIB_DIR, or set PKG_CONFIG_SYSROOT_DIR",
        ));
    }
    let program = program.unwrap_or_else(|| OsString::from("pkg-config"));
    // (without ALLOW_SYSTEM_LIBS it would leave out the folders of the system, where an installed library is)
    let output = Command::new(&program)
        .envs(places.into_iter().chain(permissions))
        .env("PKG_CONFIG_ALLOW_SYSTEM_LIBS", "1")
        .args(["--print-errors", "--libs-only-L"])
        .args([format!("spki >= {FIRST}"), format!("spki < {END}")])
        .output()
        .map_err(|fault| advice(&format!("{}: {fault}", program.to_string_lossy())))?;
    match first_folder(&String::from_utf8_lossy(&output.stdout)) {
        Some(folder) if output.status.success() => Ok(PathBuf::from(folder)),
        _ => Err(advice(&String::from_utf8_lossy(&output.stderr))),
    }
}

/// The folder that the first `-L` of the words of `pkg-config` names, up to a space without a backslash before it. Each backslash stands for the
/// letter behind it. `None` if there is no `-L`, or no letter behind a backslash.
fn first_folder(words: &str) -> Option<String> {
    let (_, rest) = words.split_once("-L")?;
    let (mut letters, mut folder) = (rest.chars(), String::new());
    while let Some(letter) = letters.next().filter(|letter| !letter.is_whitespace()) {
        folder.push(if letter == '\\' {
            letters.next()?
        } else {
            letter
        });
    }
    Some(folder)
}

/// The text of an error: what to do, and the fault that `pkg-config` or the system has named.
fn advice(fault: &str) -> String {
    format!(
        "libspki_c is not found: install it, or name its folder in SPKI_LIB_DIR\n{}",
        fault.trim_end()
    )
}
