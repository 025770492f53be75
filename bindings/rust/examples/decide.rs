//! Decides a request, as a service does that is written in Rust.
//!
//! Usage: decide ACL SEQUENCE KEY WORD ..
//!
//! ACL is a file of the service, its access list. SEQUENCE and KEY are files of the client. The client must have proved that it holds
//! the key: this program does not check that. The request is the list of the WORDs, or the word where there is one. Keys and signatures have
//! the forms of docs/FORMATS.md, which `spki-cert` writes. The command `openssl` verifies.

mod by_openssl;

use by_openssl::Openssl;
use spki::{Denied, Guard, Limits, Policy, ProvenKey, Question, Request};
use std::ffi::OsString;
use std::os::unix::ffi::OsStrExt;
use std::time::SystemTime;
use std::{env, error::Error, fs, io};

/// Succeeds if a request is granted now. Each word is one string of it, whatever octets it has. `Denied` is a no, a refusal, or an error of the
/// command `openssl`.
fn require_grant(
    guard: &Guard,
    sequence: &[u8],
    key: &ProvenKey<'_>,
    words: &[&[u8]],
) -> Result<(), Denied<io::Error>> {
    let question = Question::new(sequence, key, Request::Words(words), SystemTime::now());
    guard.decide_by(&question, &mut Openssl)?;
    Ok(())
}

/// Prints `granted` or `denied`, and ends with status 0 after both. Anything else, such as a text that is refused, is a message and status 1.
fn main() -> Result<(), Box<dyn Error>> {
    let arguments: Vec<OsString> = env::args_os().collect();
    let [_, list, sequence, key, words @ ..] = &arguments[..] else {
        return Err("usage: decide ACL SEQUENCE KEY WORD ..".into());
    };
    let words: Vec<&[u8]> = words.iter().map(|word| word.as_bytes()).collect();
    let guard = Guard::read(&fs::read(list)?, Policy::Strict, Limits::default())?;
    // THE CLIENT MUST HAVE PROVED THAT IT HOLDS THE KEY: a public key is public.
    let client = ProvenKey::assume(fs::read(key)?);
    match require_grant(&guard, &fs::read(sequence)?, &client, &words) {
        Ok(()) => println!("granted"),
        Err(Denied::No) => println!("denied"),
        Err(why) => return Err(why.into()),
    }
    Ok(())
}
