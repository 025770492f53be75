//! Verifies signatures by the command `openssl`, so that a test can compare verifiers.
//!
//! Reads strings from standard input, each as LENGTH:OCTETS: a key, a message and the value of a signature, and so on. Writes 1 for each
//! signature that is valid, and 0 for each other, without anything between them, and a line feed at the end.

mod by_openssl;

use by_openssl::Openssl;
use spki::{Signature, Verifier};
use std::error::Error;
use std::io::{self, Read};

/// The octets of the string LENGTH:OCTETS that a text begins with, and what is behind it. `None` if the text has no colon, as at the end, or if
/// LENGTH is no number. Panics if the octets are cut off.
fn split_string(text: &[u8]) -> Option<(&[u8], &[u8])> {
    let colon = text.iter().position(|octet| *octet == b':')?;
    let length: usize = std::str::from_utf8(&text[..colon]).ok()?.parse().ok()?;
    Some(text[colon + 1..].split_at(length))
}

/// Verifies all signatures of the input. Ends with status 1 if `Openssl` fails, as where the command cannot be run. One or two strings too many at
/// the end are left out.
fn main() -> Result<(), Box<dyn Error>> {
    let mut input = Vec::new();
    io::stdin().read_to_end(&mut input)?;
    let mut strings = Vec::new();
    let mut rest = &input[..];
    while let Some((string, behind)) = split_string(rest) {
        strings.push(string);
        rest = behind;
    }
    for texts in strings.chunks_exact(3) {
        let signature = Signature {
            key: texts[0],
            message: texts[1],
            value: texts[2],
        };
        print!("{}", u8::from(Openssl.verify(signature)?));
    }
    println!();
    Ok(())
}
