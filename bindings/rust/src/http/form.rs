//! Keys and signatures: octets of HTTP, and the canonical texts of docs/FORMATS.md.

use super::fields::decode_base64;
use super::Unproved;

/// The most octets of a key in transport form, as docs/SIGNATURES.md has it.
const MOST_KEY: usize = 4096;
/// The canonical text of a signature value by ECDSA, with `%` for each of its two strings.
const ECDSA: &str = "(7:sig-val(5:ecdsa(1:r%)(1:s%)))";
/// The algorithms, the canonical texts of their keys and of the values of their signatures, with `%` for each string, and how many octets a signature
/// has: 0 where these are as many as those of the key's modulus.
const FORMS: [(&str, &str, &str, usize); 4] = [
    (
        "ed25519",
        "(10:public-key(3:ecc(5:curve7:Ed25519)(5:flags5:eddsa)(1:q%)))",
        "(7:sig-val(5:eddsa(1:r%)(1:s%)))",
        64,
    ),
    (
        "ecdsa-p256-sha256",
        "(10:public-key(3:ecc(5:curve10:NIST P-256)(1:q%)))",
        ECDSA,
        64,
    ),
    (
        "ecdsa-p384-sha384",
        "(10:public-key(3:ecc(5:curve10:NIST P-384)(1:q%)))",
        ECDSA,
        96,
    ),
    (
        "rsa-v1_5-sha256",
        "(10:public-key(3:rsa(1:n%)(1:e%)))",
        "(7:sig-val(3:rsa(1:s%)))",
        0,
    ),
];

/// The algorithm of a key, how many octets a signature by it has, and the canonical text of a value, with `%` for each string.
pub(super) struct Kind {
    pub(super) algorithm: &'static str,
    pub(super) octets: usize,
    value: &'static str,
}

impl Kind {
    /// The canonical value, `(7:sig-val..)`, of the octets of a signature. They are as many as the algorithm has, and at least one: `chunks` panics
    /// for 0. With RSA they are one string of the value, and otherwise two equal halves.
    pub(super) fn value_of(&self, octets: &[u8]) -> Vec<u8> {
        let string_count = self.value.matches('%').count();
        let mut strings = octets.chunks(octets.len() / string_count);
        let mut text = Vec::new();
        // (`%` stands for a string)
        for octet in self.value.bytes() {
            if octet == b'%' {
                let string = strings.next().unwrap_or_default();
                text.extend_from_slice(format!("{}:", string.len()).as_bytes());
                text.extend_from_slice(string);
            } else {
                text.push(octet);
            }
        }
        text
    }
}

/// The canonical text of a key that is given in transport form, and its kind. A signature of RSA has as many octets as the modulus, the first string
/// of the key. Fails with `BadKey` if the text is no base64 in braces, is longer than `MOST_KEY`, or its octets have none of the forms.
pub(super) fn key_of(text: &[u8]) -> Result<(Vec<u8>, Kind), Unproved> {
    let base64 = text
        .strip_prefix(b"{")
        .and_then(|rest| rest.strip_suffix(b"}"));
    let key = base64
        .filter(|_| text.len() <= MOST_KEY)
        .and_then(decode_base64)
        .ok_or(Unproved::BadKey)?;
    for (algorithm, form, value, length) in FORMS {
        if let Some(first) = first_string(&key, form) {
            let octets = match length {
                0 => first.iter().skip_while(|octet| **octet == 0).count(),
                _ => length,
            };
            let kind = Kind {
                algorithm,
                octets,
                value,
            };
            return Ok((key, kind));
        }
    }
    Err(Unproved::BadKey)
}

/// The first of the strings of a canonical text that are at the marks `%` of a form. `None` if the text has another form.
fn first_string<'a>(mut text: &'a [u8], form: &str) -> Option<&'a [u8]> {
    let mut first = None;
    for octet in form.bytes() {
        if octet == b'%' {
            let (string, rest) = string_of(text)?;
            first = first.or(Some(string));
            text = rest;
        } else {
            text = text.strip_prefix(&[octet])?;
        }
    }
    first.filter(|_| text.is_empty())
}

/// The string that a canonical text begins with, and the rest. `None` if it begins with none, or with a length of more than four digits.
fn string_of(text: &[u8]) -> Option<(&[u8], &[u8])> {
    let colon = text.iter().take(5).position(|octet| *octet == b':')?;
    let digits = std::str::from_utf8(&text[..colon]).ok()?;
    let length: usize = digits.parse().ok()?;
    let rest = &text[colon + 1..];
    (digits == length.to_string() && length <= rest.len()).then(|| rest.split_at(length))
}
