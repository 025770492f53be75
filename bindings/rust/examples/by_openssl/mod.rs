//! Verifies signatures by the command `openssl`, from OpenSSL 3.0 on, in the forms of docs/FORMATS.md, "Keys and signatures of services":
//! Ed25519, RSA by PKCS#1 v1.5 with SHA-256, ECDSA with P-256 and SHA-256 or with P-384 and SHA-384. A crate of cryptography takes less time: put
//! its calls into `Signed::verifies` and `sha256`.
//! Points and numbers are tested first, as the same page has it: libraries differ in what they take.

use spki::{Signature, Verifier};
use std::fs::{remove_dir_all, DirBuilder};
use std::os::unix::fs::DirBuilderExt;
use std::path::PathBuf;
use std::process::Command;
use std::sync::atomic::{AtomicUsize, Ordering};
use std::{env, fs, io, process};

/// The octets of a point of Ed25519, and of each half of a signature.
const HALF: usize = 32;
/// How many bits the modulus of RSA may have, and the most that its exponent may.
const BITS: std::ops::RangeInclusive<usize> = 2048..=4096;
const MOST_EXPONENT_BITS: usize = 31;
/// A canonical text of more octets is no key and no value of a signature.
const MOST_OCTETS: usize = 4096;

/// Numbers, big-endian: p - 1 for the prime p of Ed25519, the order of its group, and the coordinates y of its points of order 8.
const LAST_Y: &str = "7fffffffffffffffffffffffffffffffffffffffffffffffffffffffffffffec";
const ORDER_25519: &str = "1000000000000000000000000000000014def9dea2f79cd65812631a5cf5d3ed";
const ORDER_8_YS: [&str; 2] = [
    "05fc536d880238b13933c6d305acdfd5f098eff289f4c345b027b2c28f95e826",
    "7a03ac9277fdc74ec6cc392cfa53202a0f67100d760b3cba4fd84d3d706a17c7",
];

/// Parts of public keys in DER: of Ed25519 the beginning, up to the octets of the key, and of RSA the algorithm, which is behind the tag and length.
const ED25519: &[u8] = b"\x30\x2a\x30\x05\x06\x03\x2b\x65\x70\x03\x21\x00";
const RSA: &[u8] = b"\x30\x0d\x06\x09\x2a\x86\x48\x86\xf7\x0d\x01\x01\x01\x05\x00";
/// Tags of DER.
const BIT_STRING: u8 = 3;
const INTEGER: u8 = 2;
const SEQUENCE: u8 = 0x30;

/// A curve of ECDSA: the canonical form of its keys, the beginning of a key in DER, the octets of a coordinate, the prime, the order, and the words
/// by which `openssl` makes the digest of the message.
struct Curve {
    form: &'static [u8],
    begin: &'static [u8],
    octets: usize,
    prime: &'static str,
    order: &'static str,
    digest: &'static [&'static str],
}

const CURVES: [Curve; 2] = [
    Curve {
        form: b"(10:public-key(3:ecc(5:curve10:NIST P-256)(1:q%)))",
        begin: b"\x30\x59\x30\x13\x06\x07\x2a\x86\x48\xce\x3d\x02\x01\x06\x08\x2a\x86\x48\xce\x3d\x03\x01\x07\x03\x42\x00",
        octets: 32,
        prime: "ffffffff00000001000000000000000000000000ffffffffffffffffffffffff",
        order: "ffffffff00000000ffffffffffffffffbce6faada7179e84f3b9cac2fc632551",
        digest: &["-digest", "sha256"],
    },
    Curve {
        form: b"(10:public-key(3:ecc(5:curve10:NIST P-384)(1:q%)))",
        begin: b"\x30\x76\x30\x10\x06\x07\x2a\x86\x48\xce\x3d\x02\x01\x06\x05\x2b\x81\x04\x00\x22\x03\x62\x00",
        octets: 48,
        prime: "fffffffffffffffffffffffffffffffffffffffffffffffffffffffffffffffeffffffff0000000000000000ffffffff",
        order: "ffffffffffffffffffffffffffffffffffffffffffffffffc7634d81f4372ddf581a0db248b0a77aecec196accc52973",
        digest: &["-digest", "sha384"],
    },
];

/// A key in DER and a signature, as OpenSSL reads them, and the words by which it makes the digest of the message: none for Ed25519.
struct Signed {
    key: Vec<u8>,
    signature: Vec<u8>,
    digest: &'static [&'static str],
}

/// The command `openssl`, which is run for each signature.
pub struct Openssl;

impl Verifier for Openssl {
    type Error = io::Error;

    /// False also for a key or a value of another form, and for an empty message. The error is that of `Signed::verifies`.
    fn verify(&mut self, signature: Signature<'_>) -> io::Result<bool> {
        let Signature {
            key,
            message,
            value,
        } = signature;
        match take_apart(key, value) {
            // (the command takes no empty file, and no certificate is empty)
            Some(signed) if !message.is_empty() => signed.verifies(message),
            _ => Ok(false),
        }
    }
}

/// The SHA-256 hash of octets. If the command or a file fails, octets 00: no key is known that has this hash.
#[allow(dead_code)] // (the examples without signed requests hash nothing)
pub fn sha256(octets: &[u8]) -> [u8; 32] {
    try_sha256(octets).unwrap_or_default()
}

/// The SHA-256 hash of octets, or `None` if the command or a file fails.
fn try_sha256(octets: &[u8]) -> Option<[u8; 32]> {
    let folder = Folder::new().ok()?;
    fs::write(folder.path.join("message"), octets).ok()?;
    let output = Command::new("openssl")
        .args("dgst -sha256 -binary message".split(' '))
        .current_dir(&folder.path)
        .output();
    // (a command that fails does not print 32 octets)
    output.ok()?.stdout.try_into().ok()
}

impl Signed {
    /// Whether the command finds the signature valid. The error is that of a file or of starting the command.
    fn verifies(&self, message: &[u8]) -> io::Result<bool> {
        let folder = Folder::new()?;
        for (name, octets) in [
            ("key", &self.key[..]),
            ("message", message),
            ("signature", &self.signature),
        ] {
            fs::write(folder.path.join(name), octets)?;
        }
        let words =
            "pkeyutl -verify -pubin -keyform DER -inkey key -rawin -in message -sigfile signature";
        let output = Command::new("openssl")
            .args(words.split(' '))
            .args(self.digest)
            .current_dir(&folder.path)
            .output()?;
        // A signature that is not valid and a key that cannot be read have the same status. `take_apart` has tested the form of the key.
        Ok(output.status.success())
    }
}

/// A folder that only this user can read, which is removed at the end.
struct Folder {
    path: PathBuf,
}

impl Folder {
    /// Makes a folder, whose name has the number of this process and a count. A name that is there is passed over: an earlier process of the same
    /// number may have been killed. The error is any other fault of making it.
    fn new() -> io::Result<Folder> {
        static COUNT: AtomicUsize = AtomicUsize::new(0);
        loop {
            let number = COUNT.fetch_add(1, Ordering::Relaxed);
            let path = env::temp_dir().join(format!("spki-{}-{number}", process::id()));
            match DirBuilder::new().mode(0o700).create(&path) {
                Ok(()) => return Ok(Folder { path }),
                Err(error) if error.kind() == io::ErrorKind::AlreadyExists => {}
                Err(error) => return Err(error),
            }
        }
    }
}

impl Drop for Folder {
    fn drop(&mut self) {
        // (a folder that cannot be removed stays)
        let _ = remove_dir_all(&self.path);
    }
}

/// Takes a key and the value of a signature apart, by the first of the functions below that knows both. `None` if none does.
fn take_apart(key: &[u8], value: &[u8]) -> Option<Signed> {
    ed25519(key, value)
        .or_else(|| CURVES.iter().find_map(|curve| ecdsa(curve, key, value)))
        .or_else(|| rsa(key, value))
}

/// A key and a signature of Ed25519. `None` for others, and for those that docs/FORMATS.md excludes.
fn ed25519(key: &[u8], value: &[u8]) -> Option<Signed> {
    let [point] = strings(
        key,
        b"(10:public-key(3:ecc(5:curve7:Ed25519)(5:flags5:eddsa)(1:q%)))",
    )?;
    let [r, s]: [&[u8]; 2] = strings(value, b"(7:sig-val(5:eddsa(1:r%)(1:s%)))")?;
    let has_lengths = [point, r, s].map(<[u8]>::len) == [HALF; 3];
    (has_lengths && is_of_large_order(point) && is_below(&reversed(s), ORDER_25519)).then(|| {
        Signed {
            key: [ED25519, point].concat(),
            signature: [r, s].concat(),
            digest: &[],
        }
    })
}

/// Whether the coordinate y of a point of Ed25519, 32 octets, is from 2^192 to below p - 1, and not that of a point of order 8. Then the point has no
/// small order and no second text: those of order 1, 2 and 4 have the y 1, p - 1 and 0. That it is a point is not tested.
fn is_of_large_order(point: &[u8]) -> bool {
    let mut y = reversed(point);
    // (the highest bit is the sign of x)
    y[0] &= 0x7f;
    let has_order_8 = ORDER_8_YS.iter().any(|other| hex(&y) == *other);
    y[..8] != [0; 8] && is_below(&y, LAST_Y) && !has_order_8
}

/// A key of a curve, and a signature by ECDSA. `None` for others, and for those that docs/FORMATS.md excludes. That the point is on the curve is left
/// to `openssl`.
fn ecdsa(curve: &Curve, key: &[u8], value: &[u8]) -> Option<Signed> {
    let [point] = strings(key, curve.form)?;
    let numbers: [&[u8]; 2] = strings(value, b"(7:sig-val(5:ecdsa(1:r%)(1:s%)))")?;
    // (the first octet of a point that is not compressed is 4: both coordinates follow)
    let has_form = point.len() == 1 + 2 * curve.octets && point[0] == 4;
    let mut coordinates = point.get(1..)?.chunks(curve.octets);
    let is_point = has_form && coordinates.all(|number| is_below(number, curve.prime));
    // (neither number of a signature may be 0)
    let is_pair = numbers
        .iter()
        .all(|number| !trimmed(number).is_empty() && is_below(number, curve.order));
    let [r, s] = numbers.map(|number| der(INTEGER, &signed_number(number)));
    (is_point && is_pair).then(|| Signed {
        key: [curve.begin, point].concat(),
        signature: der(SEQUENCE, &[r, s].concat()),
        digest: curve.digest,
    })
}

/// A key and a signature of RSA. `None` for others, and for those that docs/FORMATS.md excludes. An odd exponent of 2 bits is 3, the least.
fn rsa(key: &[u8], value: &[u8]) -> Option<Signed> {
    let [modulus, exponent] = strings(key, b"(10:public-key(3:rsa(1:n%)(1:e%)))")?;
    let [number] = strings(value, b"(7:sig-val(3:rsa(1:s%)))")?;
    let (bits, exponent_bits) = (bits_of(modulus)?, bits_of(exponent)?);
    let (size, number) = (bits.div_ceil(8), trimmed(number));
    let is_allowed = BITS.contains(&bits) && (2..=MOST_EXPONENT_BITS).contains(&exponent_bits);
    let is_within = !number.is_empty() && is_below(number, &hex(modulus));
    (is_allowed && is_within).then(|| {
        let numbers = [der(INTEGER, modulus), der(INTEGER, exponent)].concat();
        // (a BIT STRING begins with the number of bits that are not used: 0)
        let octets = [&[0], &der(SEQUENCE, &numbers)[..]].concat();
        Signed {
            key: der(SEQUENCE, &[RSA, &der(BIT_STRING, &octets)].concat()),
            signature: [&vec![0; size - number.len()], number].concat(),
            digest: &["-digest", "sha256"],
        }
    })
}

/// Octets in hexadecimal digits.
fn hex(octets: &[u8]) -> String {
    octets.iter().map(|octet| format!("{octet:02x}")).collect()
}

/// Octets in the reverse order.
fn reversed(octets: &[u8]) -> Vec<u8> {
    octets.iter().rev().copied().collect()
}

/// Whether a number, big-endian, is below one in hexadecimal digits in small letters. Without zeros in front, a longer text is a larger number.
fn is_below(number: &[u8], limit: &str) -> bool {
    let number = hex(number);
    let (number, limit) = (
        number.trim_start_matches('0'),
        limit.trim_start_matches('0'),
    );
    (number.len(), number) < (limit.len(), limit)
}

/// The strings of a canonical text that are at the N marks `%` of a form. `None` if the text has another form, or more than `MOST_OCTETS`.
fn strings<'t, const N: usize>(text: &'t [u8], form: &[u8]) -> Option<[&'t [u8]; N]> {
    if text.len() > MOST_OCTETS {
        return None;
    }
    let mut parts = form.split(|octet| *octet == b'%');
    let mut rest = text.strip_prefix(parts.next()?)?;
    let mut strings = [&text[..0]; N];
    for (string, part) in strings.iter_mut().zip(parts) {
        let colon = rest.iter().position(|octet| *octet == b':')?;
        let length: usize = std::str::from_utf8(&rest[..colon]).ok()?.parse().ok()?;
        let end = (colon + 1).checked_add(length)?;
        if rest[..colon] != *length.to_string().as_bytes() {
            return None;
        }
        *string = rest.get(colon + 1..end)?;
        rest = rest[end..].strip_prefix(part)?;
    }
    rest.is_empty().then_some(strings)
}

/// A number without octets 00 in front.
fn trimmed(number: &[u8]) -> &[u8] {
    let zeros = number.iter().take_while(|octet| **octet == 0).count();
    &number[zeros..]
}

/// A number with an octet 00 in front exactly if its first bit is set, as DER and keys have it. The number 0 is one octet 00.
fn signed_number(number: &[u8]) -> Vec<u8> {
    let number = trimmed(number);
    let is_high = number.first().map_or(true, |first| *first >= 0x80);
    let front: &[u8] = if is_high { &[0] } else { &[] };
    [front, number].concat()
}

/// The count of bits of a number of a key. `None` if it is even, or has not an octet 00 in front exactly if its first bit is set.
fn bits_of(number: &[u8]) -> Option<usize> {
    let is_odd = number.last().is_some_and(|last| last % 2 == 1);
    let first = trimmed(number).first()?;
    let bits = 8 * trimmed(number).len() - first.leading_zeros() as usize;
    (is_odd && number == signed_number(number)).then_some(bits)
}

/// A value in DER, with its tag and length.
fn der(tag: u8, octets: &[u8]) -> Vec<u8> {
    let length = octets.len().to_be_bytes();
    let length = trimmed(&length);
    let mut value = vec![tag];
    if octets.len() >= 0x80 {
        value.push(0x80 + u8::try_from(length.len()).expect("a small number"));
        value.extend(length);
    } else {
        value.push(u8::try_from(octets.len()).expect("a small number"));
    }
    value.extend(octets);
    value
}
