//! Requests that are signed, by the table that the verifiers of all languages read. A row of it is a request, and
//! `gives` the answer that it must get: `valid` or the name of a refusal. The services begin at START, the second 1,792,000,000 since 1970.
//! `openssl` verifies signatures and hashes keys, and coreutils make digests.

#[path = "../examples/by_openssl/mod.rs"]
mod by_openssl;

use by_openssl::{sha256, Openssl};
use spki::http::{ContentDigest, Message, Nonces, Requests, TakeNonce, Unproved};
use spki::{Signature, Verifier};
use std::fs;
use std::io::Write;
use std::process::{Command, Stdio};

/// The file of the table.
const ROWS: &str = concat!(env!("CARGO_MANIFEST_DIR"), "/../go/httpsig/testdata/rows");
const START: u64 = 1_792_000_000;
/// RFC 9421, appendix B.2.4: a response, its signature by ECDSA, and the key of B.1.3.
const RESPONSE: &str = "\"@status\": 200
\"content-type\": application/json
\"content-digest\": sha-512=:mEWXIS7MaLRuGgxOBdODa3xqM1XdEvxoYhvlCFJ41QJgJc4GTsPp29l5oGX69wWdXymyU0rjJuahq4l5aGgfLQ==:
\"content-length\": 23
\"@signature-params\": (\"@status\" \"content-type\" \"content-digest\" \"content-length\");created=1618884473;keyid=\"test-key-ecc-p256\"";
const POINT: &str = "04a885586552c2acf6471878cfd7b0935b4ffe0fd2dfc341248ea17bc41e058af031ce2737d2d30ce0617e851e83c61ef5679d151867657649035d90a74cd9e85d";
const SIGNATURE: [&str; 2] = [
    "c0d9925008706f92f1b4eb4ea4d6ba5b9c63d3aee6e6116b8f45d0e1fbe96822",
    "f1d0d2a87203eab8b8326a19f30e70c0532e5e09d95850490b223fb7da889ab3",
];

/// A row of the table, with the names that the table has. `on` has the method, the target, the authority and the time in seconds since 1970.
/// `again` is how many seconds before that the same request came, and `gives` the answer: `valid`, or the name of the refusal.
#[derive(Default)]
struct Row {
    name: String,
    on: Vec<String>,
    fields: Vec<(String, Vec<u8>)>,
    body: Option<Vec<u8>>,
    again: Option<u64>,
    gives: String,
}

impl Row {
    /// The fields, as a message has them.
    fn fields(&self) -> Vec<(&str, &[u8])> {
        let all = self.fields.iter();
        all.map(|(name, value)| (&name[..], &value[..])).collect()
    }

    /// The time at which the request comes, in seconds since 1970.
    fn now(&self) -> u64 {
        self.on[3].parse().expect("a time")
    }

    /// The message, with these fields.
    fn message<'a>(&'a self, fields: &'a [(&'a str, &'a [u8])]) -> Message<'a> {
        Message::new(&self.on[0], &self.on[2], &self.on[1], fields)
    }
}

/// The octets of a line of the table, which writes some as `\t`, `\n`, `\r` or `\xHH`. Any other octet behind a backslash is itself.
fn unescaped(text: &str) -> Vec<u8> {
    let mut octets = Vec::new();
    let mut rest = text.bytes();
    while let Some(octet) = rest.next() {
        if octet != b'\\' {
            octets.push(octet);
            continue;
        }
        octets.push(match rest.next() {
            Some(b't') => b'\t',
            Some(b'n') => b'\n',
            Some(b'r') => b'\r',
            Some(b'x') => {
                let digits = [rest.next().expect("a digit"), rest.next().expect("another")];
                hexadecimal(std::str::from_utf8(&digits).expect("ASCII"))[0]
            }
            other => other.expect("what is escaped"),
        });
    }
    octets
}

/// The octets of hexadecimal digits.
fn hexadecimal(digits: &str) -> Vec<u8> {
    let pairs = (0..digits.len()).step_by(2);
    pairs
        .map(|at| u8::from_str_radix(&digits[at..at + 2], 16).expect("two digits"))
        .collect()
}

/// Reads the table. A line is a word and its value, and each line `row NAME` begins a row. Lines before the first row are passed over, and so are
/// those with another word, such as `#`.
fn rows() -> Vec<Row> {
    let mut rows: Vec<Row> = Vec::new();
    for line in fs::read_to_string(ROWS).expect("the table").lines() {
        let (word, rest) = line.split_once(' ').unwrap_or((line, ""));
        if word == "row" {
            rows.push(Row {
                name: rest.to_string(),
                ..Row::default()
            });
        }
        let Some(row) = rows.last_mut() else {
            continue;
        };
        let octets = unescaped(rest);
        let text: String = octets.iter().map(|octet| char::from(*octet)).collect();
        match word {
            "on" => row.on = text.split('|').map(str::to_string).collect(),
            "field" => {
                let at = text.find(": ").expect("a name");
                row.fields
                    .push((text[..at].to_string(), octets[at + 2..].to_vec()));
            }
            "body" => row.body = Some(octets),
            "again" => row.again = text.parse().ok(),
            "gives" => row.gives = text,
            _ => {}
        }
    }
    rows
}

/// Whether a digest is that of a body, by coreutils. Without a digest the body must be empty.
fn is_digest_of(digest: Option<&ContentDigest>, body: &[u8]) -> bool {
    let Some(digest) = digest else {
        return body.is_empty();
    };
    let mut program = Command::new(digest.algorithm.replace('-', "") + "sum")
        .stdin(Stdio::piped())
        .stdout(Stdio::piped())
        .spawn()
        .expect("coreutils");
    let mut input = program.stdin.take().expect("its input");
    input.write_all(body).expect("it reads");
    drop(input);
    let output = program.wait_with_output().expect("it answers").stdout;
    // (behind the digits it prints the name of the file)
    let digits = std::str::from_utf8(&output[..2 * digest.octets.len()]).expect("digits");
    hexadecimal(digits) == digest.octets
}

/// Proves the request of a row at `now`, in seconds since 1970, and compares its body, if the row has one, with the digest. Returns `valid`, or the
/// name of the refusal.
fn answer(requests: &Requests, row: &Row, now: u64) -> &'static str {
    let fields = row.fields();
    let message = row.message(&fields);
    let proof = match requests.prove(&message, now, |signed: Signature| Openssl.verify(signed)) {
        Ok(proof) => proof,
        Err(unproved) => return unproved.name(),
    };
    match &row.body {
        Some(body) if !is_digest_of(proof.digest.as_ref(), body) => Unproved::OtherDigest.name(),
        _ => "valid",
    }
}

/// Each row gets the answer of its column `gives`. If it has `again`, the same request comes first so many seconds earlier, and is valid then.
#[test]
fn each_row_gets_its_answer() {
    let rows = rows();
    // (the table was read whole)
    assert!(rows.len() > 200);
    for row in &rows {
        let requests = Requests::new(&["example.com"], Nonces::new(10), START, sha256);
        let now = row.now();
        if let Some(before) = row.again {
            assert_eq!(
                answer(&requests, row, now - before),
                "valid",
                "{}, the first time",
                row.name
            );
        }
        assert_eq!(answer(&requests, row, now), row.gives, "{}", row.name);
    }
}

/// With a wrong hash function no request is valid. One that is valid otherwise is `other-key`.
#[test]
fn a_wrong_hash_proves_no_key() {
    for row in &rows() {
        let requests = Requests::new(&["example.com"], Nonces::new(10), START, |_| [0; 32]);
        let now = row.now();
        let answer = answer(&requests, row, now);
        assert_ne!(answer, "valid", "{}", row.name);
        assert!(
            row.gives != "valid" || answer == "other-key",
            "{}",
            row.name
        );
    }
}

/// By HTTP/2 a GET may have a body that no field says. Then its digest must be covered. What the method or a field says is not taken back by
/// `with_body(false)`: the last row needs a digest by its method.
#[test]
fn a_body_that_no_field_says_needs_a_digest() {
    let rows = rows();
    for (name, has_body, wanted) in [
        ("Ed25519", false, None),
        ("Ed25519", true, Some(Unproved::BodyWithoutDigest)),
        ("a body that is not known", true, None),
        ("a body that is not known", false, None),
        ("another method", true, Some(Unproved::BodyWithoutDigest)),
        (
            "a method in small letters",
            false,
            Some(Unproved::BodyWithoutDigest),
        ),
    ] {
        let row = rows.iter().find(|row| row.name == name).expect("a row");
        let fields = row.fields();
        let message = row.message(&fields).with_body(has_body);
        let requests = Requests::new(&["example.com"], Nonces::new(10), START, sha256);
        let proof = requests.prove(&message, START + 100, |signed: Signature| {
            Openssl.verify(signed)
        });
        assert_eq!(proof.err(), wanted, "{name}, {has_body}");
    }
}

/// A stranger may send a key by RSA whose modulus has no octets but 00, so that its signature has none. It proves nothing, also where the verifier
/// accepts each signature.
#[test]
fn a_modulus_of_nothing_proves_no_key() {
    let input = format!(
        "spki=(\"@method\" \"@authority\" \"@path\" \"@query\" \"x-spki-public-key\");created={START};expires={};\
         nonce=\"sFzj0lYlX0wQm6ZCXPBvTw\";keyid=\"{}\";alg=\"rsa-v1_5-sha256\";tag=\"spki\"",
        START + 300,
        "00".repeat(32)
    );
    // (the modulus has no octet, and one octet 00. The hash of each key is 0, as `keyid` says)
    for key in [
        "{KDEwOnB1YmxpYy1rZXkoMzpyc2EoMTpuMDopKDE6ZTM6AQABKSkp}",
        "{KDEwOnB1YmxpYy1rZXkoMzpyc2EoMTpuMToAKSgxOmUzOgEAASkpKQ==}",
    ] {
        let fields: &[(&str, &[u8])] = &[
            ("X-Spki-Public-Key", key.as_bytes()),
            ("Signature-Input", input.as_bytes()),
            ("Signature", b"spki=::"),
        ];
        let message = Message::new("GET", "example.com", "/", fields);
        let requests = Requests::new(&["example.com"], Nonces::new(10), START, |_| [0; 32]);
        let proof = requests.prove(&message, START + 100, |_: Signature| true);
        assert_eq!(proof.err(), Some(Unproved::InvalidSignature), "{key}");
    }
}

/// The signature of RFC 9421 is valid for the text there, and not for one without its first octet.
#[test]
fn the_published_signature_is_valid() {
    let string = |octets: Vec<u8>| [format!("{}:", octets.len()).into_bytes(), octets].concat();
    let [r, s] = SIGNATURE.map(|digits| string(hexadecimal(digits)));
    let key = [
        &b"(10:public-key(3:ecc(5:curve10:NIST P-256)(1:q"[..],
        &string(hexadecimal(POINT)),
        b")))",
    ]
    .concat();
    let value = [&b"(7:sig-val(5:ecdsa(1:r"[..], &r, b")(1:s", &s, b")))"].concat();
    let verifies = |message| {
        let (key, value) = (&key[..], &value[..]);
        let signed = Signature {
            key,
            message,
            value,
        };
        Openssl.verify(signed).expect("openssl")
    };
    assert!(verifies(RESPONSE.as_bytes()));
    assert!(!verifies(&RESPONSE.as_bytes()[1..]));
}

/// A row has a nonce, the second at which it comes, and the refusal, empty if the nonce is taken. Each set has room for 2, and a nonce is kept for
/// 360 seconds. A young set begins at 1000, 1360, 1720 and 3000. The one before it is then the old set, and is dropped at 3000, since it is over 720
/// seconds old. At 900, 1740 and 2999 the clock has gone back: by over a second no nonce is taken, also not that of 1720, which was dropped. At the
/// end another key uses a nonce of the first one, which is not refused.
#[test]
fn nonces_are_kept_in_two_sets() {
    let store = Nonces::new(2);
    for (nonce, now, wanted) in [
        ("a", 1000, ""),
        ("a", 1000, "nonce-seen"),
        ("b", 1100, ""),
        ("c", 1359, "store-full"),
        ("b", 1359, "nonce-seen"),
        ("c", 1360, ""),
        ("a", 1360, "nonce-seen"),
        ("b", 1459, "nonce-seen"),
        ("d", 900, "before-start"),
        ("c", 1719, "nonce-seen"),
        ("a", 1720, ""),
        ("c", 1720, "nonce-seen"),
        ("c", 3000, ""),
        ("a", 1740, "before-start"),
        ("d", 2999, ""),
        ("a", 3000, "store-full"),
    ] {
        let refusal = store.take(b"key", nonce, now, 360).err();
        assert_eq!(refusal.map_or("", Unproved::name), wanted, "{nonce} {now}");
    }
    assert!(store.take(b"another key", "c", 3360, 360).is_ok());
}

/// A nonce that was used is `NonceSeen` while its signature has not ended, as 100 seconds later. Once it has, as 900 seconds later, the nonce may be
/// forgotten, so it is `Expired`.
#[test]
fn a_nonce_is_not_taken_late() {
    let rows = rows();
    let row = rows.iter().find(|row| row.gives == "valid").expect("one");
    let now = row.now();
    let requests = Requests::new(&["example.com"], Nonces::new(10), START, sha256);
    assert_eq!(answer(&requests, row, now), "valid");
    let fields = row.fields();
    let proof = requests
        .check(&row.message(&fields), now, |signed: Signature| {
            Openssl.verify(signed)
        })
        .expect("it is valid");
    for (late, wanted) in [(100, Unproved::NonceSeen), (900, Unproved::Expired)] {
        assert_eq!(requests.take(&proof, now + late).err(), Some(wanted));
    }
}

/// A store that takes each nonce, and notes the second of the last one.
struct Recorder(std::cell::Cell<u64>);

impl TakeNonce for &Recorder {
    fn take(&self, _key: &[u8], _nonce: &str, now: u64, _seconds: u64) -> Result<(), Unproved> {
        self.0.set(now);
        Ok(())
    }
}

/// A clock goes back or on between `check` and `take`. The store gets the later moment: a nonce that it kept from the earlier one could be forgotten,
/// and be taken again, while the signature that was accepted is still accepted.
#[test]
fn a_clock_that_goes_back_shortens_no_nonce() {
    let rows = rows();
    let row = rows.iter().find(|row| row.gives == "valid").expect("one");
    let (now, fields) = (row.now(), row.fields());
    let message = row.message(&fields);
    for (later, wanted) in [(now - 200, now), (now, now), (now + 100, now + 100)] {
        let store = Recorder(0.into());
        let requests = Requests::new(&["example.com"], &store, START, sha256);
        let proof = requests
            .check(&message, now, |signed: Signature| Openssl.verify(signed))
            .expect("it is valid");
        assert_eq!(requests.take(&proof, later), Ok(()));
        assert_eq!(store.0.get(), wanted);
    }
}

/// With an error of the verifier it is not known whether the signature is valid, so nothing is proved. The first row is valid otherwise.
#[test]
fn a_verifier_that_fails_proves_nothing() {
    let row = &rows()[0];
    let fields = row.fields();
    let message = row.message(&fields);
    let requests = Requests::new(&["example.com"], Nonces::new(10), START, sha256);
    assert_eq!(
        requests
            .prove(&message, START + 100, |_: Signature| Err::<bool, ()>(()))
            .err(),
        Some(Unproved::VerifierFailed)
    );
}
