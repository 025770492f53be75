//! Proves the client's key in each HTTP request, by HTTP Message Signatures (RFC 9421) of the profile in docs/SIGNATURES.md.
//!
//! ```
//! use spki::http::{Message, Nonces, Requests};
//! use spki::{Guard, Limits, Policy, Question, Request, Signature};
//! use std::time::{SystemTime, UNIX_EPOCH};
//!
//! /// `Some` if the key that has signed a request may make it.
//! fn grant(guard: &Guard, requests: &Requests, message: &Message, words: &[&[u8]]) -> Option<()> {
//!     // Call your crypto library here.
//!     let verify = |_signature: Signature| false;
//!     let moment = SystemTime::now();
//!     let now = moment.duration_since(UNIX_EPOCH).ok()?.as_secs();
//!     let proof = requests.check(message, now, verify).ok()?;
//!     let question = Question::new(&proof.sequence, &proof.key, Request::Words(words), moment);
//!     guard.decide(&question, verify).ok()?;
//!     requests.take(&proof, now).ok() // (for a yes alone: anybody can make a key, and would fill the store of nonces)
//! }
//!
//! // Name a function of the same library here, as `openssl::sha::sha256`. This stand-in is no hash: with it no request of a client is proved.
//! let sha256 = |_: &[u8]| [0; 32];
//! let requests = Requests::new(&["files.example.org"], Nonces::new(100_000), 1_792_000_000, sha256);
//! let guard = Guard::read(b"(acl)", Policy::Strict, Limits::default())?;
//! let fields: &[(&str, &[u8])] = &[("Host", b"files.example.org")];
//! let message = Message::new("GET", "files.example.org", "/web/index.html", fields);
//! assert!(grant(&guard, &requests, &message, &[b"read", b"/web/index.html"]).is_none());
//! # Ok::<(), Box<dyn std::error::Error>>(())
//! ```

mod fields;
mod form;
mod head;
mod message;
mod nonces;
mod unproved;

pub use fields::ContentDigest;
pub use head::Head;
pub use message::Message;
pub use nonces::{Nonces, TakeNonce};
pub use unproved::Unproved;

use crate::{NotProved, ProvenKey, Signature, Verdict};
use fields::{Input, PUBLIC_KEY, SEQUENCE};
use form::Kind;
use message::{authority_of, is_target};

/// The most seconds from `created` to `expires`, and the most that `created` may be in the future: a client's clock may be ahead.
const MOST_WINDOW: u64 = 300;
const MOST_AHEAD: u64 = 60;
/// How many characters a nonce may have.
const NONCE_LENGTHS: std::ops::RangeInclusive<usize> = 16..=64;

/// Says which key has made a request to one service. Several threads may share it.
#[derive(Debug)]
pub struct Requests<N = Nonces> {
    /// The names of the service, as `authority_of` returns them: in small letters, without the port of https.
    names: Vec<String>,
    nonces: N,
    /// The second since 1970 before which no signature may be created.
    start: u64,
    sha256: fn(&[u8]) -> [u8; 32],
}

/// The key that has signed a request. There is a value of this type only for a signature that is valid.
#[derive(Clone, Debug)]
pub struct Proof {
    /// The key, as a question has it.
    pub key: ProvenKey<'static>,
    /// The certificates that the request shows, as a question has them.
    pub sequence: Vec<u8>,
    /// The digest of the body, if one is covered: whoever reads the body compares it. With `None` the request must have no body.
    pub digest: Option<ContentDigest>,
    nonce: String,
    /// The second since 1970 at which the request was proved, and that from which its signature is not accepted.
    moment: u64,
    expires: u64,
}

impl<N: TakeNonce> Requests<N> {
    /// Checks requests to a service of these names, each with its port behind it unless it is that of https. `start` is the time in seconds since
    /// 1970 before which nothing may be created, since its nonce may be forgotten: the start of the process, or 0 if the nonces outlast it. The clock
    /// must be right then: if it was behind, and is put forward later, a request that was proved before the start can be proved again.
    ///
    /// `sha256` is the hash function of your crypto library: of the crate `openssl` it is `openssl::sha::sha256`. The hash of a request's key is
    /// compared with `keyid`, and used for nothing else. A wrong function refuses the requests of clients. It proves no key that has not signed:
    /// the key itself is in a signed field, and the signature is verified by this key.
    #[must_use]
    pub fn new(
        names: &[&str],
        nonces: N,
        start: u64,
        sha256: fn(&[u8]) -> [u8; 32],
    ) -> Requests<N> {
        Requests {
            names: names.iter().map(|name| authority_of(name)).collect(),
            nonces,
            start,
            sha256,
        }
    }

    /// The proof of a request at a time, in seconds since 1970. Its nonce is used up before anything is decided: ANYBODY CAN MAKE A KEY, and fill the
    /// store so that each request is refused. A service that denies some keys calls `check`, decides, and calls `take` for a yes.
    ///
    /// # Errors
    /// If the request proves no key, or the verifier fails.
    pub fn prove<V, A>(&self, message: &Message, now: u64, verify: V) -> Result<Proof, Unproved>
    where
        V: FnMut(Signature<'_>) -> A,
        A: Verdict,
    {
        let proof = self.check(message, now, verify)?;
        self.take(&proof, now)?;
        Ok(proof)
    }

    /// Uses up the nonce of a proof at a time, in seconds since 1970, which counts as that of `check` if it is earlier. NO PROOF COUNTS WITHOUT IT:
    /// the caller of `check` decides, and calls this for a yes alone, before it acts, so that strangers do not fill the store. The nonce is kept for
    /// as long as its signature may be accepted.
    ///
    /// # Errors
    /// If the nonce was used before, there is no room for it, it may be forgotten, since the clock has gone back, or the signature has expired since.
    pub fn take(&self, proof: &Proof, now: u64) -> Result<(), Unproved> {
        let now = now.max(proof.moment);
        if proof.expires <= now {
            // (the nonce may have been used, and be forgotten)
            return Err(Unproved::Expired);
        }
        // (a signature by a clock that is ahead is accepted for as long as both together)
        let seconds = MOST_WINDOW + MOST_AHEAD;
        self.nonces
            .take(proof.key.text(), &proof.nonce, now, seconds)
    }

    /// The proof of a request at `now`, in seconds since 1970. Its nonce is not yet used up: a decision and `take` must follow.
    ///
    /// # Errors
    /// If the request proves no key, or the verifier fails.
    pub fn check<V, A>(&self, message: &Message, now: u64, verify: V) -> Result<Proof, Unproved>
    where
        V: FnMut(Signature<'_>) -> A,
        A: Verdict,
    {
        let (input, octets) = signature_fields(message)?;
        self.check_parameters(&input, now)?;
        let (text, digest) = self.check_message(message, &input)?;
        let (key, kind) = self.signer_of(message, &input)?;
        // (a modulus of RSA without octets has signatures without octets, and they have no value)
        if octets.is_empty() || octets.len() != kind.octets {
            return Err(Unproved::InvalidSignature);
        }
        let signed = Signature {
            key: &key,
            message: &text,
            value: &kind.value_of(&octets),
        };
        match ProvenKey::by(signed, verify) {
            Ok(key) => Ok(Proof {
                key: key.into_owned(),
                sequence: Self::sequence_of(message),
                digest,
                nonce: input.nonce.to_string(),
                moment: now,
                expires: input.expires,
            }),
            Err(NotProved::No) => Err(Unproved::InvalidSignature),
            Err(NotProved::Verifier(_)) => Err(Unproved::VerifierFailed),
        }
    }

    /// The certificates that a request shows, or a sequence of none. The field has one line at most: `check_message` has ensured that it is covered,
    /// and a covered field is in one line.
    fn sequence_of(message: &Message) -> Vec<u8> {
        let field = message.values(SEQUENCE).next();
        field.unwrap_or(b"(sequence)").to_vec()
    }

    /// Tests the tag, the length of the nonce, and the times at `now`, in seconds since 1970. Fails with the first of these that is wrong. The times
    /// of `input` have at most 15 digits, so that no sum overflows. `now` is the caller's, and may be any number.
    fn check_parameters(&self, input: &Input, now: u64) -> Result<(), Unproved> {
        let faults = [
            (input.tag != fields::TAG, Unproved::OtherTag),
            (
                !NONCE_LENGTHS.contains(&input.nonce.len()),
                Unproved::BadNonce,
            ),
            (
                input.expires <= input.created || input.expires > input.created + MOST_WINDOW,
                Unproved::BadWindow,
            ),
            (
                input.created > now.saturating_add(MOST_AHEAD),
                Unproved::TooEarly,
            ),
            (input.expires <= now, Unproved::Expired),
            (input.created < self.start, Unproved::BeforeStart),
        ];
        match faults.into_iter().find(|(is_fault, _)| *is_fault) {
            Some((_, fault)) => Err(fault),
            None => Ok(()),
        }
    }

    /// Tests the method, the target and the authority of a message, that each covered field is there once with a value that can be signed, and that
    /// its authorization, certificates and digest are covered, as far as it has them. Returns the signed text, and the digest of the body if one is
    /// covered. Fails with the first of these tests that fails, or if no digest is covered although the request may have a body, or if the digest
    /// cannot be read.
    fn check_message(
        &self,
        message: &Message,
        input: &Input,
    ) -> Result<(Vec<u8>, Option<ContentDigest>), Unproved> {
        if message.method.is_empty() || !message.method.bytes().all(fields::is_token_octet) {
            return Err(Unproved::BadMethod);
        }
        if !is_target(message.target) {
            return Err(Unproved::BadTarget);
        }
        let authority = authority_of(message.authority);
        if authority.is_empty() || !self.names.contains(&authority) {
            return Err(Unproved::OtherAuthority);
        }
        let text = message.base(&authority, input)?;
        for name in ["authorization", SEQUENCE, message::DIGEST] {
            if message.values(name).next().is_some() && !input.components.contains(&name) {
                return Err(Unproved::UncoveredField);
            }
        }
        if !input.components.contains(&message::DIGEST) {
            if message.may_have_body() {
                return Err(Unproved::BodyWithoutDigest);
            }
            return Ok((text, None));
        }
        let digest = fields::digest_of(&message.field(message::DIGEST)?)?;
        Ok((text, Some(digest)))
    }

    /// The canonical text of the key in a request's field, and its kind. Fails with `OtherKey` if its SHA-256 in hexadecimal digits is not `keyid`,
    /// with `OtherAlgorithm` if its algorithm is not `alg`, and as `form::key_of` does.
    fn signer_of(&self, message: &Message, input: &Input) -> Result<(Vec<u8>, Kind), Unproved> {
        let (key, kind) = form::key_of(&message.field(PUBLIC_KEY)?)?;
        let hash = (self.sha256)(&key);
        let digits: String = hash.iter().map(|octet| format!("{octet:02x}")).collect();
        if digits != input.keyid {
            return Err(Unproved::OtherKey);
        }
        if kind.algorithm != input.alg {
            return Err(Unproved::OtherAlgorithm);
        }
        Ok((key, kind))
    }
}

/// Reads `Signature-Input`, and the octets of `Signature`. Fails with `Absent` if the request has neither, with `RepeatedField` if one is there
/// twice, and with `Malformed` if one is missing or cannot be read, unless docs/SIGNATURES.md has a name for what is wrong.
fn signature_fields<'a>(message: &Message<'a>) -> Result<(Input<'a>, Vec<u8>), Unproved> {
    let inputs: Vec<&[u8]> = message.values("signature-input").collect();
    let signatures: Vec<&[u8]> = message.values("signature").collect();
    match (&inputs[..], &signatures[..]) {
        ([], []) => Err(Unproved::Absent),
        ([_, _, ..], _) | (_, [_, _, ..]) => Err(Unproved::RepeatedField),
        ([input], [signature]) => {
            let input = fields::input_of(input)?;
            Ok((input, fields::signature_of(signature)?))
        }
        _ => Err(Unproved::Malformed),
    }
}
