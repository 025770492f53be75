//! Types that carry what was proved: what a verifier is given, and a key that a client has proved to hold.

use crate::decision::Verdict;
use std::borrow::Cow;
use std::error::Error;
use std::fmt;

/// A signature that is to be verified: whether `value` is one of `message` by `key`. The three texts of a signature of a question are in
/// canonical form.
#[derive(Clone, Copy, Debug, PartialEq, Eq, Hash)]
pub struct Signature<'a> {
    /// The key that has to have signed: the issuer's `(public-key ..)`.
    pub key: &'a [u8],
    /// What is signed: the certificate, or for [`ProvenKey::by`] the message that the service made.
    pub message: &'a [u8],
    /// The value in `(signature ..)`.
    pub value: &'a [u8],
}

/// How a signature is made: docs/FORMATS.md, "Keys and signatures of services".
#[non_exhaustive]
#[derive(Clone, Copy, Debug, PartialEq, Eq, Hash)]
pub enum Scheme {
    /// `EdDSA`.
    Ed25519,
    /// PKCS#1 v1.5 with SHA-256.
    Rsa,
    /// ECDSA with SHA-256.
    P256,
}

/// What the canonical texts of the keys of each scheme begin with.
const KEY_BEGINNINGS: [(&[u8], Scheme); 3] = [
    (
        b"(10:public-key(3:ecc(5:curve7:Ed25519)(5:flags5:eddsa)",
        Scheme::Ed25519,
    ),
    (b"(10:public-key(3:rsa(", Scheme::Rsa),
    (b"(10:public-key(3:ecc(5:curve10:NIST P-256)", Scheme::P256),
];

impl<'a> Signature<'a> {
    /// How the signature is made, by the beginning of its key, whose numbers are not tested. `None` for another key, such as one of P-384.
    #[must_use]
    pub fn scheme(&self) -> Option<Scheme> {
        KEY_BEGINNINGS
            .iter()
            .find(|(beginning, _)| self.key.starts_with(beginning))
            .map(|(_, scheme)| *scheme)
    }

    /// The octets of a value in canonical form that is one string. `None` for a list, and for a string with a display hint. Whether the value is in
    /// canonical form is not tested.
    #[must_use]
    pub fn octets(&self) -> Option<&'a [u8]> {
        let colon = self.value.iter().position(|octet| *octet == b':')?;
        let is_string = self.value[..colon].iter().all(u8::is_ascii_digit);
        is_string.then(|| &self.value[colon + 1..])
    }
}

/// A key that a client has proved to hold. A public key is public: without a proof, each client that sends Alice's key would have Alice's rights.
///
/// [`by`](ProvenKey::by) makes one of a signed message of the service's own, and [`assume`](ProvenKey::assume) of a key that something else
/// has proved. No other octets are one:
///
/// ```compile_fail,E0308
/// # use spki::{Question, Request};
/// fn question<'q>(key: &'q [u8], request: Request<'q>) -> Question<'q> {
///     Question::new(b"(sequence)", key, request, std::time::SystemTime::now())
/// }
/// ```
#[derive(Clone, Debug, PartialEq, Eq, Hash)]
pub struct ProvenKey<'k> {
    /// `(public-key ..)`, as it was given.
    text: Cow<'k, [u8]>,
}

/// A client has not proved that it holds a key. `E` is the error of the verifier.
#[derive(Clone, Copy, Debug, PartialEq, Eq)]
pub enum NotProved<E = std::convert::Infallible> {
    /// The signature is not valid, or its message is a certificate.
    No,
    /// The verifier failed.
    Verifier(E),
}

impl<'k> ProvenKey<'k> {
    /// The key `(public-key ..)` of a client that has proved to hold it elsewhere, as by TLS or SSH. Nothing checks that here: each client gets the
    /// rights of the key that is named.
    #[must_use]
    pub fn assume(key: impl Into<Cow<'k, [u8]>>) -> ProvenKey<'k> {
        ProvenKey { text: key.into() }
    }

    /// The key that has signed a message which the service itself made, with a nonce that the service accepts only once. A certificate is no such
    /// message: it proves nothing about who shows it.
    ///
    /// # Errors
    ///
    /// The signature is not valid, or its message is a certificate; the verifier failed.
    pub fn by<A: Verdict>(
        signed: Signature<'k>,
        verify: impl FnOnce(Signature<'_>) -> A,
    ) -> Result<ProvenKey<'k>, NotProved<A::Error>> {
        let is_proved = !signed.message.starts_with(b"(4:cert")
            && verify(signed).verdict().map_err(NotProved::Verifier)?;
        is_proved
            .then(|| ProvenKey::assume(signed.key))
            .ok_or(NotProved::No)
    }

    /// The octets of the key.
    #[must_use]
    pub fn text(&self) -> &[u8] {
        &self.text
    }

    /// The same key, which borrows nothing, for a connection to keep.
    #[must_use]
    pub fn into_owned(self) -> ProvenKey<'static> {
        ProvenKey {
            text: Cow::Owned(self.text.into_owned()),
        }
    }
}

impl<E: fmt::Display> fmt::Display for NotProved<E> {
    fn fmt(&self, f: &mut fmt::Formatter) -> fmt::Result {
        match self {
            NotProved::No => f.write_str("the client has not proved that it holds the key"),
            NotProved::Verifier(error) => write!(f, "a signature could not be verified: {error}"),
        }
    }
}

impl<E: Error + 'static> Error for NotProved<E> {
    fn source(&self) -> Option<&(dyn Error + 'static)> {
        match self {
            // (the text has the verifier's error, so its cause is next)
            NotProved::Verifier(error) => error.source(),
            NotProved::No => None,
        }
    }
}
