//! A policy is the word `strict` or `allow-sha1`, as in the settings of `spki-authd`.

use serde::de::{Deserializer, Error, Unexpected, Visitor};
use serde::Serializer;
use spki::Policy;
use std::fmt;

/// The policies and their words.
const WORDS: [(Policy, &str); 2] = [
    (Policy::Strict, "strict"),
    (Policy::AllowSha1, "allow-sha1"),
];

/// Writes the word of a policy, `strict` or `allow-sha1`.
///
/// # Errors
///
/// Those of the serializer; the policy is one that this crate does not know.
pub fn serialize<S: Serializer>(policy: &Policy, to: S) -> Result<S::Ok, S::Error> {
    let row = WORDS.iter().find(|(known, _)| known == policy);
    let unknown = || serde::ser::Error::custom("a policy without a word");
    row.ok_or_else(unknown)
        .and_then(|(_, word)| to.serialize_str(word))
}

/// Reads a policy by its word, `strict` or `allow-sha1`.
///
/// # Errors
///
/// Those of the deserializer; another word.
pub fn deserialize<'de, D: Deserializer<'de>>(from: D) -> Result<Policy, D::Error> {
    from.deserialize_str(Word)
}

/// Reads the word of a policy, for `deserialize`.
struct Word;

impl Visitor<'_> for Word {
    type Value = Policy;

    fn expecting(&self, f: &mut fmt::Formatter) -> fmt::Result {
        f.write_str("strict or allow-sha1")
    }

    /// The policy of a word. The error says which words there are.
    fn visit_str<E: Error>(self, word: &str) -> Result<Policy, E> {
        let row = WORDS.iter().find(|(_, known)| *known == word);
        row.map(|(policy, _)| *policy)
            .ok_or_else(|| E::invalid_value(Unexpected::Str(word), &self))
    }
}
