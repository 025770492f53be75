//! Limits are a map of numbers with the names of `struct spki_limits`. One that is not there, and 0, is the library's own.

use serde::de::{Deserializer, Error, MapAccess, Visitor};
use serde::Serializer;
use spki::Limits;
use std::fmt;

/// Writes the limits that are set, as a map. One of 0 is not set.
///
/// # Errors
///
/// Those of the serializer.
pub fn serialize<S: Serializer>(limits: &Limits, to: S) -> Result<S::Ok, S::Error> {
    to.collect_map(limits.named().into_iter().filter(|(_, most)| *most > 0))
}

/// Reads limits. A number above the library's highest sets the highest.
///
/// # Errors
///
/// Those of the deserializer; a name that is no limit, or is there twice; a value that is no whole number from 0 on, or too large for a `usize`.
pub fn deserialize<'de, D: Deserializer<'de>>(from: D) -> Result<Limits, D::Error> {
    from.deserialize_map(Named)
}

/// Reads a map of limits by their names, for `deserialize`.
struct Named;

impl<'de> Visitor<'de> for Named {
    type Value = Limits;

    fn expecting(&self, f: &mut fmt::Formatter) -> fmt::Result {
        f.write_str("limits by their names")
    }

    /// Reads the names in their order. The error is the first of those that `deserialize` names.
    fn visit_map<A: MapAccess<'de>>(self, mut map: A) -> Result<Limits, A::Error> {
        let (mut limits, mut seen) = (Limits::default(), Vec::new());
        while let Some(name) = map.next_key::<String>()? {
            let most = map.next_value()?;
            if seen.contains(&name) {
                return Err(A::Error::custom(format_args!(
                    "the limit {name} is there twice"
                )));
            }
            limits = with_limit(limits, &name, most)
                .ok_or_else(|| A::Error::custom(format_args!("there is no limit {name}")))?;
            seen.push(name);
        }
        Ok(limits)
    }
}

/// The limits with the one of this name set. `None` if no limit has this name.
fn with_limit(limits: Limits, name: &str, most: usize) -> Option<Limits> {
    Some(match name {
        "octets" => limits.octets(most),
        "certificates" => limits.certificates(most),
        "words" => limits.words(most),
        "nodes" => limits.nodes(most),
        "work" => limits.work(most),
        "answer" => limits.answer(most),
        _ => return None,
    })
}
