//! Serde for what a service stores or logs of the crate `spki`. Limits and policies are read and written. Decisions, refusals and explanations are
//! only written: nothing makes a grant, a mark or a proven key of a text.
//!
//! A field names a module or a function of this crate:
//!
//! ```
//! /// The settings of a service.
//! struct Settings {
//!     limits: spki::Limits,
//!     policy: spki::Policy,
//! }
//!
//! # fn read(mut from: serde_json::Value) -> Result<Settings, serde_json::Error> {
//! // with serde_derive: #[serde(with = "spki_serde::limits")] and #[serde(with = "spki_serde::policy")]
//! let settings = Settings {
//!     limits: spki_serde::limits::deserialize(from["limits"].take())?,
//!     policy: spki_serde::policy::deserialize(from["policy"].take())?,
//! };
//! # Ok(settings)
//! # }
//! # let text = r#"{"limits": {"octets": 4096}, "policy": "strict"}"#;
//! # let settings = read(serde_json::from_str(text)?)?;
//! # assert_eq!(settings.policy, spki::Policy::Strict);
//! # assert_eq!(settings.limits.named()[0], ("octets", 4096));
//! # Ok::<(), serde_json::Error>(())
//! ```

#![deny(missing_docs)]
#![forbid(unsafe_code)]

use serde::ser::{SerializeMap, SerializeSeq};
use serde::Serializer;
use spki::{Denied, Explanation, Grant, Refusal};
use std::fmt::Display;
use std::time::{SystemTime, UNIX_EPOCH};

pub mod limits;
pub mod policy;

/// Writes a decision as a map. `granted` says whether the request is granted. A yes has also `entry`, the number of the entry that grants it, and
/// `until`, the last second since 1970, or null if no window ends before the end of the year 9999. A refusal has `refused`, its line, and a verifier
/// that failed has `failed`, the text of the `Denied`, which ends with that of the verifier's error.
///
/// # Errors
///
/// Those of the serializer.
pub fn decision<S: Serializer, E: Display>(
    decision: &Result<Grant, Denied<E>>,
    to: S,
) -> Result<S::Ok, S::Error> {
    let mut map = to.serialize_map(None)?;
    map.serialize_entry("granted", &decision.is_ok())?;
    match decision {
        Ok(grant) => {
            map.serialize_entry("entry", &grant.entry)?;
            map.serialize_entry("until", &grant.until.map(seconds_of))?;
        }
        Err(Denied::No) => {}
        Err(Denied::Refused(refusal)) => map.serialize_entry("refused", refusal.line())?,
        Err(other) => map.serialize_entry("failed", &other.to_string())?,
    }
    map.end()
}

/// The seconds since 1970 of a time that is a whole second. They are below 0 for a time before 1970.
fn seconds_of(time: SystemTime) -> i64 {
    match time.duration_since(UNIX_EPOCH) {
        Ok(after) => i64::try_from(after.as_secs()).unwrap_or(i64::MAX),
        Err(error) => {
            i64::try_from(error.duration().as_secs()).map_or(i64::MIN, |seconds| -seconds)
        }
    }
}

/// Writes the line of a refusal as a string.
///
/// # Errors
///
/// Those of the serializer.
pub fn refusal<S: Serializer>(refusal: &Refusal, to: S) -> Result<S::Ok, S::Error> {
    to.serialize_str(refusal.line())
}

/// Writes the lines of an explanation as a sequence of strings.
///
/// # Errors
///
/// Those of the serializer.
pub fn explanation<S: Serializer>(explanation: &Explanation, to: S) -> Result<S::Ok, S::Error> {
    let mut lines = to.serialize_seq(None)?;
    for line in explanation.text().lines() {
        lines.serialize_element(line)?;
    }
    lines.end()
}
