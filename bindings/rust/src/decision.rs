//! A decision: a grant, or why there is none.

use crate::answer::Refusal;
use crate::signature::Signature;
use std::convert::Infallible;
use std::error::Error;
use std::fmt;
use std::time::{Duration, SystemTime, UNIX_EPOCH};

/// The request is granted. There is a value of this type only if the library decided so.
#[non_exhaustive]
#[derive(Clone, Copy, Debug, PartialEq, Eq, Hash)]
pub struct Grant {
    /// The number of the first entry that grants the request, from 1.
    pub entry: usize,
    /// The last second of the grant: from the question's moment to then, the same question with the same valid signatures is granted. It is the
    /// least `not-after` of the entry and of all certificates. After it another entry may grant it. `None` if no window ends before the end of the
    /// year 9999: the grant holds to its last second.
    pub until: Option<SystemTime>,
}

/// The last second of the year 9999, since 1970. No later moment can be asked.
const LAST_SECOND: i64 = 253_402_300_799;

impl Grant {
    /// The grant by an entry until a second since 1970, which is negative for a window that ended before 1970.
    pub(crate) fn new(entry: usize, until_second: i64) -> Grant {
        let distance = Duration::from_secs(until_second.unsigned_abs());
        let until = match until_second {
            LAST_SECOND.. => None,
            0.. => Some(UNIX_EPOCH + distance),
            _ => Some(UNIX_EPOCH - distance),
        };
        Grant { entry, until }
    }

    /// Whether a grant that was kept still holds at a time, which must not precede the question's moment. No grant holds before 1970 or past the year
    /// 9999: such a time is that of a clock that failed.
    ///
    /// It does not know of a list that was read anew, nor of a certificate that its verifier would reject by now.
    #[must_use]
    pub fn holds_at(&self, now: SystemTime) -> bool {
        let last = UNIX_EPOCH + Duration::from_secs(LAST_SECOND.unsigned_abs());
        now >= UNIX_EPOCH && now < self.until.unwrap_or(last) + Duration::from_secs(1)
    }
}

/// The request is not granted, and why. `E` is the error of the verifier.
#[non_exhaustive]
#[must_use]
#[derive(Clone, Debug, PartialEq, Eq)]
pub enum Denied<E = Infallible> {
    /// No entry grants the request.
    No,
    /// The question cannot be read or exceeds a limit, or an allocation failed.
    Refused(Refusal),
    /// The verifier failed, so it is not known which signatures are valid.
    Verifier(E),
}

impl<E> Denied<E> {
    /// The refusal, if the request is denied by one. `None` if the library decided, or the verifier failed.
    #[must_use]
    pub fn refusal(&self) -> Option<&Refusal> {
        match self {
            Denied::Refused(refusal) => Some(refusal),
            _ => None,
        }
    }
}

impl<E> From<Refusal> for Denied<E> {
    /// The denial by a refusal, so that `?` passes one on.
    fn from(refusal: Refusal) -> Denied<E> {
        Denied::Refused(refusal)
    }
}

impl<E: fmt::Display> fmt::Display for Denied<E> {
    fn fmt(&self, f: &mut fmt::Formatter) -> fmt::Result {
        match self {
            Denied::No => f.write_str("no"),
            Denied::Refused(refusal) => refusal.fmt(f),
            Denied::Verifier(error) => write!(f, "a signature could not be verified: {error}"),
        }
    }
}

impl<E: Error + 'static> Error for Denied<E> {
    fn source(&self) -> Option<&(dyn Error + 'static)> {
        match self {
            // (the text has the verifier's error, so its cause is next)
            Denied::Verifier(error) => error.source(),
            _ => None,
        }
    }
}

/// Says which signatures are valid, by a crypto library.
pub trait Verifier {
    /// Why it may fail to say that.
    type Error;

    /// Whether a signature is valid.
    ///
    /// # Errors
    ///
    /// It is not known whether the signature is valid. Then nothing is granted.
    fn verify(&mut self, signature: Signature<'_>) -> Result<bool, Self::Error>;
}

/// What a verifying function returns: whether a signature is valid, or also that it failed.
pub trait Verdict {
    /// Why it may fail.
    type Error;

    /// Whether the signature is valid.
    ///
    /// # Errors
    ///
    /// The function failed.
    fn verdict(self) -> Result<bool, Self::Error>;
}

impl Verdict for bool {
    type Error = Infallible;

    fn verdict(self) -> Result<bool, Infallible> {
        Ok(self)
    }
}

impl<E> Verdict for Result<bool, E> {
    type Error = E;

    fn verdict(self) -> Result<bool, E> {
        self
    }
}
