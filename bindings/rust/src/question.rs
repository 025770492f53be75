//! Questions, and how they are lent to the library.

use crate::signature::ProvenKey;
use spki_sys as sys;
use std::mem::size_of;
use std::ptr;
use std::time::{SystemTime, UNIX_EPOCH};

/// The most strings of a request that is lent without an allocation.
const WORDS: usize = 16;

/// What a service asks a guard. Each part is a separate text, so that no octets of one part can become another part. A text is one value in any of
/// the three forms of RFC 9804. The strings of `Request::Words` are no such texts: they may have any octets.
#[non_exhaustive]
#[derive(Clone, Copy, Debug)]
pub struct Question<'q> {
    /// The certificates and signatures that the client shows: `(sequence ..)`.
    pub sequence: &'q [u8],
    /// The client's key, which it has proved to hold.
    pub key: &'q ProvenKey<'q>,
    /// What the client wants to do.
    pub request: Request<'q>,
    /// The time of the service's own clock.
    pub moment: Moment<'q>,
}

/// A request.
#[non_exhaustive]
#[derive(Clone, Copy, Debug)]
pub enum Request<'q> {
    /// As a text.
    Text(&'q [u8]),
    /// As its strings, each as octets that may come from anywhere. The request is the list of them, or, if there is one string only, that string.
    Words(&'q [&'q [u8]]),
}

/// A moment.
#[non_exhaustive]
#[derive(Clone, Copy, Debug, PartialEq, Eq)]
pub enum Moment<'q> {
    /// As the text of a date, `"2026-03-01_12:00:00"`, in UTC.
    Text(&'q [u8]),
    /// As seconds since 1970-01-01 00:00:00 UTC. A number below 0 or past the year 9999 is that of a clock that failed, and is refused as
    /// `BadDate`.
    Seconds(i64),
}

impl From<SystemTime> for Moment<'_> {
    /// The second that a time is in: half a second before 1970 is in -1. A time that no `i64` can hold becomes `i64::MIN` or `i64::MAX`,
    /// which are refused.
    fn from(time: SystemTime) -> Self {
        let seconds = match time.duration_since(UNIX_EPOCH) {
            Ok(after) => i64::try_from(after.as_secs()).unwrap_or(i64::MAX),
            Err(error) => {
                let before_epoch = error.duration();
                // (a time inside of a second belongs to the second that began before it, which is one further from 1970)
                let is_inside = before_epoch.subsec_nanos() > 0;
                i64::try_from(before_epoch.as_secs() + u64::from(is_inside))
                    .map_or(i64::MIN, |seconds| -seconds)
            }
        };
        Moment::Seconds(seconds)
    }
}

impl<'q> Question<'q> {
    /// A question. The moment is the time of the service's own clock, such as `SystemTime::now()`.
    #[must_use]
    pub fn new(
        sequence: &'q [u8],
        key: &'q ProvenKey<'q>,
        request: Request<'q>,
        moment: impl Into<Moment<'q>>,
    ) -> Question<'q> {
        Question {
            sequence,
            key,
            request,
            moment: moment.into(),
        }
    }

    /// Calls `call` with the question as the library takes it, and returns what `call` returns. The pointers in the question are valid during this
    /// call only: up to `WORDS` strings of a request lie on the stack, and more in a vector.
    pub(crate) fn lend<T>(&self, call: impl FnOnce(&sys::Question) -> T) -> T {
        let Request::Words(words) = self.request else {
            return call(&self.raw(ptr::null(), 0));
        };
        let mut few = [sys::Text::NONE; WORDS];
        if words.len() > WORDS {
            let many: Vec<_> = words.iter().map(|word| sys::Text::of(word)).collect();
            return call(&self.raw(many.as_ptr(), many.len()));
        }
        for (text, word) in few.iter_mut().zip(words) {
            *text = sys::Text::of(word);
        }
        call(&self.raw(few.as_ptr(), words.len()))
    }

    /// The question as the library takes it. `words` are the strings of its request: null, and 0 of them, if the request is a text.
    fn raw(&self, words: *const sys::Text, word_count: usize) -> sys::Question {
        let request = match self.request {
            Request::Text(text) => sys::Text::of(text),
            Request::Words(_) => sys::Text::NONE,
        };
        let (moment, seconds) = match &self.moment {
            Moment::Text(text) => (sys::Text::of(text), ptr::null()),
            Moment::Seconds(seconds) => (sys::Text::NONE, ptr::from_ref(seconds)),
        };
        sys::Question {
            size: size_of::<sys::Question>(),
            sequence: sys::Text::of(self.sequence),
            key: sys::Text::of(self.key.text()),
            request,
            words,
            word_count,
            moment,
            seconds,
        }
    }
}
