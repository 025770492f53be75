//! A question that was read. The caller verifies its signatures, and marks those that are valid, each by its place: its number, from 0. The answer
//! is by the marks.

use crate::answer::{call_for_answer, call_for_line, line_of, lines_of, Refusal};
use crate::decision::{Denied, Grant, Verdict};
use crate::explanation::Explanation;
use crate::signature::Signature;
use spki_sys as sys;
use std::ffi::c_void;
use std::fmt;
use std::ptr::NonNull;
use std::slice;

/// A question that was read. It owns all that it needs of the question's texts and of its guard, which may be dropped before it. So it may be
/// stored, sent to another thread, and held while something else is awaited.
///
/// A service verifies its [`signatures`](Asked::signatures) as it likes: one by one, together, or in another process. It
/// [marks](Asked::mark) the place of each valid one. A signature that is not marked is not valid, and a mark cannot be taken back. The marks are
/// part of the question, so those of another client cannot be used for it. [`verify`](Asked::verify) does both by a function.
///
/// Several threads may share a question. Only its owner can mark it:
///
/// ```compile_fail,E0596
/// fn share(asked: &spki::Asked) {
///     asked.mark(0).ok();
/// }
/// ```
pub struct Asked {
    handle: NonNull<sys::Asked>,
    /// How many signatures are to be verified.
    count: usize,
    /// The most octets that `explain` and `reduce` write.
    most_answer: usize,
}

/// How many signatures of an [`Asked`] its [`verify`](Asked::verify) has marked as valid. It is no yes, also if that is all of them:
/// [`decide`](Asked::decide) answers.
#[must_use = "how many signatures are valid is no yes: `decide` answers"]
#[derive(Clone, Copy, Debug, PartialEq, Eq)]
pub struct ValidCount(pub usize);

// SAFETY: the library's calls only read what the handle points to, except `mark`, and the last one, which frees it, and only `drop` makes that.
unsafe impl Send for Asked {}
// SAFETY: as above: all calls on `&Asked` take the handle as `const`. `mark` takes `&mut Asked`, so no other call uses the handle then.
unsafe impl Sync for Asked {}

impl Drop for Asked {
    fn drop(&mut self) {
        // SAFETY: the handle is that of `spki_guard_ask`, and it is not used again.
        unsafe { sys::spki_asked_close(self.handle.as_ptr()) }
    }
}

impl fmt::Debug for Asked {
    fn fmt(&self, f: &mut fmt::Formatter) -> fmt::Result {
        f.debug_struct("Asked")
            .field("signatures", &self.count)
            .finish_non_exhaustive()
    }
}

impl Asked {
    /// The question of a handle that is open. Its explanation and its reduction have at most `most_answer` octets.
    pub(crate) fn new(handle: NonNull<sys::Asked>, most_answer: usize) -> Asked {
        // SAFETY: the handle is open.
        let count = unsafe { sys::spki_asked_count(handle.as_ptr()) };
        Asked {
            handle,
            count,
            most_answer,
        }
    }

    /// How many signatures are to be verified.
    pub(crate) fn count(&self) -> usize {
        self.count
    }

    /// The signatures on which the answers depend, in order.
    ///
    /// # Panics
    ///
    /// The iterator panics if an allocation of the library fails.
    #[must_use]
    pub fn signatures(&self) -> impl ExactSizeIterator<Item = Signature<'_>> + '_ {
        (0..self.count).map(|place| {
            self.signature(place)
                .unwrap_or_else(|refusal| panic!("{refusal}"))
        })
    }

    /// The signature at a place, from 0.
    ///
    /// # Errors
    ///
    /// The question has no signature at this place, or an allocation failed.
    pub fn signature(&self, place: usize) -> Result<Signature<'_>, Refusal> {
        if place >= self.count {
            return Err(self.no_place(place));
        }
        let none = sys::Text::NONE;
        let mut texts = sys::Signed {
            key: none,
            message: none,
            value: none,
            octets: none,
        };
        // SAFETY: the handle is open, and the place of the result is valid.
        let status = unsafe { sys::spki_asked_signature(self.handle.as_ptr(), place, &mut texts) };
        match status {
            sys::DONE => {}
            _ => return Err(Refusal::of(status, b"")),
        }
        let octets_of = |text: sys::Text| {
            // SAFETY: the texts last and do not change until the handle is closed, which only dropping `self` does. A text in canonical form has
            // octets, so none of the three pointers is null.
            unsafe { slice::from_raw_parts(text.octets.cast::<u8>(), text.length) }
        };
        Ok(Signature {
            key: octets_of(texts.key),
            message: octets_of(texts.message),
            value: octets_of(texts.value),
        })
    }

    /// Says that the signature at this place, from 0, is valid. The mark is for its place alone, also if the same signature is there twice.
    ///
    /// # Errors
    ///
    /// The question has no signature at this place. Nothing is marked then.
    pub fn mark(&mut self, place: usize) -> Result<(), Refusal> {
        // SAFETY: the handle is open, and `&mut self` says that no other call uses it.
        match unsafe { sys::spki_asked_mark(self.handle.as_ptr(), place) } {
            sys::DONE => Ok(()),
            _ => Err(self.no_place(place)),
        }
    }

    /// The refusal of a place that the question does not have.
    fn no_place(&self, place: usize) -> Refusal {
        let why = format!("place {place} of {} signatures", self.count);
        Refusal::misused(&why)
    }

    /// Calls a function with each signature, in order, and marks those that it says are valid. After the first that is not valid the function is
    /// called no more: no entry can grant the request then. If the function fails, the signatures that were marked before stay marked.
    ///
    /// Returns how many of the [`signatures`](Asked::signatures) are marked by this call: all of them if each is valid, and 0 if the first is not, or
    /// if there is none. That is no yes, and a signature that is not valid is no error: [`decide`](Asked::decide) answers.
    ///
    /// To explain why a request is denied, verify also where the request [cannot be granted](Asked::is_possible).
    ///
    /// # Errors
    ///
    /// The function failed, or an allocation did.
    pub fn verify<V, A>(&mut self, mut verify: V) -> Result<ValidCount, Denied<A::Error>>
    where
        V: FnMut(Signature<'_>) -> A,
        A: Verdict,
    {
        for place in 0..self.count {
            let verdict = verify(self.signature(place)?).verdict();
            if !verdict.map_err(Denied::Verifier)? {
                return Ok(ValidCount(place));
            }
            self.mark(place)?;
        }
        Ok(ValidCount(self.count))
    }

    /// Whether the request would be granted if all signatures were valid. If not, no marks make it a yes, and no signature has to be verified.
    /// `true` grants nothing.
    #[must_use]
    pub fn is_possible(&self) -> bool {
        // SAFETY: the handle is open.
        unsafe { sys::spki_asked_possible(self.handle.as_ptr()) }
    }

    /// Whether the request is granted, if exactly the marked signatures are valid. It may be asked any number of times.
    ///
    /// # Errors
    ///
    /// The request is not granted: no entry grants it, or an allocation failed.
    pub fn decide(&self) -> Result<Grant, Denied> {
        // (the error of a verifier is `Infallible`, by the type of the result: no verifier is called here)
        self.decide_after_verifying()
    }

    /// Like `decide`, for a caller whose verifier may fail with an `E`. It never returns `Denied::Verifier`: nothing is verified here.
    pub(crate) fn decide_after_verifying<E>(&self) -> Result<Grant, Denied<E>> {
        let call = |buffer, room, needed| self.call(sys::spki_asked_decide, (buffer, room, needed));
        call_for_line(call, |decision: sys::Decision, line| {
            match decision.status {
                sys::YES => grant_of(line, decision.until).map_err(Denied::Refused),
                sys::NO => Err(Denied::No),
                status => Err(Denied::Refused(Refusal::of(status, line))),
            }
        })
    }

    /// Says of each entry why it grants the request or does not, or which certificate stops all of them, if exactly the marked signatures are valid.
    ///
    /// # Errors
    ///
    /// A limit of nodes, of work or of the answer is exceeded, or an allocation failed.
    pub fn explain(&self) -> Result<Explanation, Refusal> {
        let text = self.lines(sys::spki_asked_explain)?;
        Ok(Explanation { text })
    }

    /// Returns which right remains of each entry after all certificates, if exactly the marked signatures are valid: the lines of the program's
    /// command `reduce`.
    ///
    /// # Errors
    ///
    /// A limit of nodes, of work or of the answer is exceeded, or an allocation failed.
    pub fn reduce(&self) -> Result<String, Refusal> {
        self.lines(sys::spki_asked_reduce)
    }

    /// The lines of `explain` or `reduce`, without the last line feed. `call` is the call of the library that writes them.
    fn lines(&self, call: sys::Answers) -> Result<String, Refusal> {
        let (status, lines) = call_for_answer(self.most_answer, |buffer, room, needed| {
            self.call(call, (buffer, room, needed)).status
        });
        match status {
            sys::DONE => Ok(lines_of(lines)),
            _ => Err(Refusal::of(status, &lines)),
        }
    }

    /// Makes the call `call` of the library for this question, with a buffer, its room, and where the length of the answer goes.
    fn call<A>(
        &self,
        call: sys::Answers<A>,
        (buffer, room, needed): (*mut c_void, usize, *mut usize),
    ) -> A {
        // SAFETY: the handle is open. Each pointer is to as many octets as its length says, and they do not overlap.
        unsafe { call(self.handle.as_ptr(), buffer, room, needed) }
    }
}

/// The grant of a line `yes entry N`. `until` is its last second since 1970. Another line is a refusal as misused: the library is not the one that
/// was expected.
fn grant_of(line: &[u8], until: i64) -> Result<Grant, Refusal> {
    line_of(line)
        .strip_prefix("yes entry ")
        .and_then(|number| number.parse().ok())
        .map(|entry| Grant::new(entry, until))
        .ok_or_else(|| Refusal::misused("libspki_c wrote another line"))
}
