//! What the calls answer: lines, in a buffer that every answer of the call fits in. So no call is made twice.

use crate::words::{Fault, Part};
use spki_sys::{self as sys, Status};
use std::error::Error;
use std::ffi::c_void;
use std::fmt;

/// The octets that each decision and each refusal fits in.
pub(crate) const LINE: usize = 128;

/// A line that begins with `refused`: a text is no input, a limit is exceeded, or an allocation failed. Nothing is granted.
///
/// The lines are those of the program `spki`; its manual lists them. A call that was made wrongly has a line that begins with `misused`.
///
/// ```
/// # use spki::{Fault, Part};
/// let refusal = spki::canonical(b"(a ~)").unwrap_err();
/// assert_eq!(refusal.line(), "refused form Bad 3");
/// assert_eq!((refusal.part(), refusal.fault()), (Some(Part::Form), Fault::Bad));
/// ```
#[must_use]
#[derive(Clone, Debug, PartialEq, Eq, Hash)]
pub struct Refusal {
    line: String,
}

impl Refusal {
    /// The refusal of a call that failed, by its status and its answer. For a status other than `REFUSED` and `NO_MEMORY`,
    /// which no right call returns, the line begins with `misused`.
    pub(crate) fn of(status: Status, answer: &[u8]) -> Refusal {
        let line = match status {
            sys::REFUSED => line_of(answer),
            sys::NO_MEMORY => "refused Memory",
            _ => return Refusal::misused(&format!("libspki_c answered with the status {status}")),
        };
        Refusal {
            line: line.to_owned(),
        }
    }

    /// The refusal of a call that was made wrongly.
    pub(crate) fn misused(why: &str) -> Refusal {
        Refusal {
            line: format!("misused: {why}"),
        }
    }

    /// The line, without its line feed, such as `refused sequence 3 Shape`.
    #[must_use]
    pub fn line(&self) -> &str {
        &self.line
    }

    /// What is wrong: the last word of the line that begins with a capital letter, such as `Trailing` in `refused sequence Trailing 11`.
    /// `Fault::Misused` for a call that was made wrongly.
    #[must_use]
    pub fn fault(&self) -> Fault {
        let is_fault = |word: &&str| word.starts_with(|first: char| first.is_ascii_uppercase());
        match self.line.strip_prefix("misused") {
            Some(_) => Fault::Misused,
            None => Fault::of(self.line.split(' ').rfind(is_fault).unwrap_or_default()),
        }
    }

    /// What is refused. `None` if the line names no part, as `refused Memory`, or the call was made wrongly.
    #[must_use]
    pub fn part(&self) -> Option<Part> {
        let word = self.line.strip_prefix("refused ")?.split_once(' ')?.0;
        Some(Part::of(word))
    }
}

impl fmt::Display for Refusal {
    fn fmt(&self, f: &mut fmt::Formatter) -> fmt::Result {
        f.write_str(&self.line)
    }
}

impl Error for Refusal {}

/// The text of an answer, without the line feed at its end. Panics if it is no UTF-8: each line of the library is ASCII.
pub(crate) fn line_of(answer: &[u8]) -> &str {
    std::str::from_utf8(answer)
        .expect("lines are ASCII")
        .trim_end_matches('\n')
}

/// The text of an answer as `line_of` returns it, in the memory of the answer.
pub(crate) fn lines_of(answer: Vec<u8>) -> String {
    let length = line_of(&answer).len();
    let mut lines = String::from_utf8(answer).expect("lines are ASCII");
    lines.truncate(length);
    lines
}

/// Makes a call that writes one line, into a buffer on the stack. `call` gets a buffer, its room, and where the length goes. `result_of` gets what
/// `call` returns, and the line, which is empty if the call writes none. Returns what `result_of` returns.
pub(crate) fn call_for_line<A, T>(
    call: impl FnOnce(*mut c_void, usize, *mut usize) -> A,
    result_of: impl FnOnce(A, &[u8]) -> T,
) -> T {
    let (mut buffer, mut needed) = ([0u8; LINE], 0);
    let returned = call(buffer.as_mut_ptr().cast(), LINE, &mut needed);
    result_of(returned, &buffer[..needed.min(LINE)])
}

/// Makes a call that writes an answer of at most `most` octets, or one line. `call` gets a buffer, its room, and where the length goes. Returns its
/// status and the answer, which is empty if it does not fit. If there is no memory for the buffer, the call is not made, and the status is
/// `NO_MEMORY`.
pub(crate) fn call_for_answer(
    most: usize,
    call: impl FnOnce(*mut c_void, usize, *mut usize) -> Status,
) -> (Status, Vec<u8>) {
    let (mut buffer, mut needed) = (Vec::<u8>::new(), 0);
    if buffer.try_reserve_exact(most.max(LINE)).is_err() {
        return (sys::NO_MEMORY, buffer);
    }
    let status = call(buffer.as_mut_ptr().cast(), buffer.capacity(), &mut needed);
    if status != sys::TOO_SMALL {
        // SAFETY: the answer has so many octets, and the call has written them to the front of the buffer.
        unsafe { buffer.set_len(needed) };
    }
    (status, copied_or_kept(buffer))
}

/// The same octets in memory of their length, or in the memory that they have if there is no more: `shrink_to_fit` would end the process then.
fn copied_or_kept(octets: Vec<u8>) -> Vec<u8> {
    let mut copy = Vec::new();
    if copy.try_reserve_exact(octets.len()).is_err() {
        return octets;
    }
    copy.extend_from_slice(&octets);
    copy
}
