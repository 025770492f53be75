//! Why a request is granted, or is not.

use crate::words::Cause;
use std::fmt;

/// The lines of the program's command `explain`. They are no decision.
#[must_use]
#[derive(Clone, Debug, PartialEq, Eq)]
pub struct Explanation {
    pub(crate) text: String,
}

/// One line of an explanation.
#[non_exhaustive]
#[derive(Clone, Copy, Debug, PartialEq, Eq, Hash)]
pub struct Reason<'e> {
    /// The number of the entry that the line is about, from 1. `None` if the certificate stops all entries.
    pub entry: Option<usize>,
    /// The number of the certificate that stops the entry, or all entries, among the items of the sequence, from 1. `None` if no certificate does.
    pub item: Option<usize>,
    /// What the line says.
    pub cause: Cause,
    /// The word that says it: `grants`, or the cause, such as `TagLacks`, `NoDelegation` or `NotAccepted`.
    pub word: &'e str,
}

impl Explanation {
    /// The lines as they are, without the last line feed.
    #[must_use]
    pub fn text(&self) -> &str {
        &self.text
    }

    /// The lines one by one. There is none if the access list is empty and no certificate stops all entries: then the text is `no entries`.
    pub fn reasons(&self) -> impl Iterator<Item = Reason<'_>> {
        self.text
            .lines()
            .filter(|line| *line != "no entries")
            .map(|line| {
                let (entry, rest) = take_number("entry ", line);
                let (item, word) = take_number("item ", rest);
                Reason {
                    entry,
                    item,
                    cause: Cause::of(word),
                    word,
                }
            })
    }
}

impl fmt::Display for Explanation {
    fn fmt(&self, f: &mut fmt::Formatter) -> fmt::Result {
        f.write_str(&self.text)
    }
}

/// The number after a word at the beginning of a line, and what follows. `None` and the whole line if the word is not there. The word ends with a
/// space.
fn take_number<'l>(word: &str, line: &'l str) -> (Option<usize>, &'l str) {
    let number_and_rest = line
        .strip_prefix(word)
        .and_then(|rest| rest.split_once(' '));
    number_and_rest.map_or((None, line), |(number, rest)| (number.parse().ok(), rest))
}
