//! Answers the questions of a test, so that another program can compare the answers.
//!
//! Reads strings from standard input, each as LENGTH:OCTETS, and writes each answer as one string, without its last line feed.
//! A list of strings is first the number of its strings, itself a string, and then these. A question is, in this order:
//!
//! - the strings COMMAND (`explain`, `reduce`, or any other word for a decision), POLICY (`strict`, or any other word for `AllowSha1`), LIMITS
//!   (`highest`, or any other word for the usual ones), ACL, SEQUENCE and KEY
//! - the request: `text` and a list of one string, its text, or `words` and the list of its strings
//! - the moment: `text` and a date, or `seconds` and the number of seconds since 1970
//! - a list of the signatures that the verifier accepts, three strings each: a key, a message and a value

use spki::{
    Denied, Grant, Guard, Limits, Moment, Policy, ProvenKey, Question, Reason, Refusal, Request,
    Signature,
};
use std::error::Error;
use std::io::{self, Read, Write};

/// The whole input. `position` is that of the first octet which is not read yet.
struct Input {
    octets: Vec<u8>,
    position: usize,
}

impl Input {
    /// Reads the next string, LENGTH:OCTETS, and returns its octets. `None` if no colon follows, as at the end of the input, or if LENGTH is no
    /// number. Panics if the octets are cut off.
    fn next(&mut self) -> Option<&[u8]> {
        let rest = &self.octets[self.position..];
        let colon = rest.iter().position(|octet| *octet == b':')?;
        let length: usize = std::str::from_utf8(&rest[..colon]).ok()?.parse().ok()?;
        self.position += colon + 1 + length;
        Some(&self.octets[self.position - length..self.position])
    }

    /// Reads the next string. `None` where `next` returns it, and if the string is not UTF-8.
    fn text(&mut self) -> Option<String> {
        String::from_utf8(self.next()?.to_vec()).ok()
    }

    /// Reads the number of strings, and then these. `None` if one of them is missing, or if the first string is no number.
    fn list(&mut self) -> Option<Vec<Vec<u8>>> {
        let count = self.text()?.parse().ok()?;
        (0..count)
            .map(|_| self.next().map(<[u8]>::to_vec))
            .collect()
    }
}

/// The line of an explanation as the program `spki` writes it, put together from its parts, so that the test compares these too.
fn line_of(reason: Reason) -> String {
    let entry = reason.entry.map(|number| format!("entry {number} "));
    let item = reason.item.map(|number| format!("item {number} "));
    format!(
        "{}{}{}",
        entry.unwrap_or_default(),
        item.unwrap_or_default(),
        reason.word
    )
}

/// Reads the next question, and returns its answer without the last line feed. `None` at the end of the input, or if the rest of it is no whole
/// question. Panics if octets are cut off, or if a request by `text` has no string.
fn answer(input: &mut Input) -> Option<Result<String, Refusal>> {
    let (command, policy, limits) = (input.text()?, input.text()?, input.text()?);
    let mut next = || input.next().map(<[u8]>::to_vec);
    let (list, sequence, key) = (next()?, next()?, next()?);
    let (request_form, request) = (input.text()?, input.list()?);
    let (moment_form, moment) = (input.text()?, input.next()?.to_vec());
    let accepted = input.list()?;
    let words: Vec<&[u8]> = request.iter().map(Vec::as_slice).collect();
    let request = match &request_form[..] {
        "text" => Request::Text(words[0]),
        _ => Request::Words(&words),
    };
    let moment = match &moment_form[..] {
        "text" => Moment::Text(&moment),
        _ => Moment::Seconds(String::from_utf8(moment).ok()?.parse().ok()?),
    };
    let key = ProvenKey::assume(&key);
    let question = Question::new(&sequence, &key, request, moment);
    let policy = if policy == "strict" {
        Policy::Strict
    } else {
        Policy::AllowSha1
    };
    let limits = match &limits[..] {
        "highest" => Limits::highest(),
        _ => Limits::default(),
    };
    let guard = Guard::read(&list, policy, limits);
    Some(guard.and_then(|guard| answer_to(&command, &guard, &question, &accepted)))
}

/// Asks the guard the question, and answers by the command: `reduce`, `explain`, or any other for a decision. `accepted` has three strings for each
/// signature that is valid: its key, its message and its value. A refusal alone is an error: a denial is the answer `no`.
fn answer_to(
    command: &str,
    guard: &Guard,
    question: &Question,
    accepted: &[Vec<u8>],
) -> Result<String, Refusal> {
    let verify = |signature: Signature| {
        let Signature {
            key,
            message,
            value,
        } = signature;
        accepted.chunks(3).any(|row| row == [key, message, value])
    };
    let mut asked = guard.ask(question)?;
    match asked.verify(verify) {
        Ok(_) => {}
        Err(Denied::Refused(refusal)) => return Err(refusal),
        Err(denied) => return Ok(denied.to_string()),
    }
    match command {
        "reduce" => asked.reduce(),
        "explain" => {
            let lines: Vec<_> = asked.explain()?.reasons().map(line_of).collect();
            Ok(if lines.is_empty() {
                "no entries".into()
            } else {
                lines.join("\n")
            })
        }
        _ => match asked.decide() {
            Ok(Grant { entry, .. }) => Ok(format!("yes entry {entry}")),
            Err(Denied::Refused(refusal)) => Err(refusal),
            Err(_) => Ok("no".into()),
        },
    }
}

/// Writes the answer to each question, LENGTH:OCTETS, in order, until no question is left. The answer to a question that is refused is the line of
/// the refusal.
fn main() -> Result<(), Box<dyn Error>> {
    let mut input = Input {
        octets: Vec::new(),
        position: 0,
    };
    io::stdin().read_to_end(&mut input.octets)?;
    while let Some(answer) = answer(&mut input) {
        let lines = answer.unwrap_or_else(|refusal| refusal.line().into());
        write!(io::stdout(), "{}:{lines}", lines.len())?;
    }
    Ok(())
}
