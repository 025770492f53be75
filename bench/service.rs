//! Makes decisions through the crate `spki`, as `service.c` makes them in C by its way `ask`. The file that is given has the parts of a
//! question, as `question.h` reads them, and then follows how many decisions. Every signature counts as verified.
use spki::{Guard, Limits, Moment, Policy, ProvenKey, Question, Request};

/// The texts of a file, in which each is its number of octets on a line, and the octets. Octets behind the last text are left out if they have no
/// line feed. Panics if a line is no number, or a greater one than octets are left.
fn texts_in(mut rest: &[u8]) -> Vec<&[u8]> {
    let mut texts = Vec::new();
    while let Some(end) = rest.iter().position(|octet| *octet == b'\n') {
        let length = std::str::from_utf8(&rest[..end]).expect("a number").parse().expect("a number");
        let (text, behind) = rest[end + 1..].split_at(length);
        texts.push(text);
        rest = behind;
    }
    texts
}

/// Opens the guard of the file, and decides its question as often as the second word says. Panics if a word or the file is wrong, or at a denial.
fn main() {
    let path = std::env::args().nth(1).expect("the name of a file");
    let calls: u32 = std::env::args().nth(2).and_then(|word| word.parse().ok()).expect("a number");
    let octets = std::fs::read(path).expect("the file");
    let texts = texts_in(&octets);
    let guard = Guard::read(texts[0], Policy::Strict, Limits::default()).expect("an access list");
    let key = ProvenKey::assume(texts[2]);
    let question = Question::new(texts[1], &key, Request::Text(texts[3]), Moment::Text(texts[4]));
    for _ in 0..calls {
        assert!(guard.decide(&question, |_| true).is_ok());
    }
}
