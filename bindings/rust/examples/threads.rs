//! Threads that decide by one guard, each also by an opened question of its own. The last one to end closes the guard.
//! `tests/suite/test_bindings.py` runs it under helgrind, and expects the line `400 granted`.

use spki::{Guard, Limits, Moment, Policy, ProvenKey, Question, Request};
use std::sync::Arc;
use std::thread;

const LIST: &[u8] = b"(acl (entry (public-key (test b)) (tag (ftp))))";
/// How many threads there are, and how often each decides in each of two ways.
const THREADS: usize = 4;
const TURNS: usize = 50;

/// A question of a key. The list grants it if the key is `b`.
fn question<'q>(key: &'q ProvenKey) -> Question<'q> {
    Question::new(
        b"(sequence)",
        key,
        Request::Text(b"(ftp host)"),
        Moment::Seconds(1_704_067_200),
    )
}

/// How many of 2 * TURNS decisions grant a question: TURNS that open it anew, and TURNS on one that was opened.
fn count_grants(guard: &Guard) -> usize {
    let key = ProvenKey::assume(&b"(public-key (test b))"[..]);
    let question = question(&key);
    let asked = guard.ask(&question).expect("a question");
    // (the question has no signature, so the verifier is never called)
    let is_granted_anew = |_: &usize| guard.decide(&question, |_| true).is_ok();
    let is_granted_opened = |_: &usize| asked.decide().is_ok();
    (0..TURNS).filter(is_granted_anew).count() + (0..TURNS).filter(is_granted_opened).count()
}

/// Prints how many decisions of all threads grant their question: all 2 * THREADS * TURNS.
fn main() {
    let guard = Arc::new(Guard::read(LIST, Policy::Strict, Limits::default()).expect("a list"));
    let threads: Vec<_> = (0..THREADS)
        .map(|_| {
            let guard = Arc::clone(&guard);
            thread::spawn(move || count_grants(&guard))
        })
        .collect();
    drop(guard);
    let total: usize = threads
        .into_iter()
        .map(|thread| thread.join().expect("a count"))
        .sum();
    println!("{total} granted");
}
