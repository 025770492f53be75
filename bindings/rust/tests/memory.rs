//! Where memory is short, a call refuses or keeps more memory than its answer needs. It does not end the process.

use spki::{Fault, Guard, Limits, Moment, Policy, ProvenKey, Question, Refusal, Request};
use std::alloc::{GlobalAlloc, Layout, System};
use std::cell::Cell;
use std::ptr;

/// Requests for memory of fewer octets are always granted, such as those for the line of a refusal.
const LARGE: usize = 100;

thread_local! {
    /// How many more requests for memory of `LARGE` octets or more are granted in this thread.
    static GRANTS: Cell<usize> = const { Cell::new(usize::MAX) };
}

/// Whether a request for so many octets is refused. A large one uses up one of `GRANTS`, unless none is left.
fn refuses(octets: usize) -> bool {
    let left = GRANTS.get();
    if octets >= LARGE {
        GRANTS.set(left.saturating_sub(1));
    }
    octets >= LARGE && left == 0
}

/// The memory of the system, of which large requests are refused once `GRANTS` is 0.
struct ShortMemory;

// SAFETY: each call is passed on as it is, or answered by null, which says that there is no memory.
unsafe impl GlobalAlloc for ShortMemory {
    unsafe fn alloc(&self, layout: Layout) -> *mut u8 {
        if refuses(layout.size()) {
            return ptr::null_mut();
        }
        // SAFETY: as the caller says.
        unsafe { System.alloc(layout) }
    }

    /// Frees a block of the system: each block is one of it.
    unsafe fn dealloc(&self, block: *mut u8, layout: Layout) {
        // SAFETY: as the caller says.
        unsafe { System.dealloc(block, layout) }
    }

    unsafe fn realloc(&self, block: *mut u8, layout: Layout, octets: usize) -> *mut u8 {
        if refuses(octets) {
            return ptr::null_mut();
        }
        // SAFETY: as the caller says.
        unsafe { System.realloc(block, layout, octets) }
    }
}

#[global_allocator]
static MEMORY: ShortMemory = ShortMemory;

/// Makes a call with all large requests for memory granted, and then with only the first 0, 1, 2 and 3 of them. With none the call must be refused.
/// With one, for the buffer of its answer, or more it must answer as with all.
fn check_with_few_grants<T: PartialEq + std::fmt::Debug>(call: impl Fn() -> Result<T, Refusal>) {
    let wanted = call().expect("an answer");
    for grants in 0..4 {
        GRANTS.set(grants);
        let answer = call();
        GRANTS.set(usize::MAX);
        match answer {
            Ok(answer) => assert!(grants > 0 && answer == wanted),
            Err(refusal) => assert_eq!((grants, refusal.fault()), (0, Fault::Memory)),
        }
    }
}

/// The three forms of a text, whose string alone has more than `LARGE` octets.
#[test]
fn forms_are_refused_without_memory() {
    let text = [b"(a ", &[b'b'; 2 * LARGE][..], b")"].concat();
    check_with_few_grants(|| spki::canonical(&text));
    check_with_few_grants(|| spki::advanced(&text));
    check_with_few_grants(|| spki::transport(&text));
}

/// The lines of a list of `LARGE` entries. Each entry has a line, so they have more than `LARGE` octets.
#[test]
fn explanations_and_reductions_are_refused_without_memory() {
    let list = format!(
        "(acl {})",
        "(entry (public-key (test a)) (tag (*)))".repeat(LARGE)
    );
    let guard = Guard::read(list.as_bytes(), Policy::Strict, Limits::default()).expect("a list");
    let key = ProvenKey::assume(&b"(public-key (test a))"[..]);
    let question = Question::new(
        b"(sequence)",
        &key,
        Request::Words(&[b"x"]),
        Moment::Seconds(0),
    );
    let asked = guard.ask(&question).expect("a question");
    check_with_few_grants(|| asked.explain());
    check_with_few_grants(|| asked.reduce());
}
