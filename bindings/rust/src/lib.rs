//! Whether the holder of a key may do what it requests, decided by a proved library: access lists and certificates of SPKI, RFC 2693.
//!
//! This crate is a safe interface to `libspki_c`, whose decisions are proved. The lines of this crate are tested and not proved.
//!
//! A service reads its access list once, into a [`Guard`], and asks it a [`Question`] for each request. The parts of a question come
//! from different sources, so each is a separate text. The service verifies signatures by a crypto library of its choice, in a closure or by
//! a [`Verifier`]. A [`ProvenKey`] is the key of a client that has proved to hold it. Only `Ok` is a yes: a no, a refusal and a verifier that
//! fails are [`Denied`].
//!
//! ```
//! use spki::{Guard, Limits, Moment, Policy, ProvenKey, Question, Request, Signature};
//!
//! // Alice may read and write builds, and may delegate that. She lets Carol read the web builds.
//! let list = b"(acl (entry (public-key (test alice)) (propagate) (tag (packages (* set read write) (* prefix /builds/)))))";
//! let sequence = b"(sequence
//!   (cert (issuer (public-key (test alice))) (subject (public-key (test carol)))
//!    (tag (packages read (* prefix /builds/web/))))
//!   (signature (hash sha256 #54c4054f7abf9d1682511152fbbbfda943e3cf2fdcd1aca9175f7f153341ed3c#)
//!    (public-key (test alice)) signed-by-alice))";
//! let guard = Guard::read(list, Policy::Strict, Limits::default())?;
//! let key = ProvenKey::assume(&b"(public-key (test carol))"[..]); // Carol has proved to hold it, for example by TLS
//! let request = Request::Words(&[b"packages", b"read", b"/builds/web/index.html"]);
//! let now = Moment::Seconds(1_772_366_400); // the service's own clock: SystemTime::now()
//! let question = Question::new(sequence, &key, request, now);
//! // Call your crypto library here. The keys of this example are words, and so are their signatures.
//! let verify = |signature: Signature| signature.value == b"15:signed-by-alice";
//! let grant = guard.decide(&question, verify)?;
//! assert_eq!(grant.entry, 1);
//! # Ok::<(), Box<dyn std::error::Error>>(())
//! ```
//!
//! `SPKI_LIB_DIR` names the folder of `libspki_c`. Without it the build asks `pkg-config`. A thread that calls must have 256 KiB of stack left,
//! and no call may be made in a child that a process with several threads forked.

#![deny(missing_docs)]
#![deny(unsafe_op_in_unsafe_fn)]
#![deny(clippy::must_use_candidate, clippy::return_self_not_must_use)]

mod answer;
mod asked;
mod decision;
mod explanation;
mod guard;
pub mod http;
mod library;
mod question;
mod signature;
mod text;
mod words;

pub use answer::Refusal;
pub use asked::{Asked, ValidCount};
pub use decision::{Denied, Grant, Verdict, Verifier};
pub use explanation::{Explanation, Reason};
pub use guard::{Guard, Limits, Policy};
pub use library::library_version;
pub use question::{Moment, Question, Request};
pub use signature::{NotProved, ProvenKey, Scheme, Signature};
pub use text::{advanced, canonical, string_at, transport};
pub use words::{Cause, Fault, Part};
