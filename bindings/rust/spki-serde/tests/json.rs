//! What is written and read, as JSON. LIST grants `(ftp)` to key a by its first entry, and to key b by the second up to the end of June 2026.

use serde::de::value::{Error, MapDeserializer};
use serde_json::value::Serializer;
use serde_json::{json, Value};
use spki::{Denied, Grant, Guard, Limits, Moment, Policy, ProvenKey, Question, Request};
use spki_serde::{decision, explanation, limits, policy, refusal};
use std::time::{Duration, UNIX_EPOCH};

const LIST: &[u8] =
    b"(acl (entry (public-key (test a)) (tag (ftp))) (entry (public-key (test b)) (tag (ftp)) (not-after \"2026-06-30_23:59:59\")))";

/// The limits of a value in JSON, or the text of the error.
fn limits_of(value: Value) -> Result<Limits, String> {
    limits::deserialize(value).map_err(|error| error.to_string())
}

/// Only limits that are set are written. A number above the highest is read as the highest. A name that is unknown or twice, and a value that is no
/// whole number from 0 on, is an error.
#[test]
fn limits_are_written_and_read() {
    let partial = Limits::default().octets(4096).work(7);
    let written = limits::serialize(&partial, Serializer).expect("a map");
    assert_eq!(written, json!({"octets": 4096, "work": 7}));
    for each in [partial, Limits::default(), Limits::highest()] {
        let written = limits::serialize(&each, Serializer).expect("a map");
        let read = limits_of(written).expect("limits");
        assert_eq!(read.named(), each.named());
    }
    let above = limits_of(json!({"octets": 1_000_000_000_u64})).expect("limits");
    assert_eq!(above.named(), Limits::default().octets(1_048_576).named());
    for wrong in [
        json!({"octet": 1}),
        json!({"words": -1}),
        json!({"words": "1"}),
        json!({"words": null}),
        json!([1]),
        json!(null),
    ] {
        assert!(limits_of(wrong.clone()).is_err(), "{wrong}");
    }
    let twice = [("words", 1_u64), ("words", 2)].into_iter();
    let read: Result<Limits, Error> = limits::deserialize(MapDeserializer::new(twice));
    assert_eq!(
        read.map(|limits| limits.named())
            .map_err(|error| error.to_string()),
        Err("the limit words is there twice".into())
    );
}

/// A policy is one of two words. Any other value is an error.
#[test]
fn policies_are_written_and_read() {
    for (word, wanted) in [
        ("strict", Policy::Strict),
        ("allow-sha1", Policy::AllowSha1),
    ] {
        assert_eq!(
            policy::serialize(&wanted, Serializer).expect("a word"),
            word
        );
        assert_eq!(policy::deserialize(json!(word)).expect("a policy"), wanted);
    }
    for wrong in [json!("open"), json!("Strict"), json!(0), json!(null)] {
        assert!(policy::deserialize(wrong.clone()).is_err(), "{wrong}");
    }
}

/// A guard of a list, by the library's own limits.
fn guard_of(list: &[u8]) -> Guard {
    Guard::read(list, Policy::Strict, Limits::default()).expect("a list")
}

/// The key b, as that of a client that has proved to hold it.
fn client() -> ProvenKey<'static> {
    ProvenKey::assume(&b"(public-key (test b))"[..])
}

/// A decision as a value in JSON.
fn json_of(decided: &Result<Grant, Denied>) -> Value {
    decision(decided, Serializer).expect("a map")
}

/// A grant at 2024-01-01 00:00:00 has the number of its entry and its last second, 2026-06-30 23:59:59. An explanation is a list of lines.
#[test]
fn grants_are_written() {
    let (guard, client) = (guard_of(LIST), client());
    let now = UNIX_EPOCH + Duration::from_secs(1_704_067_200);
    let question = Question::new(b"(sequence)", &client, Request::Text(b"(ftp)"), now);
    assert_eq!(
        json_of(&guard.decide(&question, |_| false)),
        json!({"granted": true, "entry": 2, "until": 1_782_863_999})
    );
    let explained = guard
        .ask(&question)
        .expect("a question")
        .explain()
        .expect("lines");
    assert_eq!(
        explanation(&explained, Serializer).expect("lines"),
        json!(["entry 1 NotTheKey", "entry 2 grants"])
    );
}

/// The end of a window before 1970 is written as seconds below 0.
#[test]
fn an_end_before_1970_is_written() {
    let list =
        b"(acl (entry (public-key (test b)) (tag (ftp)) (not-after \"1969-12-31_23:59:58\")))";
    let (guard, client) = (guard_of(list), client());
    let moment = Moment::Text(b"\"1969-01-01_00:00:00\"");
    let question = Question::new(b"(sequence)", &client, Request::Text(b"(ftp)"), moment);
    assert_eq!(
        json_of(&guard.decide(&question, |_| false)),
        json!({"granted": true, "entry": 1, "until": -2})
    );
}

/// A no, a refusal and a verifier that failed are written differently, and none is granted.
#[test]
fn denials_are_written() {
    let (guard, client) = (guard_of(LIST), client());
    let now = UNIX_EPOCH + Duration::from_secs(1_704_067_200);
    let other = Question::new(b"(sequence)", &client, Request::Words(&[b"http"]), now);
    assert_eq!(
        json_of(&guard.decide(&other, |_| false)),
        json!({"granted": false})
    );
    let cut = Question::new(b"(sequence", &client, Request::Words(&[b"ftp"]), now);
    let refused = guard.decide(&cut, |_| false);
    assert_eq!(
        json_of(&refused),
        json!({"granted": false, "refused": "refused sequence Short"})
    );
    let reason = refused
        .as_ref()
        .err()
        .and_then(Denied::refusal)
        .expect("a refusal");
    assert_eq!(
        refusal(reason, Serializer).expect("a line"),
        "refused sequence Short"
    );
    let failed = Err(Denied::Verifier("no answer"));
    assert_eq!(
        decision(&failed, Serializer).expect("a map"),
        json!({"granted": false, "failed": "a signature could not be verified: no answer"})
    );
}
