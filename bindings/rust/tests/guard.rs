//! What the crate does beside the library: opened questions, marks, its buffers and its types. `tests/suite/test_bindings.py` at the top of the
//! repository compares the answers to many questions with the program's.
//!
//! By the access list LIST key a may do everything, and may delegate it. PAIR is a certificate of a for key b with its signature, and SIGNED what a
//! verifier gets of the two. OWN is one of a for itself that delegates, so that PAIR may follow it. FORGED is a sequence for key c, whose signature
//! is not valid. A question is by b (KEY), for the request WORDS, at NOW, but for the parts that a test gives it. `sequence_of(2)` has PAIR twice.
//! `guard` has the highest limits. `Guard::ask` opens a question: its signatures have places, from 0, by which a test marks those that count as
//! valid. An item is a certificate or a signature of a sequence, from 1.

use spki::{
    Asked, Cause, Denied, Explanation, Fault, Grant, Guard, Limits, Moment, NotProved, Part,
    Policy, ProvenKey, Question, Refusal, Request, Scheme, Signature, ValidCount,
};
use std::error::Error;
use std::fmt;
use std::num::ParseIntError;
use std::panic::{catch_unwind, AssertUnwindSafe};
use std::time::{Duration, UNIX_EPOCH};

const LIST: &[u8] = b"(acl (entry (public-key (test a)) (propagate) (tag (*))))";
/// A certificate by which key a lets b do everything, and its signature. SIGNED is what a verifier gets of them.
const PAIR: &str = "(cert (issuer (public-key (test a))) (subject (public-key (test b))) (tag (*)))
    (signature (hash sha256 #d71ecfb335b8e4b04cb035426566a94e817a12cfcfa4dbf5b704b6cd670c7ad2#) (public-key (test a)) sig)";
const SIGNED: Signature = Signature {
    key: b"(10:public-key(4:test1:a))",
    message: b"(4:cert(6:issuer(10:public-key(4:test1:a)))(7:subject(10:public-key(4:test1:b)))(3:tag(1:*)))",
    value: b"3:sig",
};
const KEY: &[u8] = b"(public-key (test b))";
/// A certificate by which key a delegates everything to itself: it may precede another one, also twice.
const OWN: &str = "(cert (issuer (public-key (test a))) (subject (public-key (test a))) (propagate) (tag (*)))
    (signature (hash sha256 #b26a73c3cdcb26bbb71fa21531b5b6a1745fc316ddfcf53862a174f5dccebfb6#) (public-key (test a)) sig)";
/// A certificate for c in the name of a, whose signature is not valid.
const FORGED: &[u8] = b"(sequence (cert (issuer (public-key (test a))) (subject (public-key (test c))) (tag (*)))
    (signature (hash sha256 #b0c7e53153c3b09dad60263b3b4738aa1ae756cc4642305bcf4fdc4114ff0d5d#) (public-key (test a)) forged))";
const WORDS: Request = Request::Words(&[b"ftp", b"host"]);
const NOW: Moment = Moment::Seconds(1_704_067_200); // 2024-01-01_00:00:00

type Outcome = Result<(), Box<dyn Error>>;

/// A guard of a list, with the highest limits.
fn guard(list: &[u8]) -> Guard {
    Guard::read(list, Policy::Strict, Limits::highest()).expect("a list")
}

/// A question by KEY, at NOW, for WORDS, that shows a sequence.
fn question_showing(sequence: &[u8]) -> Question<'_> {
    Question::new(sequence, proven(KEY), WORDS, NOW)
}

/// A question by KEY, at NOW, without certificates, for a request.
fn question_for(request: Request) -> Question {
    Question::new(b"(sequence)", proven(KEY), request, NOW)
}

/// A sequence of PAIR, the certificate from a to b, so many times.
fn sequence_of(times: usize) -> Vec<u8> {
    format!("(sequence {})", PAIR.repeat(times)).into()
}

/// A verifier that accepts each signature as valid.
fn accept(_: Signature) -> bool {
    true
}

/// The key of a client that has proved to hold it. It is never freed, so that questions may borrow it.
fn proven(key: &'static [u8]) -> &'static ProvenKey<'static> {
    Box::leak(Box::new(ProvenKey::assume(key)))
}

/// The line of a refusal. Panics if there is none.
fn refusal_line<T: std::fmt::Debug>(result: Result<T, Denied>) -> String {
    match result {
        Err(Denied::Refused(refusal)) => refusal.to_string(),
        other => panic!("this is no refusal: {other:?}"),
    }
}

/// Of each line of an explanation: the numbers of the entry and of the item, each None if the line has none, and the word.
fn lines(explanation: &Explanation) -> Vec<(Option<usize>, Option<usize>, &str)> {
    let reasons = explanation.reasons();
    reasons
        .map(|reason| (reason.entry, reason.item, reason.word))
        .collect()
}

/// The verifier is called once, with SIGNED. Where no signature is valid, nothing is granted.
#[test]
fn a_verifier_is_given_what_is_signed() -> Outcome {
    let sequence = sequence_of(1);
    let mut calls = 0;
    let grant = guard(LIST).decide(&question_showing(&sequence), |signature| {
        calls += 1;
        signature == SIGNED
    })?;
    assert_eq!((grant.entry, calls), (1, 1));
    let denied = guard(LIST).decide(&question_showing(&sequence), |_| false);
    assert_eq!(denied, Err(Denied::No));
    Ok(())
}

/// Of three certificates the second, item 3, has a wrong signature.
#[test]
fn a_verifier_is_not_called_behind_the_first_wrong_signature() -> Outcome {
    let invalid = PAIR.replace("sig)", "invalid)");
    let sequence = format!("(sequence {PAIR} {invalid} {PAIR})");
    let guard = guard(LIST);
    let mut asked = guard.ask(&question_showing(sequence.as_bytes()))?;
    let mut calls = 0;
    let valid = asked.verify(|signature| {
        calls += 1;
        signature.value == b"3:sig"
    })?;
    assert_eq!((calls, valid), (2, ValidCount(1)));
    let explanation = asked.explain()?;
    assert_eq!(lines(&explanation), [(None, Some(3), "NotAccepted")]);
    Ok(())
}

/// A certificate from a to itself stands 39 times before the one from a to b: each of the 40 signatures is verified.
#[test]
fn a_verifier_is_called_for_each_of_many() -> Outcome {
    let sequence = format!("(sequence {} {PAIR})", OWN.repeat(39));
    let mut calls = 0;
    let grant = guard(LIST).decide(&question_showing(sequence.as_bytes()), |signature| {
        calls += 1;
        (signature.key, signature.value) == (SIGNED.key, SIGNED.value)
    })?;
    assert_eq!((calls, grant.entry), (40, 1));
    Ok(())
}

/// Nothing is verified where no signature could help: the second certificate is not by the subject of the first, or the list is empty.
#[test]
fn a_verifier_is_not_called_in_vain() {
    let sequence = sequence_of(2);
    for (list, question) in [
        (LIST, question_showing(&sequence)),
        (b"(acl)", question_showing(FORGED)),
    ] {
        let verify = |_: Signature| -> bool { panic!("a signature is verified") };
        assert_eq!(guard(list).decide(&question, verify), Err(Denied::No));
    }
}

/// Two clients at once: what is marked for b, whose question is `good`, grants nothing to c, whose question is `bad`. Questions that are moved, here
/// swapped, keep their marks.
#[test]
fn marks_are_of_one_question() -> Outcome {
    let guard = guard(LIST);
    let sequence = sequence_of(1);
    let mut good = guard.ask(&question_showing(&sequence))?;
    let mut bad = guard.ask(&Question::new(
        FORGED,
        proven(b"(public-key (test c))"),
        WORDS,
        NOW,
    ))?;
    assert!(good.is_possible() && bad.is_possible());
    for (asked, valid) in [(&mut good, 1), (&mut bad, 0)] {
        let verified = asked.verify(|signature| signature.value == b"3:sig")?;
        assert_eq!(verified, ValidCount(valid));
    }
    assert_eq!(
        (good.decide().is_ok(), bad.decide()),
        (true, Err(Denied::No))
    );
    std::mem::swap(&mut good, &mut bad);
    assert_eq!(
        (bad.decide().is_ok(), good.decide()),
        (true, Err(Denied::No))
    );
    Ok(())
}

/// Two equal signatures are two places, and both marks are needed.
#[test]
fn marks_are_of_one_place() -> Outcome {
    let guard = guard(LIST);
    let sequence = format!("(sequence {OWN} {OWN})");
    for place in [0, 1] {
        let question = Question::new(
            sequence.as_bytes(),
            proven(b"(public-key (test a))"),
            WORDS,
            NOW,
        );
        let mut asked = guard.ask(&question)?;
        assert_eq!(asked.signature(0), asked.signature(1));
        asked.mark(place)?;
        assert_eq!(asked.decide(), Err(Denied::No));
        asked.mark(1 - place)?;
        assert!(asked.decide().is_ok());
    }
    Ok(())
}

/// Only place 0 has a signature. Any other number is misuse, and marks nothing, also one whose lowest octet is 0.
#[test]
fn other_numbers_are_no_places() -> Outcome {
    let guard = guard(LIST);
    let sequence = sequence_of(1);
    let mut asked = guard.ask(&question_showing(&sequence))?;
    for place in [1, 0x100, 0x101, usize::MAX, usize::MAX - 255] {
        assert!(asked.signature(place).is_err());
        let refusal = asked.mark(place).expect_err("a refusal");
        assert_eq!(
            (refusal.line(), refusal.fault(), refusal.part()),
            (
                &format!("misused: place {place} of 1 signatures")[..],
                Fault::Misused,
                None
            )
        );
        assert_eq!(asked.decide(), Err(Denied::No));
    }
    asked.mark(0)?;
    assert!(asked.decide().is_ok());
    Ok(())
}

/// The caller gets the verifier's error. A verifier that may fail, and does not, decides as any other does.
#[test]
fn an_error_of_a_verifier_reaches_the_caller() {
    let sequence = sequence_of(1);
    let decide = |answer| guard(LIST).decide(&question_showing(&sequence), |_| answer);
    assert_eq!(
        decide(Err("no such key")),
        Err(Denied::Verifier("no such key"))
    );
    assert!(decide(Ok::<_, &str>(true)).is_ok());
    assert_eq!(decide(Ok(false)), Err(Denied::No));
}

/// An error of a verifier, which has a cause.
#[derive(Debug)]
struct NoAnswer(ParseIntError);

impl fmt::Display for NoAnswer {
    fn fmt(&self, f: &mut fmt::Formatter) -> fmt::Result {
        f.write_str("no answer")
    }
}

impl Error for NoAnswer {
    fn source(&self) -> Option<&(dyn Error + 'static)> {
        Some(&self.0)
    }
}

/// The texts of an error and of its sources, as many programs print them.
fn texts(error: &dyn Error) -> Vec<String> {
    let mut texts = vec![error.to_string()];
    let mut next = error.source();
    while let Some(cause) = next {
        texts.push(cause.to_string());
        next = cause.source();
    }
    texts
}

/// A program that prints an error and its sources prints each text once, and the cause of the verifier's error too.
#[test]
fn an_error_of_a_verifier_is_printed_once() {
    let failure = || NoAnswer("x".parse::<u8>().expect_err("no number"));
    let wanted = [
        "a signature could not be verified: no answer",
        "invalid digit found in string",
    ];
    assert_eq!(texts(&Denied::Verifier(failure())), wanted);
    assert_eq!(texts(&NotProved::Verifier(failure())), wanted);
    assert_eq!(texts(&Denied::<NoAnswer>::No), ["no"]);
}

/// A panic of a verifier reaches the caller, and the guard can be asked afterwards.
#[test]
fn a_panic_of_a_verifier_reaches_the_caller() {
    let sequence = sequence_of(1);
    let guard = guard(LIST);
    let fail = |_: Signature| -> bool { panic!("no such key") };
    let ask = AssertUnwindSafe(|| guard.decide(&question_showing(&sequence), fail));
    assert!(catch_unwind(ask).is_err());
    assert!(guard.decide(&question_showing(&sequence), accept).is_ok());
}

/// The operator `?` returns a no and a refusal to the caller. What is behind it runs with a grant alone.
#[test]
fn a_question_mark_is_no_grant() {
    fn serve(guard: &Guard, question: &Question) -> Result<(), Denied> {
        guard.decide(question, |_| false)?;
        Ok(())
    }
    let sequence = sequence_of(1);
    assert_eq!(
        serve(&guard(LIST), &question_showing(&sequence)),
        Err(Denied::No)
    );
    assert_eq!(
        refusal_line(serve(&guard(LIST), &question_showing(b""))),
        "refused sequence Short"
    );
    let own = guard(b"(acl (entry (public-key (test b)) (tag (*))))");
    assert_eq!(serve(&own, &question_showing(b"(sequence)")), Ok(()));
}

/// The texts of a question may be freed or changed once it is opened.
#[test]
fn an_opened_question_needs_no_texts() -> Outcome {
    let guard = guard(LIST);
    let mut sequence = sequence_of(2);
    let mut asked = guard.ask(&question_showing(&sequence))?;
    sequence.fill(b' ');
    for signature in asked.signatures() {
        assert_eq!(signature, SIGNED);
        assert_eq!(signature.octets(), Some(&b"sig"[..]));
    }
    assert_eq!(asked.signatures().len(), 2);
    for place in 0..2 {
        asked.mark(place)?;
        // (the second certificate is by a again, and the subject is b by then)
        assert_eq!(asked.decide(), Err(Denied::No));
    }
    Ok(())
}

/// The octets of a value are those of its one string. A value that is a list has none.
#[test]
fn a_value_that_is_a_list_has_no_octets() -> Outcome {
    let sequence = PAIR.replace(" sig)", " (sig-val x))");
    let guard = guard(LIST);
    let asked = guard.ask(&question_showing(
        format!("(sequence {sequence})").as_bytes(),
    ))?;
    let octets: Vec<_> = asked
        .signatures()
        .map(|signature| (signature.value, signature.octets()))
        .collect();
    assert_eq!(octets, [(&b"(7:sig-val1:x)"[..], None)]);
    Ok(())
}

/// A string with a space or a parenthesis in it stays one string of the request: a path that ends with ` read` makes no `write` a `read`.
#[test]
fn a_string_with_spaces_stays_one_string() {
    let guard =
        guard(b"(acl (entry (public-key (test b)) (tag (cache (* prefix /cache/team1/) read))))");
    let rows: [(&[&[u8]], bool); 5] = [
        (&[b"cache", b"/cache/team1/a.o", b"read"], true),
        (&[b"cache", b"/cache/team1/a.o read", b"write"], false),
        (&[b"cache", b"/cache/team1/\0)", b"read"], true),
        (&[b"cache", b"", b"read"], false),
        (&[b"cache"], false),
    ];
    for (words, is_granted) in rows {
        let decision = guard.decide(&question_for(Request::Words(words)), accept);
        assert_eq!(decision.is_ok(), is_granted, "{words:?}");
    }
}

/// The tag is a list of 40 strings. It contains each request that begins with them. Up to 16 strings are passed on the stack, and more in a vector.
#[test]
fn many_strings_make_one_request() {
    let tag = "w ".repeat(40);
    let guard = guard(format!("(acl (entry (public-key (test b)) (tag ({tag}))))").as_bytes());
    for (count, is_granted) in [
        (15, false),
        (16, false),
        (17, false),
        (39, false),
        (40, true),
        (1000, true),
    ] {
        let words = vec![&b"w"[..]; count];
        let decision = guard.decide(&question_for(Request::Words(&words)), accept);
        assert_eq!(decision.is_ok(), is_granted, "{count}");
    }
}

/// A request and a moment may be given as texts in any form. The tag contains only lists that begin with `ftp` and `host`: not the second request,
/// which is `(ftp)` in transport form, and not the string `ftp`.
#[test]
fn requests_and_moments_may_be_texts() {
    let guard = guard(b"(acl (entry (public-key (test b)) (tag (ftp host))))");
    let texts: [(&[u8], bool); 3] = [
        (b"(ftp host)", true),
        (b"{KDM6ZnRwKQ==}", false),
        (b"ftp", false),
    ];
    for (text, is_granted) in texts {
        let moment = Moment::Text(b"\"2024-01-01_00:00:00\"");
        let question = Question::new(b"(sequence)", proven(KEY), Request::Text(text), moment);
        assert_eq!(guard.decide(&question, accept).is_ok(), is_granted);
    }
}

/// The moment is the second that the time is in: times before 1970 are rounded down, too.
#[test]
fn a_time_of_the_system_is_a_moment() {
    let (second, half) = (Duration::from_secs(1), Duration::from_millis(500));
    for (time, seconds) in [
        (UNIX_EPOCH, 0),
        (UNIX_EPOCH + half, 0),
        (UNIX_EPOCH + second, 1),
        (UNIX_EPOCH - half, -1),
        (UNIX_EPOCH - second, -1),
        (UNIX_EPOCH - second - half, -2),
    ] {
        assert_eq!(Moment::from(time), Moment::Seconds(seconds));
    }
}

/// A moment in seconds before 1970 or past the year 9999, as of a clock that failed, is refused, and revives no right that has ended. Second 0 is a
/// moment like others. The year 9999 ends with the second 253,402,300,799. Of the seconds below 0, one is the least number of 32 bits, and one begins
/// the year 0.
#[test]
fn a_moment_before_1970_or_past_9999_is_refused() {
    let ended =
        b"(acl (entry (public-key (test b)) (tag (*)) (not-after \"1999-12-31_23:59:59\")))";
    let guard = guard(ended);
    let at = |seconds| Question::new(b"(sequence)", proven(KEY), WORDS, Moment::Seconds(seconds));
    assert!(guard.decide(&at(0), accept).is_ok());
    assert_eq!(guard.decide(&at(253_402_300_799), accept), Err(Denied::No));
    for seconds in [
        -1,
        -2_147_483_648,
        -62_167_219_200,
        i64::MIN,
        253_402_300_800,
        i64::MAX,
    ] {
        let line = refusal_line(guard.decide(&at(seconds), accept));
        assert_eq!(line, "refused at BadDate", "{seconds}");
    }
    let before = Question::new(
        b"(sequence)",
        proven(KEY),
        WORDS,
        UNIX_EPOCH - Duration::from_nanos(1),
    );
    assert_eq!(
        refusal_line(guard.decide(&before, accept)),
        "refused at BadDate"
    );
}

/// A grant holds till the least window ends, and no second longer. Here that is the entry's, whose last second is 1,782,863,999. A grant without a
/// window holds till the year 9999 ends, as a question can be asked.
#[test]
fn a_grant_says_until_when_it_holds() -> Outcome {
    let sequence = sequence_of(1);
    let list = b"(acl (entry (public-key (test a)) (propagate) (tag (*)) (not-after \"2026-06-30_23:59:59\")))";
    let (last, second) = (
        UNIX_EPOCH + Duration::from_secs(1_782_863_999),
        Duration::from_secs(1),
    );
    let ending = guard(list);
    let ask = |time| ending.decide(&Question::new(&sequence, proven(KEY), WORDS, time), accept);
    let grant = ask(last - 1000 * second)?;
    assert_eq!(grant.until, Some(last));
    for (time, holds) in [
        (last - second, true),
        (last, true),
        (last + Duration::from_millis(999), true),
        (last + second, false),
    ] {
        assert_eq!((grant.holds_at(time), ask(time).is_ok()), (holds, holds));
    }
    assert!(!grant.holds_at(UNIX_EPOCH - Duration::from_nanos(1)));
    let endless = guard(LIST).decide(&question_showing(&sequence), accept)?;
    assert_eq!(endless.until, None);
    let end = UNIX_EPOCH + Duration::from_secs(253_402_300_800);
    for (time, holds) in [
        (last + second, true),
        (end - Duration::from_millis(1), true),
        (end, false),
    ] {
        let asked = guard(LIST).decide(&Question::new(&sequence, proven(KEY), WORDS, time), accept);
        assert_eq!((endless.holds_at(time), asked.is_ok()), (holds, holds));
    }
    Ok(())
}

/// A valid signature of a message that is no certificate proves its key.
#[test]
fn a_login_proves_its_key() {
    let login = |message| Signature {
        key: KEY,
        message,
        value: b"3:sig",
    };
    let message = b"(5:login7:service5:nonce)";
    let client = ProvenKey::by(login(message), |signature| signature == login(message));
    assert_eq!(client.as_ref(), Ok(proven(KEY)));
    assert_eq!(client.map(ProvenKey::into_owned), Ok(proven(KEY).clone()));
    assert_eq!(ProvenKey::by(login(message), |_| false), Err(NotProved::No));
    let failed = ProvenKey::by(login(message), |_| Err("no such key"));
    assert_eq!(failed, Err(NotProved::Verifier("no such key")));
    // (whoever shows a certificate need not hold the key that has signed it)
    assert_eq!(ProvenKey::by(SIGNED, accept), Err(NotProved::No));
}

/// The form of a key says how its signatures are made.
#[test]
fn a_scheme_is_that_of_the_key() {
    let rows: [(&[u8], Option<Scheme>); 4] = [
        (
            b"(public-key (ecc (curve Ed25519) (flags eddsa) (q #00#)))",
            Some(Scheme::Ed25519),
        ),
        (
            b"(public-key (rsa (n #00#) (e #010001#)))",
            Some(Scheme::Rsa),
        ),
        (
            b"(public-key (ecc (curve \"NIST P-256\") (q #04#)))",
            Some(Scheme::P256),
        ),
        (KEY, None),
    ];
    for (key, scheme) in rows {
        let key = &spki::canonical(key).expect("a key")[..];
        assert_eq!(Signature { key, ..SIGNED }.scheme(), scheme);
    }
}

/// A question is stored without its guard, and sent to another thread.
#[test]
fn an_opened_question_is_stored() -> Outcome {
    fn storable<T: Send + Sync + 'static>(stored: T) -> T {
        stored
    }
    let sequence = sequence_of(1);
    let mut asked: Asked = {
        let guard = storable(guard(LIST));
        storable(guard.ask(&question_showing(&sequence))?)
    };
    asked.mark(0)?;
    let grant: Grant = std::thread::spawn(move || asked.decide())
        .join()
        .expect("an answer")?;
    assert_eq!(grant.entry, 1);
    Ok(())
}

/// The words of an explanation and of a refusal are variants of `Cause`, `Part` and `Fault`.
#[test]
fn the_words_of_lines_are_types() -> Outcome {
    let guard = guard(LIST);
    let asked = guard.ask(&question_showing(b"(sequence)"))?;
    let explanation = asked.explain()?;
    let causes: Vec<_> = explanation.reasons().map(|reason| reason.cause).collect();
    assert_eq!(causes, [Cause::NotTheKey]);
    let own = Question::new(b"(sequence)", proven(b"(public-key (test a))"), WORDS, NOW);
    let explanation = guard.ask(&own)?.explain()?;
    let causes: Vec<_> = explanation.reasons().map(|reason| reason.cause).collect();
    assert_eq!(causes, [Cause::Grants]);
    let rows: [(&[u8], Option<Part>, Fault); 4] = [
        (b"(acl (entry))", Some(Part::Acl), Fault::Shape),
        (
            b"(acl (entry (public-key (test a)) (tag ())))",
            Some(Part::Acl),
            Fault::EmptyList,
        ),
        (b"(acl ~)", Some(Part::Form), Fault::Bad),
        (b"", Some(Part::Form), Fault::Short),
    ];
    for (list, part, fault) in rows {
        let refusal = Guard::read(list, Policy::Strict, Limits::default()).expect_err("a refusal");
        assert_eq!(
            (refusal.part(), refusal.fault()),
            (part, fault),
            "{refusal}"
        );
    }
    Ok(())
}

/// Each question has one part that cannot be read. The line of the refusal names it, and says what is wrong.
#[test]
fn refusals_name_the_part() {
    let guard = guard(LIST);
    let decide = |question: Question| refusal_line(guard.decide(&question, accept));
    assert_eq!(
        decide(question_showing(b"(sequence) x")),
        "refused sequence Trailing 11"
    );
    let refusal = guard
        .ask(&question_showing(b"(sequence) x"))
        .expect_err("a refusal");
    assert_eq!(
        (refusal.part(), refusal.fault()),
        (Some(Part::Sequence), Fault::Trailing)
    );
    assert_eq!(
        decide(question_for(Request::Words(&[]))),
        "refused request EmptyList"
    );
    let never = Question::new(b"(sequence)", proven(KEY), WORDS, Moment::Seconds(i64::MIN));
    assert_eq!(decide(never), "refused at BadDate");
    let nobody = Question::new(b"(sequence)", proven(b""), WORDS, NOW);
    assert_eq!(decide(nobody), "refused key Short");
}

/// By the library's own limits a question has at most 16 certificates and 64 strings. A limit above the highest is the highest, and one of 0 the
/// library's own, also beside another that is set, such as `work(7)`, which no decision needs. A list that cannot be read is refused before any
/// question.
#[test]
fn questions_have_limits() -> Outcome {
    let decide = |limits, question: &Question| {
        let guard = Guard::read(LIST, Policy::AllowSha1, limits).expect("a list");
        guard.decide(question, accept)
    };
    let (one, many) = (sequence_of(1), sequence_of(17));
    let usual = Limits::default();
    assert!(decide(usual, &question_showing(&one)).is_ok());
    let line = refusal_line(decide(usual.octets(64), &question_showing(&one)));
    assert_eq!(line, "refused question TooLong");
    let line = refusal_line(decide(usual, &question_showing(&many)));
    assert_eq!(line, "refused question TooManyCertificates");
    let words = [&b"w"[..]; 65];
    let line = refusal_line(decide(usual, &question_for(Request::Words(&words))));
    assert_eq!(line, "refused question TooManyWords");
    let most = usize::MAX;
    assert!(decide(
        usual.octets(most).nodes(most).answer(most),
        &question_showing(&one)
    )
    .is_ok());
    assert!(decide(usual.octets(0).words(0), &question_showing(&one)).is_ok());
    let line = refusal_line(decide(
        usual.certificates(0).work(7),
        &question_showing(&many),
    ));
    assert_eq!(line, "refused question TooManyCertificates");
    let list: Result<Guard, Refusal> = Guard::read(b"(acl (entry))", Policy::AllowSha1, usual);
    assert_eq!(list.expect_err("a refusal").line(), "refused acl 1 Shape");
    Ok(())
}

/// Each of three limits is too low for an explanation, whose entry has a tag of three nodes. A decision needs none of them.
#[test]
fn explanations_have_limits() -> Outcome {
    let (one, usual) = (sequence_of(1), Limits::default());
    let narrow = b"(acl (entry (public-key (test a)) (propagate) (tag (ftp host))))";
    for limits in [usual.work(1), usual.nodes(1), usual.answer(5)] {
        let guard = Guard::read(narrow, Policy::AllowSha1, limits)?;
        let mut asked = guard.ask(&question_showing(&one))?;
        asked.mark(0)?;
        assert!(asked.decide().is_ok());
        let refusal = asked.explain().expect_err("a refusal");
        assert_eq!(refusal.line(), "refused TooLarge");
    }
    Ok(())
}

/// The explanation and the reduction of a list of 500 entries are whole.
#[test]
fn long_answers_are_whole() -> Outcome {
    let entries = "(entry (public-key (test b)) (tag (*)))".repeat(500);
    let guard = guard(format!("(acl {entries})").as_bytes());
    assert_eq!(guard.entries(), 500);
    let asked = guard.ask(&question_showing(b"(sequence)"))?;
    let explanation = asked.explain()?;
    let wanted: Vec<_> = (1..=500)
        .map(|entry| (Some(entry), None, "grants"))
        .collect();
    assert_eq!(lines(&explanation), wanted);
    let last = "entry 500 (five (subject (public-key (test b))) (tag (*)))";
    assert_eq!(asked.reduce()?.lines().last(), Some(last));
    Ok(())
}

/// No text grows more in advanced form than octets that are printed in base64, 7 octets for 3, nor more in transport form than `a(b)`, 8 for 3.
#[test]
fn long_forms_are_whole() -> Outcome {
    let text = format!("({})", "1:\0".repeat(1000));
    // (`|AA==|` and a space for each octet, but for the last space, and two parentheses and a line feed)
    assert_eq!(spki::advanced(text.as_bytes())?.len(), 7 * 1000 + 2);
    let text = format!("({})", "a(b)".repeat(3000));
    // (base64 of the canonical text, 3000 times `1:a(1:b)` in parentheses, and two braces and a line feed)
    let canonical_length: usize = 3000 * 8 + 2;
    let wanted = canonical_length.div_ceil(3) * 4 + 3;
    assert_eq!(spki::transport(text.as_bytes())?.len(), wanted);
    Ok(())
}

/// Eight threads use one guard and one opened question.
#[test]
fn several_threads_ask_one_guard() -> Outcome {
    let guard = guard(LIST);
    let sequence = sequence_of(1);
    let mut asked = guard.ask(&question_showing(&sequence))?;
    asked.mark(0)?;
    std::thread::scope(|scope| {
        for _ in 0..8 {
            scope.spawn(|| {
                for _ in 0..200 {
                    assert!(guard.decide(&question_showing(&sequence), accept).is_ok());
                    assert!(asked.decide().is_ok());
                }
            });
        }
    });
    Ok(())
}

/// Two clients in several threads: each answer is by the marks of its own question.
#[test]
fn several_threads_serve_two_clients() {
    let guard = guard(LIST);
    let sequence = sequence_of(1);
    let serve = |is_forged: bool| {
        for _ in 0..200 {
            let question = if is_forged {
                Question::new(FORGED, proven(b"(public-key (test c))"), WORDS, NOW)
            } else {
                question_showing(&sequence)
            };
            let verify = |signature: Signature| signature.value == b"3:sig";
            let answer = guard.decide(&question, verify);
            assert_eq!(answer.is_ok(), !is_forged);
        }
    };
    std::thread::scope(|scope| {
        for turn in 0..6 {
            let serve = &serve;
            scope.spawn(move || serve(turn % 2 == 1));
        }
    });
}

/// The library that is linked has the version of this crate.
#[test]
fn the_library_says_its_version() {
    assert_eq!(spki::library_version(), env!("CARGO_PKG_VERSION"));
}
