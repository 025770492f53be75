//! Reads the fields of a signed request: `Signature-Input`, `Signature` and `Content-Digest`.

use super::Unproved;

/// The label of the signature, and the value of its parameter `tag`.
const LABEL: &str = "spki";
pub(super) const TAG: &str = "spki";
/// The most octets of `Signature-Input` and of `Signature`, names of components, and digits of a number.
const MOST_INPUT: usize = 8192;
const MOST_COMPONENTS: usize = 32;
const MOST_DIGITS: usize = 15;
/// The components that are not fields.
const DERIVED: [&str; 5] = ["@method", "@authority", "@target-uri", "@path", "@query"];
/// The parameters, each of which is required.
const PARAMETERS: [&str; 6] = ["created", "expires", "nonce", "keyid", "alg", "tag"];
/// The field with the key that signs, which is always covered, and the one with the certificates.
pub(super) const PUBLIC_KEY: &str = "x-spki-public-key";
pub(super) const SEQUENCE: &str = "x-spki-sequence";

/// The digest of a body, of `Content-Digest`.
#[derive(Clone, Debug, PartialEq, Eq)]
pub struct ContentDigest {
    /// `sha-256` or `sha-512`.
    pub algorithm: String,
    /// The octets of the digest.
    pub octets: Vec<u8>,
}

/// The value of `Signature-Input`: the names of the covered components, and the parameters. `text` is all behind the label, as it was sent: the
/// value of `@signature-params`. `created` and `expires` are seconds since 1970.
#[derive(Default)]
pub(super) struct Input<'a> {
    pub(super) text: &'a str,
    pub(super) components: Vec<&'a str>,
    pub(super) created: u64,
    pub(super) expires: u64,
    pub(super) nonce: &'a str,
    pub(super) keyid: &'a str,
    pub(super) alg: &'a str,
    pub(super) tag: &'a str,
}

/// Takes a field apart from the left. A call reads what the rest begins with, and goes behind it.
struct Parser<'a> {
    rest: &'a str,
    /// Whether an octet beyond ASCII follows the rest.
    is_cut: bool,
}

impl<'a> Parser<'a> {
    /// A parser behind the label of the first member, which must be `spki`. An octet beyond ASCII ends the text, and is malformed. Fails with
    /// `OtherLabel` for another label, and with `Malformed` for none, or for more than `MOST_INPUT` octets.
    fn new(value: &'a [u8]) -> Result<Parser<'a>, Unproved> {
        if value.len() > MOST_INPUT {
            return Err(Unproved::Malformed);
        }
        let end = value.iter().position(|octet| !octet.is_ascii());
        let ascii = &value[..end.unwrap_or(value.len())];
        let mut parser = Parser {
            rest: std::str::from_utf8(ascii).unwrap_or_default(),
            is_cut: end.is_some(),
        };
        let name = parser.name()?;
        parser.expect("=")?;
        if name != LABEL {
            return Err(Unproved::OtherLabel);
        }
        Ok(parser)
    }

    /// Passes over a text if the rest begins with it, and returns whether it does.
    fn try_skip(&mut self, text: &str) -> bool {
        let behind = self.rest.strip_prefix(text);
        self.rest = behind.unwrap_or(self.rest);
        behind.is_some()
    }

    /// Passes over a text. Fails with `Malformed`, and stays where it is, if the rest does not begin with it.
    fn expect(&mut self, text: &str) -> Result<(), Unproved> {
        self.try_skip(text).then_some(()).ok_or(Unproved::Malformed)
    }

    /// Takes the octets up to the first that `accepts` refuses, or up to the end.
    fn take_while(&mut self, accepts: impl Fn(u8) -> bool) -> &'a str {
        let end = self.rest.bytes().position(|octet| !accepts(octet));
        let (taken, rest) = self.rest.split_at(end.unwrap_or(self.rest.len()));
        self.rest = rest;
        taken
    }

    /// Takes the name of a member or of a parameter. Fails with `Malformed` if none is there.
    fn name(&mut self) -> Result<&'a str, Unproved> {
        if !self
            .rest
            .starts_with(|c: char| c.is_ascii_lowercase() || c == '*')
        {
            return Err(Unproved::Malformed);
        }
        Ok(self.take_while(|octet| {
            octet.is_ascii_lowercase() || octet.is_ascii_digit() || b"_-.*".contains(&octet)
        }))
    }

    /// Takes a string in quotes, and returns it without them. Anything else is `Malformed`, also an escape: no string of a request needs one.
    fn string(&mut self) -> Result<&'a str, Unproved> {
        self.expect("\"")?;
        let text = self
            .take_while(|octet| matches!(octet, b' '..=b'~') && octet != b'"' && octet != b'\\');
        self.expect("\"")?;
        Ok(text)
    }

    /// Takes a number of seconds, of at most `MOST_DIGITS` digits, without zeros before it. Anything else is `Malformed`.
    fn integer(&mut self) -> Result<u64, Unproved> {
        let digits = self.take_while(|octet| octet.is_ascii_digit());
        if digits.len() > MOST_DIGITS || digits.len() > 1 && digits.starts_with('0') {
            return Err(Unproved::Malformed);
        }
        digits.parse().map_err(|_| Unproved::Malformed)
    }

    /// Takes the octets that are in base64 between two colons. Anything else is `Malformed`.
    fn octets(&mut self) -> Result<Vec<u8>, Unproved> {
        self.expect(":")?;
        let text = self.take_while(|octet| octet != b':');
        let octets = decode_base64(text.as_bytes()).ok_or(Unproved::Malformed)?;
        self.expect(":")?;
        Ok(octets)
    }

    /// Succeeds if nothing follows the first member. Fails with `TwoSignatures` if a comma does, and else with `Malformed`.
    fn expect_end(&self) -> Result<(), Unproved> {
        if self.rest.is_empty() && !self.is_cut {
            return Ok(());
        }
        let is_more = self.rest.trim_start_matches([' ', '\t']).starts_with(',');
        Err(if is_more {
            Unproved::TwoSignatures
        } else {
            Unproved::Malformed
        })
    }

    /// Takes the list of components, which is in parentheses, with one space between two, and returns their names. Fails with `UnknownComponent`
    /// also for one with parameters, with `ComponentTwice`, and with `Malformed`, also for more than `MOST_COMPONENTS`.
    fn components(&mut self) -> Result<Vec<&'a str>, Unproved> {
        let mut names = Vec::new();
        self.expect("(")?;
        while !self.try_skip(")") {
            if names.len() == MOST_COMPONENTS {
                return Err(Unproved::Malformed);
            }
            if !names.is_empty() {
                self.expect(" ")?;
            }
            let name = self.string()?;
            if !is_component(name) || self.rest.starts_with(';') {
                return Err(Unproved::UnknownComponent);
            }
            if names.contains(&name) {
                return Err(Unproved::ComponentTwice);
            }
            names.push(name);
        }
        Ok(names)
    }
}

impl<'a> Input<'a> {
    /// Reads the parameters, each `;name=value`, up to the end of the field. Fails also if a parameter is missing, or a component that is required.
    /// The components are read before.
    fn read_parameters(&mut self, parser: &mut Parser<'a>) -> Result<(), Unproved> {
        let mut seen = Vec::new();
        while parser.try_skip(";") {
            let name = parser.name()?;
            if !PARAMETERS.contains(&name) {
                return Err(Unproved::UnknownParameter);
            }
            if seen.contains(&name) {
                return Err(Unproved::ParameterTwice);
            }
            parser.expect("=")?;
            match name {
                "created" => self.created = parser.integer()?,
                "expires" => self.expires = parser.integer()?,
                "nonce" => self.nonce = parser.string()?,
                "keyid" => self.keyid = parser.string()?,
                "alg" => self.alg = parser.string()?,
                // (`tag`, the last of `PARAMETERS`)
                _ => self.tag = parser.string()?,
            }
            seen.push(name);
        }
        parser.expect_end()?;
        let has = |name: &str| self.components.contains(&name);
        let has_target = has("@target-uri") || has("@path") && has("@query");
        if !has("@method") || !has("@authority") || !has(PUBLIC_KEY) || !has_target {
            return Err(Unproved::MissingComponent);
        }
        if seen.len() < PARAMETERS.len() {
            return Err(Unproved::MissingParameter);
        }
        Ok(())
    }
}

/// Whether an octet may be in a token of HTTP.
pub(super) fn is_token_octet(octet: u8) -> bool {
    octet.is_ascii_alphanumeric() || b"!#$%&'*+-.^_`|~".contains(&octet)
}

/// Whether a signature may cover what has this name: a field, in small letters, or one of the five components of `DERIVED`. The two fields of the
/// signature itself may not be covered.
fn is_component(name: &str) -> bool {
    let is_small = |octet: u8| is_token_octet(octet) && !octet.is_ascii_uppercase();
    let is_excluded = ["", "signature", "signature-input"].contains(&name);
    DERIVED.contains(&name) || (!is_excluded && name.bytes().all(is_small))
}

/// Reads the value of `Signature-Input`. Fails also if a component or a parameter is missing that is required.
pub(super) fn input_of(value: &[u8]) -> Result<Input<'_>, Unproved> {
    let mut parser = Parser::new(value)?;
    let mut input = Input {
        text: parser.rest,
        components: parser.components()?,
        ..Input::default()
    };
    input.read_parameters(&mut parser)?;
    Ok(input)
}

/// The octets of the signature in the value of `Signature`. Fails with `OtherLabel`, `TwoSignatures` or `Malformed`.
pub(super) fn signature_of(value: &[u8]) -> Result<Vec<u8>, Unproved> {
    let mut parser = Parser::new(value)?;
    let octets = parser.octets()?;
    parser.expect_end()?;
    Ok(octets)
}

/// Reads the value of `Content-Digest`: one member, by SHA-256 or SHA-512. Anything else is `BadDigest`.
pub(super) fn digest_of(value: &[u8]) -> Result<ContentDigest, Unproved> {
    let text = std::str::from_utf8(value).map_err(|_| Unproved::BadDigest)?;
    let (name, rest) = text.split_once('=').ok_or(Unproved::BadDigest)?;
    // (octets beyond ASCII are not base64)
    let mut parser = Parser {
        rest,
        is_cut: false,
    };
    let octets = parser.octets().map_err(|_| Unproved::BadDigest)?;
    let length = match name {
        "sha-256" => 32,
        "sha-512" => 64,
        _ => 0,
    };
    if !parser.rest.is_empty() || length == 0 || octets.len() != length {
        return Err(Unproved::BadDigest);
    }
    Ok(ContentDigest {
        algorithm: name.to_string(),
        octets,
    })
}

/// The octets of a text in base64. `None` if the text is not exactly how these octets are encoded, with padding.
pub(super) fn decode_base64(text: &[u8]) -> Option<Vec<u8>> {
    let last_two = text.iter().rev().take(2);
    let padding = last_two.filter(|octet| **octet == b'=').count();
    if text.len() % 4 != 0 {
        return None;
    }
    // (the lowest `count` of `bits` are those that are not in an octet yet, and the others are 0; those behind the last octet must be 0 too)
    let (mut octets, mut bits, mut count) = (Vec::with_capacity(text.len() / 4 * 3), 0u32, 0);
    for octet in &text[..text.len() - padding] {
        let six = match octet {
            b'A'..=b'Z' => octet - b'A',
            b'a'..=b'z' => octet - b'a' + 26,
            b'0'..=b'9' => octet - b'0' + 52,
            b'+' => 62,
            b'/' => 63,
            _ => return None,
        };
        bits = bits << 6 | u32::from(six);
        count += 6;
        if count >= 8 {
            count -= 8;
            octets.push((bits >> count) as u8);
            bits &= (1 << count) - 1;
        }
    }
    (bits == 0).then_some(octets)
}
