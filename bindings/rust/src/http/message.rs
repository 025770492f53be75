//! A request as it was sent, and the text of it that is signed.

use super::fields::Input;
use super::Unproved;

/// The field with the digest of the body.
pub(super) const DIGEST: &str = "content-digest";
/// The port of https, which is not signed.
const PORT: &str = ":443";

/// A request, as it was sent.
#[derive(Clone, Copy, Debug)]
pub struct Message<'a> {
    pub(super) method: &'a str,
    pub(super) authority: &'a str,
    pub(super) target: &'a str,
    pub(super) fields: &'a [(&'a str, &'a [u8])],
    has_body: bool,
}

impl<'a> Message<'a> {
    /// A request: its method, the name that the client asks with its port, the path and the query as in the first line of HTTP/1.1, and its
    /// fields, each line of them. For HTTP/2 and HTTP/3 [`with_body`](Message::with_body) says whether it has a body.
    #[must_use]
    pub fn new(
        method: &'a str,
        authority: &'a str,
        target: &'a str,
        fields: &'a [(&'a str, &'a [u8])],
    ) -> Message<'a> {
        Message {
            method,
            authority,
            target,
            fields,
            has_body: false,
        }
    }

    /// The same request, which has a body if `has_body` is true. If it is false, the method and the fields say whether the request may have one. That
    /// is enough for HTTP/1.1. By HTTP/2 or HTTP/3 a GET or a HEAD may have a body without `Content-Length`, so say there what the server knows.
    ///
    /// ```
    /// # use spki::http::Message;
    /// # let is_end_of_stream = true; // (what the server says behind the fields)
    /// let message = Message::new("GET", "files.example.org", "/web/index.html", &[]).with_body(!is_end_of_stream);
    /// ```
    #[must_use]
    pub fn with_body(mut self, has_body: bool) -> Message<'a> {
        self.has_body = has_body;
        self
    }

    /// The values of a field, one for each of its lines, without the spaces and tabs around them.
    pub(super) fn values<'n>(&self, name: &'n str) -> impl Iterator<Item = &'a [u8]> + 'n
    where
        'a: 'n,
    {
        self.fields
            .iter()
            .filter(move |(field, _)| field.eq_ignore_ascii_case(name))
            .map(|(_, value)| trimmed(value))
    }

    /// The value of a field. Fails with `AbsentField` if it has no line, `RepeatedField` if it has more than one, and `BadValue` for octets other
    /// than printable ASCII and tabs.
    pub(super) fn field(&self, name: &str) -> Result<Vec<u8>, Unproved> {
        let mut values = self.values(name);
        let value = values.next().ok_or(Unproved::AbsentField)?;
        if values.next().is_some() {
            return Err(Unproved::RepeatedField);
        }
        if value
            .iter()
            .any(|octet| !matches!(octet, b'\t' | b' '..=b'~'))
        {
            return Err(Unproved::BadValue);
        }
        Ok(value.to_vec())
    }

    /// Whether the request may have a body, by `with_body`, by its method or by a field, so that a digest must be covered.
    pub(super) fn may_have_body(&self) -> bool {
        self.has_body
            || !matches!(self.method, "GET" | "HEAD")
            || self.values("content-length").any(|value| value != b"0")
            || self.values("transfer-encoding").next().is_some()
    }

    /// The signature base: the text that is signed. `authority` is as `authority_of` returns it. Fails if `field` refuses one of the
    /// covered fields.
    pub(super) fn base(&self, authority: &str, input: &Input) -> Result<Vec<u8>, Unproved> {
        // (most have fewer octets: one allocation)
        let mut text = Vec::with_capacity(1024);
        for name in &input.components {
            let value = self.component(authority, name)?;
            text.extend_from_slice(format!("\"{name}\": ").as_bytes());
            text.extend_from_slice(&value);
            text.push(b'\n');
        }
        text.extend_from_slice(format!("\"@signature-params\": {}", input.text).as_bytes());
        Ok(text)
    }

    /// The value of a component by its name, such as `@path`. `authority` is as `authority_of` returns it. The scheme is https: unlike in Go and
    /// Python a service has no setting for http. Fails if the component is a field that `field` refuses.
    fn component(&self, authority: &str, name: &str) -> Result<Vec<u8>, Unproved> {
        let (path, query) = match self.target.split_once('?') {
            Some((path, query)) => (path, Some(query)),
            None => (self.target, None),
        };
        let value = match name {
            "@method" => self.method.to_string(),
            "@authority" => authority.to_string(),
            "@path" => path.to_string(),
            "@query" => format!("?{}", query.unwrap_or_default()),
            "@target-uri" => format!("https://{authority}{}", self.target),
            _ => return self.field(name),
        };
        Ok(value.into_bytes())
    }
}

/// A value without the spaces and tabs around it.
fn trimmed(mut value: &[u8]) -> &[u8] {
    while let [b' ' | b'\t', rest @ ..] | [rest @ .., b' ' | b'\t'] = value {
        value = rest;
    }
    value
}

/// The name of a host, perhaps with a port, as it is signed: in small letters, without the port of https.
pub(super) fn authority_of(name: &str) -> String {
    let name = name.strip_suffix(PORT).unwrap_or(name);
    name.to_ascii_lowercase()
}

/// Whether a target is a path and perhaps a query, of visible ASCII characters other than `#`.
pub(super) fn is_target(target: &str) -> bool {
    target.starts_with('/')
        && target
            .bytes()
            .all(|octet| octet.is_ascii_graphic() && octet != b'#')
}
