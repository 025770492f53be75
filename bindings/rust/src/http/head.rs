//! The head of a request of HTTP/1.1, taken apart.

use super::{fields::is_token_octet, Message};

/// The head of a request of HTTP/1.1. Its authority is that of `Host`.
#[derive(Clone, Debug)]
pub struct Head<'a> {
    /// The method.
    pub method: &'a str,
    /// The path and the query.
    pub target: &'a str,
    authority: &'a str,
    fields: Vec<(&'a str, &'a [u8])>,
}

impl<'a> Head<'a> {
    /// Parses a head, which ends with its empty line. `None` if it is none of HTTP/1.1, if the value of a field goes on in a second line, or if there
    /// is not exactly one `Host`. The method and the target are not tested here.
    #[must_use]
    pub fn read(head: &'a str) -> Option<Head<'a>> {
        let mut lines = head.strip_suffix("\r\n\r\n")?.split("\r\n");
        let (method, rest) = lines.next()?.split_once(' ')?;
        let target = rest.strip_suffix(" HTTP/1.1")?;
        let fields: Vec<_> = lines.map(field_of).collect::<Option<_>>()?;
        let mut hosts = fields
            .iter()
            .filter(|(name, _)| name.eq_ignore_ascii_case("host"));
        let (Some((_, host)), None) = (hosts.next(), hosts.next()) else {
            return None;
        };
        Some(Head {
            method,
            target,
            authority: std::str::from_utf8(host).ok()?.trim_matches([' ', '\t']),
            fields,
        })
    }

    /// The request, to be proved.
    #[must_use]
    pub fn message(&self) -> Message<'_> {
        Message::new(self.method, self.authority, self.target, &self.fields)
    }
}

/// The name and the value of a line. `None` if it has no colon, or the name is no token.
fn field_of(line: &str) -> Option<(&str, &[u8])> {
    let (name, value) = line.split_once(':')?;
    let is_name = !name.is_empty() && name.bytes().all(is_token_octet);
    is_name.then_some((name, value.as_bytes()))
}
