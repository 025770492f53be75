"""A request as it was sent, and the text of it that is signed."""
from __future__ import annotations

import re
from collections.abc import Iterable
from dataclasses import dataclass

from ._fields import Refused

# The fields that must be covered wherever a request has them, besides the one with the certificates.
AUTHORIZATION, DIGEST = "authorization", "content-digest"
# A method, a path and perhaps a query, the value of a field, and the ports that are not named.
METHOD = re.compile(r"[A-Za-z0-9!#$%&'*+.^_`|~-]+")
TARGET = re.compile(r"/[!\"$-~]*")
VALUE = re.compile(r"[\t -~]*")
PORTS = {"https": ":443", "http": ":80"}


@dataclass(frozen=True)
class Message:
    """A request: its method, the name that the client asks, its target as in the first line of HTTP/1.1, and its fields
    in their order.

    `fields` may be an iterator for `Verifier.check` alone: all else reads them repeatedly. `body` is None if it is not known: then it is not
    compared. `has_body` says that there is a body, for servers that do not pass on Content-Length or Transfer-Encoding.
    """

    method: str
    authority: str
    target: str
    fields: Iterable[tuple[str, str]]
    body: bytes | None = None
    has_body: bool = False

    def values(self, name: str) -> list[str]:
        """The values of a field, whose name is given in small letters, in order, without the spaces and tabs around them."""
        return [value.strip(" \t") for field, value in self.fields if field.lower() == name]

    def may_have_body(self) -> bool:
        """Whether the request may have a body, so that its digest must be covered. Each method but GET and HEAD may have
        one. These two may if `has_body`, `body`, Content-Length or Transfer-Encoding says so."""
        lengths = [length for length in self.values("content-length") if length != "0"]
        return self.method not in ("GET", "HEAD") or self.has_body or bool(self.body or lengths or self.values("transfer-encoding"))


def authority_of(scheme: str, authority: str) -> str:
    """The name of a host, perhaps with a port, as it is signed: in small letters, without the default port of the scheme, `https` or `http`."""
    return authority.lower().removesuffix(PORTS[scheme])


def base_of(message: Message, scheme: str, components: list[str], parameters: str) -> bytes:
    """The signature base: the text that is signed. `components` are names, and `parameters` is the rest of `Signature-Input` after `spki=`. Raises
    what `value_of` raises, and `ValueError` if the authority is not ASCII."""
    lines = [f'"{name}": {value_of(message, scheme, name)}' for name in components]
    return "\n".join([*lines, f'"@signature-params": {parameters}']).encode("ascii")


def value_of(message: Message, scheme: str, name: str) -> str:
    """The value of a component by its name, such as `@path` or the name of a field. That of `@query` begins with `?`, also without a query.
    Raises `Refused` if the component is a field that is absent, is repeated, or has an octet that is neither printable ASCII nor a tab."""
    path, separator, query = message.target.partition("?")
    authority = authority_of(scheme, message.authority)
    match name:
        case "@method":
            return message.method
        case "@authority":
            return authority
        case "@path":
            return path
        case "@query":
            return f"?{query}"
        case "@target-uri":
            return f"{scheme}://{authority}{path}{separator}{query}"
    values = message.values(name)
    if len(values) != 1:
        raise Refused("repeated-field" if values else "absent-field")
    if not VALUE.fullmatch(values[0]):
        raise Refused("bad-value")
    return values[0]
