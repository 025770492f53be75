"""Signs requests of clients."""
from __future__ import annotations

import base64
import secrets
import time
import urllib.parse
import urllib.request
from collections.abc import Callable, Iterable
from typing import Any

from ._fields import LABEL, PUBLIC_KEY, TAG, content_digest, hash_of, in_braces, kind_of, octets_of
from ._message import AUTHORIZATION, DIGEST, METHOD, PORTS, TARGET, Message, authority_of, base_of
from ._verifier import MOST_WINDOW

SEQUENCE, KEY = "X-Spki-Sequence", "X-Spki-Public-Key"


class Signer:
    """Makes the fields of signed requests.

    `key` is the SPKI key in canonical form. `sign` returns the canonical value of a signature of a message,
    `(7:sig-val..)`. `sequence` has the client's certificates in transport form, `{..}`, or is empty. `algorithm` is
    that of the key, and `length` how many octets a signature by it has.
    """

    def __init__(self, key: bytes, sign: Callable[[bytes], bytes], sequence: str = "") -> None:
        """Raises `Refused` with the name `bad-key` for a key of no kind that docs/SIGNATURES.md has."""
        self.key, self.sign, self.sequence = key, sign, sequence
        self.algorithm, self.length = kind_of(key)

    def fields(self, method: str, url: str, body: bytes = b"", fields: Iterable[tuple[str, str]] = (),
               covered: Iterable[str] = ()) -> dict[str, str]:
        """The fields to set in a request, which replace its own fields of the same names. `fields` are those that it
        has. The signature covers what docs/SIGNATURES.md requires, and the fields of `covered`, which are names in small
        letters.

        Raises `ValueError` for an address or a method that cannot be signed, if `sign` returns no value of a signature,
        and if the request has no field of a name in `covered`: it would be unsigned. Raises `Refused` for a covered
        field in two lines, or with other octets than visible ASCII, spaces and tabs."""
        parts = urllib.parse.urlsplit(url)
        if parts.scheme not in PORTS or not parts.hostname or parts.username is not None:
            raise ValueError("no address of https or http, or one with a name and a password")
        # (`urlsplit` does not say whether there is an empty query)
        target = (parts.path or "/") + (f"?{parts.query}" if "?" in url.partition("#")[0] else "")
        if not METHOD.fullmatch(method) or not TARGET.fullmatch(target):
            raise ValueError("no method of HTTP, or an address with a space or an octet that is not ASCII: "
                             f"{method} {target}")
        present, added = [*fields], {KEY: in_braces(self.key)}
        if self.sequence:
            added[SEQUENCE] = self.sequence
        if Message(method, parts.netloc, target, present, body).may_have_body():
            added["Content-Digest"] = content_digest(body)
        replaced = {name.lower() for name in added}
        unchanged = [(name, value) for name, value in present if name.lower() not in replaced]
        message = Message(method, parts.netloc, target, [*unchanged, *added.items()], body)
        names = _components(message, covered)
        parameters = self._parameters(names)
        octets = octets_of(self.sign(base_of(message, parts.scheme, names, parameters)), self.length)
        signature = base64.b64encode(octets).decode()
        return {**added, "Signature-Input": f"{LABEL}={parameters}", "Signature": f"{LABEL}=:{signature}:"}

    def _parameters(self, names: list[str]) -> str:
        """The value of `@signature-params` for components of these names, created now, with a new nonce. It expires
        `MOST_WINDOW` seconds later."""
        created, components = int(time.time()), " ".join(f'"{name}"' for name in names)
        # (16 octets are 22 characters, and a nonce must have 16 or more)
        keyid, nonce = hash_of(self.key), secrets.token_urlsafe(16)
        return (f'({components});created={created};expires={created + MOST_WINDOW};nonce="{nonce}";keyid="{keyid}"'
                f';alg="{self.algorithm}";tag="{TAG}"')


def _components(message: Message, covered: Iterable[str]) -> list[str]:
    """The names of the components that the signature of a request covers: those that docs/SIGNATURES.md requires, and
    the fields of `covered`, each once. Raises `ValueError` if the request has no field of a name in `covered`."""
    names = ["@method", "@authority", "@path", "@query", PUBLIC_KEY]
    names += [name for name in (AUTHORIZATION, SEQUENCE.lower(), DIGEST) if message.values(name)]
    more = [name for name in dict.fromkeys(covered) if name not in names]
    if absent := [name for name in more if not message.values(name)]:
        raise ValueError(f"the request has no field {absent[0]!r}, which the signature should cover")
    return names + more


class _SignsForHosts:
    """The base of `Auth` and `Handler`, which sign a request of a library for HTTP if it goes to one of the hosts that they are made with."""

    def __init__(self, signer: Signer, *names: str) -> None:
        """`names` are the hosts of services, such as `files.example.org` or `localhost:8080`: a port is needed only if it is not the default."""
        self.signer, self.names = signer, names

    def _is_to_host(self, url: str) -> bool:
        """Whether the host and port of a URL are those of one of the names. False if the scheme is neither `https` nor `http`."""
        parts = urllib.parse.urlsplit(url)
        if parts.scheme not in PORTS:
            return False
        return authority_of(parts.scheme, parts.netloc) in [authority_of(parts.scheme, name) for name in self.names]


class Auth(_SignsForHosts):
    """Signs the requests of `requests` and of `httpx` that go to one of the given hosts: `requests.put(url, data=body,
    auth=Auth(signer, "files.example.org"))`.

    A request to any other host gets no signature and no certificates. But `requests` follows a redirection with the
    fields of the first request, and so does `httpx` with `follow_redirects=True`. They prove nothing there. But who gets
    them, or reads them on the way by http, can send the first request, unless its nonce was used:
    `allow_redirects=False` or `follow_redirects=False` keeps them from others. The body must be octets or a string, and
    not a stream.
    """

    def __call__(self, request: Any) -> Any:
        """Adds the fields of `Signer.fields` if the request goes to one of the hosts. Returns the request. A body that is a string becomes octets,
        by UTF-8. `requests` and `httpx` call it for each request. Raises `TypeError` for any other body than octets, such as a stream, or in `httpx`
        its exception `RequestNotRead`, and what `Signer.fields` raises."""
        if self._is_to_host(str(request.url)):
            # (`httpx` has `content`, and `requests` has `body`)
            body = (request.content if hasattr(request, "content") else request.body) or b""
            if isinstance(body, str):
                # (what is signed is sent: `http.client` would encode a string by Latin-1)
                request.body = body = body.encode()
            if not isinstance(body, bytes):
                raise TypeError("a body that is signed must be octets")
            # (the length says no more than the body, which is known, and `requests` computes it afterwards)
            fields = [(name, value) for name, value in request.headers.items() if name.lower() != "content-length"]
            request.headers.update(self.signer.fields(request.method, str(request.url), body, fields))
        return request


class Handler(_SignsForHosts, urllib.request.BaseHandler):
    """Signs the requests of `urllib`, as `Auth` does: `urllib.request.build_opener(Handler(signer, "files.example.org"))`.

    A request by http to which a server has redirected is not signed. The signature does not cover the scheme, so whoever
    reads the request on its way could send it by https."""

    # (urllib's own handlers that add fields have at most the order 500, so they add them before this one)
    handler_order = 900

    def https_request(self, request: urllib.request.Request) -> urllib.request.Request:
        """Adds the fields of `Signer.fields` if the request goes to one of the hosts. Returns the request. `urllib` calls it for each request.
        Raises `TypeError` for a body that is not `bytes`, such as a stream, and what `Signer.fields` raises. A redirected request gets none of
        these fields from the first one."""
        # (`urllib` sets `unverifiable` in a request that follows a redirection. Behind a proxy `type` is the proxy's scheme)
        is_redirected_to_http = urllib.parse.urlsplit(request.full_url).scheme == "http" and request.unverifiable
        if self._is_to_host(request.full_url) and not is_redirected_to_http:
            body = request.data or b""
            if not isinstance(body, bytes):
                raise TypeError("a body that is signed must be octets")
            for name, value in self.signer.fields(request.get_method(), request.full_url, body, request.header_items()).items():
                request.add_unredirected_header(name, value)
        return request

    http_request = https_request
