"""A request by HTTP/2 that is made frame by frame, so that it may have what no client sends: two hosts, or none."""
from __future__ import annotations

import contextlib
import ssl
from collections.abc import Iterator

PREFACE = b"PRI * HTTP/2.0\r\n\r\nSM\r\n\r\n"
# Kinds of frames, the flag of the last frame of a stream, and that of the last frame of its fields.
DATA, HEADERS, RST_STREAM, SETTINGS, GOAWAY = 0, 1, 3, 4, 7
END_STREAM, END_HEADERS = 1, 4


def frame(kind: int, flags: int, stream: int, payload: bytes) -> bytes:
    """The octets of a frame."""
    return len(payload).to_bytes(3, "big") + bytes([kind, flags]) + stream.to_bytes(4, "big") + payload


def request(*fields: tuple[str, str]) -> bytes:
    """The octets of a connection with one request, which has these fields, as (":path", "/"), and no body. Each text has at most 126 octets."""
    texts = (bytes([0, len(name)]) + name.encode() + bytes([len(value)]) + value.encode() for name, value in fields)
    return PREFACE + frame(SETTINGS, 0, 0, b"") + frame(HEADERS, END_STREAM | END_HEADERS, 1, b"".join(texts))


def frames_of(octets: bytes) -> Iterator[tuple[int, int, bytes]]:
    """The kind, the flags and the payload of each whole frame in the octets of a connection."""
    while len(octets) >= (end := 9 + int.from_bytes(octets[:3], "big")) >= 9:
        yield octets[3], octets[4], octets[9:end]
        octets = octets[end:]


def is_whole(octets: bytes) -> bool:
    """Whether the octets that a server has sent have the whole answer to the only request, or say that there is none."""
    return any(kind in (RST_STREAM, GOAWAY) or kind in (DATA, HEADERS) and flags & END_STREAM for kind, flags, _ in frames_of(octets))


def body_of_answer(client: ssl.SSLSocket, octets: bytes) -> bytes:
    """Sends the octets of a connection with one request, and returns the body of the answer. Empty if there is none, or if the connection breaks."""
    received = b""
    with contextlib.suppress(OSError):
        client.sendall(octets)
        while not is_whole(received) and (more := client.recv(65536)):
            received += more
    return b"".join(payload for kind, _, payload in frames_of(received) if kind == DATA)
