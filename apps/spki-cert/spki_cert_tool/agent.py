"""A client of ssh-agent (draft-ietf-sshm-ssh-agent): lists its keys and lets it sign, so that a key on a token can sign a certificate."""
import base64
import os
import socket
import struct

from .keys import ED25519, RSA, BadKey, openssh_line, public_of, split_string, value_of_numbers, value_of_octets
from .sexp import Value

# The kinds of messages, and a flag of SIGN_REQUEST: RSA signs by SHA-256.
REQUEST_IDENTITIES, IDENTITIES, SIGN_REQUEST, SIGN_RESPONSE = 11, 12, 13, 14
RSA_SHA2_256 = 2
# How many octets each of the two numbers of a signature has, by the algorithm.
CURVES = {b"ecdsa-sha2-nistp256": 32, b"ecdsa-sha2-nistp384": 48}
# The most octets of an answer, as OpenSSH's agent has it, and how many seconds each part of one is waited for: its user may have to touch a token.
MOST_OCTETS, SECONDS = 262144, 60


def ssh_string(octets: bytes) -> bytes:
    """The octets behind their length in four octets, as SSH encodes a string."""
    return struct.pack(">I", len(octets)) + octets


def ask_agent(kind: int, body: bytes, wanted: int, refusal: str) -> bytes:
    """Sends the agent a message: its kind, which is a number such as SIGN_REQUEST, and its body. Returns the body of the answer, which must be of the
    kind `wanted`. Raises BadKey: with the words `refusal` for an answer of another kind, and if there is no agent, if it does not answer in time, or
    if its answer is not whole or is longer than MOST_OCTETS."""
    path = os.environ.get("SSH_AUTH_SOCK")
    if not path:
        raise BadKey("this is a public key, and there is no ssh-agent to sign by it: SSH_AUTH_SOCK is not set. Give the private key's file")
    try:
        with socket.socket(socket.AF_UNIX, socket.SOCK_STREAM) as agent:
            agent.settimeout(SECONDS)
            agent.connect(path)
            agent.sendall(ssh_string(bytes([kind]) + body))
            with agent.makefile("rb") as file:
                length = file.read(4)
                # (of a longer answer only a part is read, which is then not whole)
                answer, _ = split_string(length + file.read(min(int.from_bytes(length, "big"), MOST_OCTETS)))
    except OSError as why:
        raise BadKey(f"ssh-agent at {path} does not answer: {why}") from None
    if answer[:1] != bytes([wanted]):
        raise BadKey(refusal)
    return answer[1:]


def keys_of_agent() -> list[bytes]:
    """The public keys that the agent holds, as SSH encodes them. Raises BadKey as `ask_agent` does, or if one is cut off."""
    body = ask_agent(REQUEST_IDENTITIES, body=b"", wanted=IDENTITIES, refusal="ssh-agent does not say which keys it holds")
    # (the number of keys, and for each the key and its comment as strings of SSH)
    count, rest, blobs = int.from_bytes(body[:4], "big"), body[4:], []
    for _ in range(count):
        blob, rest = split_string(rest)
        _comment, rest = split_string(rest)
        blobs.append(blob)
    return blobs


class AgentSigner:
    """Signs by an SPKI key that the agent holds. `key` is the public key, and `blob` the same as SSH encodes it."""

    def __init__(self, key: Value) -> None:
        """`key` is a public key. Raises BadKey if SSH has no such key, if no agent answers, or if the agent does not hold the key."""
        public = public_of(key)
        if public is None:
            raise BadKey("a key in a form that ssh-agent does not know")
        self.key, self.blob = key, base64.b64decode(openssh_line(public).split()[1])
        if self.blob not in keys_of_agent():
            raise BadKey("this is a public key, and ssh-agent does not hold it: add the private key by ssh-add, or give its file")

    def sign(self, message: bytes) -> Value:
        """The value `(sig-val ..)` of a signature of these octets. Whether it is valid is not tested. Raises BadKey as `ask_agent` does, and for
        a signature that is cut off, is by an algorithm that is not used, or has a number that is too large."""
        # (the flag is for RSA: OpenSSH's agent ignores it for other keys)
        body = ssh_string(self.blob) + ssh_string(message) + struct.pack(">I", RSA_SHA2_256)
        answer = ask_agent(SIGN_REQUEST, body, SIGN_RESPONSE, "ssh-agent refuses to sign by this key")
        signature, _ = split_string(answer)
        algorithm, rest = split_string(signature)
        octets, _ = split_string(rest)
        if algorithm == b"ssh-ed25519":
            return value_of_octets(ED25519, octets)
        if algorithm == b"rsa-sha2-256":
            return value_of_octets(RSA, octets)
        if algorithm in CURVES:
            r, rest = split_string(octets)
            s, _ = split_string(rest)
            try:
                return value_of_numbers(int.from_bytes(r, "big"), int.from_bytes(s, "big"), CURVES[algorithm])
            except OverflowError:
                raise BadKey("ssh-agent sent a signature with a number that is too large") from None
        raise BadKey(f"ssh-agent signs by {algorithm.decode(errors='replace')}, which is not used")
