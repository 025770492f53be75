"""Tests what nginx and Caddy change of signed requests that they pass on: docs/SIGNATURES.md, "Behind a proxy", says it. Each listens at a socket of
its own, so that it takes no port."""
from __future__ import annotations

import contextlib
import os
import socket
import subprocess
import unittest
from collections.abc import Callable

from harness import needs
from harness.support import room_for, text_of, waits_for

SECONDS = 600
NAME = "files.example.org"
NGINX = """daemon off; pid {room}/pid; events {{}} http {{ {http} access_log off; client_body_temp_path t; proxy_temp_path t; fastcgi_temp_path t;
uwsgi_temp_path t; scgi_temp_path t; server {{ listen unix:{room}/proxy; location / {{ proxy_pass http://{to}; {more} }} }} }}"""
# Lines of nginx: OWN_HOST passes on the host name that the client sent, and BY_NONCE reads the nonce of a signature, by which services are chosen.
OWN_HOST = "proxy_http_version 1.1; proxy_set_header Host $http_host;"
BY_NONCE = """map $http_signature_input $spki_nonce { '~;nonce="([^"]+)"' $1; }"""
CADDY = "{{\nadmin off\nauto_https off\n}}\nhttp:// {{\nbind unix/{room}/proxy\nreverse_proxy 127.0.0.1:{port}\n}}\n"
Change = Callable[[list[str]], list[str]]


def same(lines: list[str]) -> list[str]:
    """A `Change` that leaves the lines of a request as they are."""
    return lines


@needs.needs("import cryptography")
class Proxies(unittest.TestCase):
    """What a proxy changes, by the answers of the services behind it, which verify signatures."""

    def setUp(self) -> None:
        """Makes a folder for the proxy's files, a signer of requests, and two services, which verify them."""
        from cryptography.hazmat.primitives.asymmetric.ed25519 import Ed25519PrivateKey  # (here, as it may be missing)

        import spki_http
        from suite import test_signatures
        import test_spki_http  # (here, since it raises SkipTest where cryptography is missing)
        self.room = room_for(self)
        self.signer = test_spki_http.ed25519_signer(Ed25519PrivateKey.generate())
        self.services = [test_signatures.Service() for _ in range(2)]
        for service in self.services:
            service.verifier = spki_http.Verifier(NAME, scheme="http")
            service.serve_during(self)
        self.service = self.services[0]

    def start(self, words: list[str], text: str) -> None:
        """Starts a proxy by these words, with this configuration, and waits until it listens, up to 600 seconds. It is ended after the test."""
        with open(os.path.join(self.room, "conf"), "w", encoding="ascii") as file:
            file.write(text)
        with open(os.path.join(self.room, "log"), "wb") as log:
            proxy = subprocess.Popen(words, cwd=self.room, stdout=log, stderr=log, env={**os.environ, "HOME": self.room, "XDG_DATA_HOME": self.room})
        self.addCleanup(proxy.wait)
        self.addCleanup(proxy.terminate)

        def listens() -> bool:
            with socket.socket(socket.AF_UNIX) as client, contextlib.suppress(OSError):
                client.connect(os.path.join(self.room, "proxy"))
                return True
            self.assertIsNone(proxy.poll(), text_of(os.path.join(self.room, "log")))
            return False
        waits_for("the proxy listens", listens)

    def start_nginx(self, more: str, to: str = "", http: str = "") -> None:
        """Starts nginx before the upstream `to`, by default the first service. `more` are lines of its location, `http` are outside of its server."""
        as_user = "user root;" if os.getuid() == 0 else ""
        self.start(["nginx", "-p", self.room, "-c", "conf", "-e", "log", "-g", as_user],
                   NGINX.format(room=self.room, to=to or self.service.name, more=more, http=http))

    def ask(self, method: str, target: str, change: Change = same, host: str = NAME, body: bytes = b"") -> str:
        """Sends a signed request through the proxy. `change` changes the lines with its signature before they are sent. Returns `valid`, or the
        verifier's refusal, or the status if the proxy itself answers. The signature is for NAME, also if `host`, which is sent, is another."""
        fields = self.signer.fields(method, f"http://{NAME}{target}", body)
        length = [f"Content-Length: {len(body)}"] if body else []
        lines = change([f"{name}: {value}" for name, value in fields.items()])
        head = [f"{method} {target} HTTP/1.1", f"Host: {host}", "Connection: close", *length, *lines]
        answer = b""
        with socket.socket(socket.AF_UNIX) as client:
            client.settimeout(SECONDS)
            client.connect(os.path.join(self.room, "proxy"))
            client.sendall("\r\n".join([*head, "", ""]).encode() + body)
            while octets := client.recv(65536):
                answer += octets
        status, text = answer.split(b" ", 2)[1].decode(), answer.partition(b"\r\n\r\n")[2]
        # (a service answers with the proved key, or with 401 and the name of a refusal)
        return "valid" if b"(10:public-key" in text else text.decode() if status == "401" else status

    def check_answers(self, wanted: dict[str, str]) -> None:
        """Each kind of request, with its target, change and host name, must have its usual answer, or the one that `wanted` has for it. Usually all
        are valid but folded lines, a line twice and another name."""
        kinds: dict[str, tuple[str, Change, str]] = {
            "plain": ("/a/b?c=d", same, NAME), "empty query": ("/a?", same, NAME), "percent-encoding": ("/%7ea%2Fb%2f?%20+", same, NAME),
            "dots": ("/a/../b/./c", same, NAME), "slashes": ("/a//b", same, NAME), "no URI's octets": ('/a"b|c[d]{e}', same, NAME),
            "port": ("/a", same, f"{NAME}:80"), "capitals": ("/a", same, NAME.upper()),
            "names in capitals": ("/a", lambda lines: [line.partition(":")[0].upper() + line[line.index(":"):] for line in lines], NAME),
            "spaces": ("/a", lambda lines: [line.replace(": ", ":  \t", 1) + " \t" for line in lines], NAME),
            "folded": ("/a", lambda lines: [line.replace(";created", "\r\n ;created") for line in lines], NAME),
            "a line twice": ("/a", lambda lines: [*lines, lines[-1]], NAME), "another name": ("/a", same, "evil.example")}
        answers = {name: self.ask("GET", *kind) for name, kind in kinds.items()}
        answers["a body"] = self.ask("PUT", "/a", body=b"some octets")
        usual = dict.fromkeys(answers, "valid") | {"folded": "400", "a line twice": "repeated-field", "another name": "other-authority"}
        self.assertEqual(answers, usual | wanted)

    @needs.needs("nginx")
    def test_nginx(self) -> None:
        """nginx passes on each request that it accepts as the client sent it."""
        self.start_nginx(OWN_HOST)
        self.check_answers({})

    @needs.needs("nginx")
    def test_nginx_before_two_services(self) -> None:
        """Where nginx chooses between services by the nonce, a request that is sent again comes to the service that has seen its nonce, also with
        tabs around the field, which nginx counts as a part of it. This is tried 21 to 1,000 times, until both services have got a request."""
        servers = " ".join(f"server {service.name} max_fails=0;" for service in self.services)
        self.start_nginx(f"{OWN_HOST} proxy_next_upstream off;", "both", f"{BY_NONCE} upstream both {{ hash $spki_nonce consistent; {servers} }}")
        for turn in range(1000):
            sent = [f"{name}: {value}" for name, value in self.signer.fields("GET", f"http://{NAME}/a").items()]
            self.assertEqual(self.ask("GET", "/a", lambda _: sent), "valid")
            self.assertEqual(self.ask("GET", "/a", lambda _: [line.replace(": ", ": \t ", 1) + "\t " for line in sent]), "nonce-seen")
            if turn >= 20 and all(service.requests for service in self.services):
                break
        self.assertTrue(all(service.requests for service in self.services))

    @needs.needs("nginx")
    def test_nginx_with_a_host_of_its_own(self) -> None:
        """Without `proxy_set_header Host` the host that nginx passes on is the upstream's, so the verifier refuses the request."""
        self.start_nginx("")
        self.assertEqual(self.ask("GET", "/a"), "other-authority")

    @needs.needs("caddy")
    def test_caddy(self) -> None:
        """Caddy encodes octets that no URI has, so the signature is of another path, and makes one line of a folded one: both are refused then."""
        self.start(["caddy", "run", "--config", "conf", "--adapter", "caddyfile"], CADDY.format(room=self.room, port=self.service.server_port))
        self.check_answers({"no URI's octets": "invalid-signature", "folded": "malformed"})
