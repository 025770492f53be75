"""Tests signed requests to spki-authd behind nginx, Caddy, HAProxy and Apache, most without a certificate of TLS, also with a cache in front of
nginx, and git and rsync by a key."""
from __future__ import annotations

import contextlib
import http.client
import os
import subprocess
import unittest

from harness import needs, web_servers
from harness.served import EXAMPLE, NEEDS, SECONDS, free_port
from harness.support import TOP, waits_for
from rows import attackers, attacks

PAGE = "/web/index.html"


class OfSites(unittest.TestCase):
    """A web server with a daemon that accepts signed requests. `kind` is the class that starts both. `second_line` is the status where a request has
    two lines `Signature`: the daemon refuses it, but nginx 1.22 passes on the first line alone."""

    kind: type[web_servers.ServerSite]
    site: web_servers.ServerSite
    second_line = 403

    @classmethod
    def setUpClass(cls) -> None:
        class Signed(cls.kind):  # type: ignore[name-defined, misc]
            """The site, with its name and a folder of certificates in the configuration of the daemon."""

            def prepare(self) -> None:
                super().prepare()
                os.mkdir(self.at("chains"), 0o700)
                names = f'"signatures": {{"names": ["localhost:{self.port}"]}}, "chains": {{"folder": "{self.at("chains")}"}}, "listen"'
                self.write("etc/authd.json", self.text("etc/authd.json").replace('"listen"', names))

        cls.site = Signed()
        cls.addClassCleanup(cls.site.end)

    def fields(self, who: str, path: str, *words: str) -> list[str]:
        """The lines of fields by which `who`, the name of a key, signs a request for a path. `words` are options of `spki-cert request`."""
        return self.site.cert("request", "--by", f"keys/{who}", *words, f"https://localhost:{self.site.port}{path}").splitlines()

    def status(self, method: str, path: str, *lines: str, body: str = "") -> int:
        """The status of the answer to a request with these lines of fields, and without a certificate for TLS."""
        return self.site.status(None, method, path, *lines, body=body)

    def check_signed(self) -> None:
        """A signed request is granted once, for its own path, method and body, if its key has the right. A certificate of TLS is enough too, but not
        beside a wrong signature. The status is 403 if a proof or certificate is wrong, and 401 if a right or proof is missing. Then `check_chain`."""
        ann = self.fields("ann", PAGE)
        self.assertEqual([self.status("GET", PAGE, *ann) for _ in range(2)], [200, 403])
        self.assertIn("nonce-seen", self.site.text("log/authd.log"))
        self.assertEqual(self.status("GET", "/secret/plan.txt", *self.fields("ann", "/secret/plan.txt")), 401)  # (without a right)
        self.assertEqual(self.status("GET", PAGE, *self.fields("eve", PAGE)), 401)  # (without a right)
        self.assertEqual(self.status("GET", PAGE), 401)  # (without a proof)
        without_key = [line for line in self.fields("ann", PAGE) if not line.startswith("X-Spki-Public-Key")]
        self.assertEqual(self.status("GET", PAGE, *without_key), 403)
        self.assertEqual(self.status("GET", "/web/out/main.js", *self.fields("ann", PAGE)), 403)  # (signed for another path)
        self.assertEqual(self.status("HEAD", PAGE, *self.fields("ann", PAGE)), 403)  # (signed for another method)
        self.assertEqual(self.status("PUT", PAGE, *self.fields("ann", PAGE), body="x"), 403)  # (signed as GET, without a body)
        self.assertEqual(self.status("GET", PAGE, *self.fields("ann", PAGE), "Signature: spki=:AAAA:"), self.second_line)
        self.assertEqual(self.site.status("ann", "GET", PAGE), 200)
        self.assertEqual(self.site.status("ann", "GET", PAGE, "Signature: spki=:AAAA:"), 403)
        self.check_chain()

    def check_chain(self) -> None:
        """A request in which Ben shows Ann's certificate is granted only if his signature covers it. `check_left_chain` needs the file `b`."""
        right = ("--tag", "(files read (* prefix /web/))", "--days", "9")
        self.site.cert("sign", "--by", "keys/ann", "--to", "keys/ben.pub", *right, "--force", "-o", "b")
        ben = self.fields("ben", PAGE, "--cert", "b")
        self.assertEqual(self.status("GET", PAGE, *ben), 200)
        self.assertEqual(self.statuses_of_ben(), [401, 401])
        certificate = next(line for line in ben if line.startswith("X-Spki-Sequence"))
        self.assertEqual(self.status("GET", PAGE, *self.fields("ben", PAGE), certificate), 403)

    def statuses_of_ben(self) -> list[int]:
        """The statuses of Ben's requests for PAGE that show no certificate of SPKI: one by his certificate of TLS, and one that he signs."""
        return [self.site.status("ben", "GET", PAGE), self.status("GET", PAGE, *self.fields("ben", PAGE))]

    def check_left_chain(self) -> None:
        """Ben leaves Ann's certificate with the daemon, by a request that counts once. Then his requests need nothing but his key, by a signature or
        by TLS. Each request of `wrong`, a method, a path, lines and a body, is refused before, and each attack after it. `check_chain` wrote `b`."""
        path, body = attacks.LEAVING, self.site.text("b")
        signed, unsigned = self.fields("ben", path, "--body", "b"), list[str]()
        # (signed by Eve, or for another body, path or method, or not at all; or with a query, which the path to leave certificates must not have)
        wrong: list[tuple[str, str, list[str], str]] = [
            ("PUT", path, self.fields("eve", path, "--body", "b"), body), ("PUT", path, self.fields("ben", path, "--body", "etc/acl.sexp"), body),
            ("PUT", f"{path}?GET={PAGE}", signed, body), ("PUT", path, signed, body + " "), ("PUT", path, unsigned, body),
            ("PUT", path, ["X-Client-Cert: x"], body), ("POST", path, signed, body), ("GET", path, signed, ""),
            *(("PUT", path + query, self.fields("ben", path + query, "--body", "b"), body) for query in ("?", f"?GET={PAGE}"))]
        for method, target, lines, text in wrong:
            # (502 where the daemon has answered before the web server has passed on the body)
            self.assertIn(self.status(method, target, *lines, body=text), (*range(400, 500), 502), (method, target))
        self.assertEqual(self.statuses_of_ben(), [401, 401])
        self.assertEqual([self.status("PUT", path, *signed, body=body) for _ in range(2)], [201, 403])
        self.assertEqual(self.statuses_of_ben(), [200, 200])
        self.assertEqual(self.status("GET", "/secret/plan.txt", *self.fields("ben", "/secret/plan.txt")), 401)
        sender = attackers.Attackers(self.site, self.site.form)
        for each in attacks.with_statuses(attacks.attacks_on_left_certificates(), attacks.UNCLEAR):
            answer = self.site.answer(each.who, sender.filled(each.octets))
            self.assertLessEqual(set(attackers.statuses(answer) or [0]), each.must, each.what)
        address = f"https://localhost:{self.site.port}{path}"
        self.site.cert("request", "--by", "keys/ben", "--body", "b", "--curl", address, "--", "--silent", "--fail", "--cacert", "ca/ca.crt")

    def check_curl(self) -> None:
        """One command of `spki-cert request --curl` stores a file, and signs its digest. Another one reads it."""
        self.site.write("new", "some text")
        url = f"https://localhost:{self.site.port}/web/new"
        self.site.cert("request", "--by", "keys/ann", "--body", "new", "--curl", url, "--", "--silent", "--fail", "--cacert", "ca/ca.crt")
        self.assertEqual(self.site.text("files/web/new"), "some text")
        answer = self.site.cert("request", "--by", "keys/ann", "--curl", url, "--", "--silent", "--fail", "--cacert", "ca/ca.crt")
        self.assertEqual(answer, "some text")


@needs.needs(*NEEDS)
class Nginx(OfSites):
    """nginx reads and writes files."""

    kind, second_line = web_servers.Nginx, 200

    def test_signed_requests(self) -> None:
        self.check_signed()
        self.check_left_chain()

    def test_stores_by_curl(self) -> None:
        self.check_curl()


@needs.needs(*NEEDS, "varnishd")
class Cached(OfSites):
    """A cache that ends TLS in front of nginx, and passes on signed requests: Varnish with its own rules. nginx listens for it at a Unix socket."""

    kind = web_servers.Nginx
    PLAIN = [("files.conf", "server_name localhost;\n", "listen unix:{room}/run/plain;\n")]
    OWN = [("files.conf", "satisfy all;\n", "location /web/out/ {\nadd_header X-Site own;\n}\n")]
    FORBID = ("    expires -1;\n", '    add_header Cache-Control "private, no-store" always;\n')

    def setUp(self) -> None:
        """Starts Varnish on the free port `front`."""
        self.site.restart_with(self.PLAIN)
        self.front, rules = free_port(), self.site.at("etc/default.vcl")
        self.site.write("etc/default.vcl", f'vcl 4.1; backend nginx {{ .path = "{self.site.at("run/plain")}"; }}')
        words = ["varnishd", "-F", "-j", "none", "-n", self.site.at("varnish"), "-f", rules, "-T", "none", "-s", "malloc,9m"]
        with open(self.site.at("log/varnish"), "wb") as log:
            varnish = subprocess.Popen([*words, "-a", f"127.0.0.1:{self.front}"], stdin=subprocess.DEVNULL, stdout=log, stderr=log)
        self.addCleanup(varnish.wait)
        self.addCleanup(varnish.terminate)
        waits_for("Varnish listens", self.listens)

    def listens(self) -> bool:
        """Whether Varnish takes connections."""
        with contextlib.suppress(OSError):
            self.asked("/")
            return True
        return False

    def asked(self, path: str, *lines: str) -> int:
        """The status of Varnish's answer to a request with these lines of fields."""
        with contextlib.closing(http.client.HTTPConnection("127.0.0.1", self.front, timeout=SECONDS)) as client:
            client.request("GET", path, headers={"Host": "localhost", **dict(line.split(": ", 1) for line in lines)})
            return client.getresponse().status

    def statuses(self, path: str) -> list[int]:
        """The statuses of a stranger's request for a path, of Ann's, who signs hers, of a stranger's again, and of Ann's again."""
        return [self.asked(path), self.asked(path, *self.fields("ann", path)), self.asked(path), self.asked(path, *self.fields("ann", path))]

    def test_cache_in_front(self) -> None:
        """The cache gives no stranger what it got for Ann: a file, or that there is none. Nor where a location has an `add_header` of its own.
        It would without the lines that forbid it."""
        self.assertEqual(self.statuses(PAGE), [401, 200, 401, 200])
        self.assertEqual(self.statuses("/web/none"), [401, 404, 401, 404])
        self.site.restart_with([*self.PLAIN, *self.OWN])
        self.assertEqual(self.statuses("/web/out/main.js"), [401, 200, 401, 200])
        plain = [(name, place, place + more) for name, place, more in self.PLAIN]
        self.site.restart_replacing([*plain, *(("files.conf", line, "") for line in self.FORBID)])
        self.assertEqual(self.statuses("/web/out/main.js"), [401, 200, 200, 200])


@needs.needs(*NEEDS, "git")
class Git(OfSites):
    """git over HTTPS needs nothing but a key, once its certificates are left."""

    kind = web_servers.Nginx

    def test_git(self) -> None:
        lines = self.site.sh(os.path.join(EXAMPLE, "git.sh")).splitlines()
        self.assertEqual(lines, ["Ben clones: denied", "Ben leaves Ann's certificate", "Ben clones: one", "Ben pulls: two", "Eve clones: denied"])


@needs.needs(*NEEDS, *web_servers.Caddy.needs)
class Caddy(OfSites):
    """Caddy reads files."""

    kind = web_servers.Caddy

    def test_signed_requests(self) -> None:
        self.check_signed()
        self.check_left_chain()


@needs.needs(*NEEDS, *web_servers.HAProxy.needs)
class HAProxy(OfSites):
    """HAProxy passes on what a server behind it reads and writes."""

    kind = web_servers.HAProxy

    def test_signed_requests(self) -> None:
        self.check_signed()
        self.check_left_chain()

    def test_stores_by_curl(self) -> None:
        self.check_curl()


class WithRsync(web_servers.HAProxy):
    """HAProxy before the daemon of rsync, too."""

    files = (*web_servers.HAProxy.files, "rsync.cfg", "rsync.lua")

    def prepare(self) -> None:
        """Writes the files that HAProxy and the daemon of rsync read, and starts this daemon on the free port `inner`."""
        self.settings["RSYNC_PORT"], self.inner = str(free_port()), free_port()
        super().prepare()
        os.mkdir(self.at("files/rsync"))
        self.write("files/rsync/page", "a page")
        self.write("etc/rsyncd.conf", f"use chroot = no\n[web]\npath = {self.at('files/rsync')}\n")
        self.rsyncd = subprocess.Popen(["rsync", "--daemon", "--no-detach", f"--config={self.at('etc/rsyncd.conf')}", "--address=127.0.0.1",
                                        f"--port={self.inner}", f"--log-file={self.at('log/rsyncd')}"], stdin=subprocess.DEVNULL)

    def replaced(self, text: str) -> str:
        """The text of a file of the example, also with free ports in the place of 874, where HAProxy listens, and 873, where rsync does."""
        return super().replaced(text).replace("bind :874", f"bind 127.0.0.1:{self.settings['RSYNC_PORT']}").replace(":873", f":{self.inner}")

    def command(self) -> list[str]:
        """The command that starts HAProxy, also with the file for rsync."""
        return [*super().command(), "-f", self.at("etc/rsync.cfg")]

    def end(self) -> None:
        """Ends the daemon of rsync, and the site."""
        self.rsyncd.terminate()
        self.rsyncd.wait()
        super().end()


@needs.needs(*NEEDS, *web_servers.HAProxy.needs, "rsync")
class Rsync(OfSites):
    """rsync over TLS needs nothing but a key, once its certificates are left."""

    kind = WithRsync

    def test_rsync(self) -> None:
        lines = self.site.sh(os.path.join(TOP, "examples", "haproxy", "rsync.sh")).splitlines()
        self.assertEqual(lines, ["Ann copies", "Ben copies: denied", "Ben leaves Ann's certificate", "Ben copies: a page", "Eve copies: denied"])


@needs.needs(*NEEDS, *web_servers.Apache.needs)
class Apache(OfSites):
    """Apache reads and writes files. Its example has no path at which clients leave certificates."""

    kind = web_servers.Apache

    def test_signed_requests(self) -> None:
        self.check_signed()

    def test_stores_by_curl(self) -> None:
        self.check_curl()
