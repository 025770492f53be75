"""The table of attacks: each attack of rows/attacks.py, but those that a server grants by right, is sent to each of `web_servers.SERVERS`, which ask
the daemon spki-authd. A server runs with its example's lines alone, and with lines for error pages or a cache, as other sites have them; and each of
these again while the daemon is stopped. A row passes if each status of the answer is allowed, no file's content is sent, and no file is changed.

The gate, `.ci/run`, runs about a tenth of the rows, always the same, and SPKI_TEST_LONG all of them."""
import contextlib
import hashlib
import os
import re
import unittest
from collections.abc import Callable

from harness import built, frames, needs, served, web_servers
from harness.support import output_of, text_of
from rows import attackers, attacks

# The columns of the table: how the server is set up. In those that begin with `stopped` the daemon is stopped.
COLUMNS = ("plain", "error pages", "a cache", "stopped", "stopped, error pages", "stopped, a cache")
STOPPED = "stopped, "


def is_chosen(row: str, share: int = 10) -> bool:
    """Whether the row or site of this name is run: in the long tests each is, otherwise about one in `share`, chosen by the digest of the name."""
    return built.IS_LONG or hashlib.sha256(row.encode()).digest()[0] % share == 0


def columns_of(kind: type[web_servers.ServerSite]) -> list[str]:
    """The columns of a server: `plain`, `stopped`, and those whose name, without STOPPED, `kind.sites` has. Debian's Caddy has no cache."""
    return [column for column in COLUMNS if column in ("plain", "stopped") or column.removeprefix(STOPPED) in kind.sites]


def rows_of(kind: type[web_servers.ServerSite], column: str) -> list[tuple[str, attacks.Attack]]:
    """The rows of a column, each as the row's name and the attack. Each column has the same attacks, under names that begin with the server and the
    column. `attacks.GRANTED` has those that a server grants by right: they are left out."""
    return [(f"{kind.name}, {column}: {each.what}", each) for each in attacks.all_attacks() if (kind.name, each.what) not in attacks.GRANTED]


class Pages(unittest.TestCase):
    """The pages of the servers, and how large the table is."""

    def test_pages_of_servers(self) -> None:
        """Each page in apps/spki-authd/servers/ has at most 40 indented lines, to paste, and says how to probe the site and what the server cannot
        promise. The daemon's README names the page."""
        pages = [os.path.join("apps", "spki-authd", "servers", f"{name}.md") for name in
                 (*(kind.name for kind in web_servers.SERVERS), "traefik", "envoy")]  # (these two have only a page)
        for page in pages:
            text = text_of(page)
            pasted = [line for line in text.splitlines() if line.startswith("    ")]
            self.assertLessEqual(len(pasted), 40, page)
            self.assertIn("README.md#probe-the-site", text)
            self.assertIn("cannot promise.**", text)
            self.assertIn(page.removeprefix("apps/spki-authd/"), text_of("apps/spki-authd/README.md"))

    def test_number_of_rows(self) -> None:
        """A server has six columns, Caddy four, and at least 200 rows in each, so that none is lost unseen. No two rows have the same name."""
        for kind in web_servers.SERVERS:
            names = [name for column in columns_of(kind) for name, _ in rows_of(kind, column)]
            self.assertGreaterEqual(len(names), 200 * (4 if kind is web_servers.Caddy else 6), kind.name)
            self.assertEqual(len(names), len(set(names)))


class Table(unittest.TestCase):
    """The tests of a web server. `table_of` adds the methods that unittest runs. `site` has this server. `sender` puts certificates into attacks."""

    kind: type[web_servers.ServerSite]
    site: web_servers.ServerSite
    sender: attackers.Attackers

    @classmethod
    def setUpClass(cls) -> None:
        """Starts the site, with a link for the attack on /web/link/plan.txt. `form` is how the server passes a certificate to the daemon."""
        cls.site = cls.kind()
        cls.addClassCleanup(cls.site.end)
        cls.sender = attackers.Attackers(cls.site, cls.site.form)
        os.symlink("../secret", cls.site.at("files/web/link"))

    def check_ann(self) -> None:
        """Ann must get the page that she may read, with the fields that keep it from others."""
        answer = self.site.answer("ann", attacks.request(attacks.WEB))
        self.assertEqual(attackers.statuses(answer), [200])
        self.check_fields_of(answer)

    def check_fields_of(self, answer: bytes) -> None:
        """By its fields an answer to a request that was granted must not be kept by caches, nor run as a script where clients write."""
        self.assertEqual(list(attackers.faults_of_fields(answer, self.kind.writes)), [], answer)

    def check_rows(self, column: str) -> None:
        """Each chosen attack of a column must fail. First Ann must be granted her page. In a stopped column the daemon is stopped then, and a plain
        request without a certificate must get a status from 500 on. Otherwise that request must get one below 500, Ann must be granted her page after
        the attacks too, and the log must have no decision that failed."""
        is_stopped = column.startswith("stopped")
        self.site.restart_with(self.kind.sites.get(column.removeprefix(STOPPED), []))
        self.check_ann()
        if is_stopped:
            self.site.stop_daemon()
            self.addCleanup(self.site.start_daemon)
        self.assertEqual(self.site.status(None, "GET", "/web/index.html") >= 500, is_stopped)
        for name, attack in rows_of(self.kind, column):
            if is_chosen(name):
                with self.subTest(name):
                    self.check_attack(attack, is_stopped)
        if not is_stopped:
            self.check_ann()
            self.assertNotIn('"answer":"failed"', self.site.text("log/authd.log"))

    def check_attack(self, attack: attacks.Attack, is_stopped: bool) -> None:
        """Each HTTP status in the answer to an attack must be in `attack.must`. While the daemon is stopped it may also be 403, 500, 502 or 503, and
        must not be 401. Where there is no answer, the status is 0. No file may be sent or changed."""
        answer = self.site.answer(attack.who, self.sender.filled(attack.octets))
        allowed = (attack.must | attacks.DENIED | attacks.WITHOUT_DAEMON) - {401} if is_stopped else attack.must
        self.assertLessEqual(set(attackers.statuses(answer) or [0]), allowed, answer)
        self.assertEqual(list(attackers.changes_of(self.site, answer)), [])

    def check_sites(self) -> None:
        """`kind.sites` has lines of other sites, by name. With each the server grants nothing of `attackers.ASKED`, which the daemon denies, nor of
        `attackers.GRANTED` while the daemon is stopped. Lines named `.. that fails` may deny Ann too. The gate runs about a third of them."""
        for name, more in self.kind.sites.items():
            if not is_chosen(f"{self.kind.name}, {name}", share=3):
                continue
            self.site.restart_with(more)
            with self.subTest(name):
                if not name.endswith(" that fails"):
                    self.check_ann()
                self.check_denied(attackers.ASKED, attackers.DENIED | attackers.UNDECIDED)
                self.site.stop_daemon()
                try:
                    self.check_denied([*attackers.ASKED, *attackers.GRANTED], attackers.DENIED | attackers.UNDECIDED)
                finally:
                    self.site.start_daemon()

    def check_fields(self) -> None:
        """No cache may keep what Ann is granted: a file, a part of it, that it has not changed, or that it is not there. The server behind HAProxy
        says that one may. What a client has written, as the page that the robot leaves, runs no script in Ann's browser. No field of a denial says
        that a cache may keep it."""
        self.site.restart_with([])
        written = "/web/out/page.html"
        if self.kind.writes:
            self.assertEqual(self.site.status("robot", "PUT", written, body="<script>alert(1)</script>"), 201)
            self.addCleanup(os.remove, self.site.at(f"files{written}"))
        rows = [*attackers.READS, ("GET", written, "A: b", 200), *attackers.WRITES] if self.kind.writes else attackers.READS
        for method, path, line, status in rows:
            with self.subTest(method=method, path=path, line=line):
                answer = self.site.answer("ann", attacks.request(path, line, method=method, body="new" if method == "PUT" else ""))
                self.assertEqual(attackers.statuses(answer), [status])
                self.check_fields_of(answer)
                self.assertNotIn("max-age", attackers.fields_of_answer(answer).get("cache-control", ""))
        denied = attackers.fields_of_answer(self.site.answer("eve", attacks.request(attacks.WEB)))
        self.assertLessEqual(set(denied.get("cache-control", "no-store").replace(" ", "").split(",")), {"private", "no-store"})

    def check_hosts(self) -> None:
        """Of two sites that ask one daemon each has its own list. Eve may do everything at the site OTHER and nothing at `localhost`, and gets
        nothing there by naming OTHER: where the web server has `localhost` alone, also if that takes requests for OTHER, and where it has both."""
        self.addCleanup(self.site.restart_daemon_with, self.site.text("etc/authd.json"))
        self.site.start_daemon_with_two_lists()
        self.site.restart_with([])
        self.check_names(attacks.MALFORMED)
        self.site.restart_replacing(self.kind.both_hosts)
        self.check_names(attacks.MALFORMED)
        self.site.restart_with_second_site()
        asked = attacks.request(attacks.PLAN).replace(b"localhost", web_servers.OTHER.encode())
        answer = self.site.answer("eve", asked, web_servers.OTHER, self.site.second_address)
        self.assertTrue(answer.endswith(b"other"), answer)
        self.check_names(attacks.MALFORMED | {200, 201})

    def check_names(self, must: set[int]) -> None:
        """Eve gets nothing of the site `localhost` by the name OTHER, by HTTP/1.1 nor HTTP/2: each answer has a status of `must`, where 0 stands for
        none. Ann gets her page by HTTP/2, and by each way to write the name of its site."""
        for what, name, octets in attacks.attacks_by_hosts(self.site.port):
            with self.subTest(what):
                answer = self.site.answer("eve", octets, name)
                self.assertLessEqual(set(attackers.statuses(answer) or [0]), must, answer)
                self.assertEqual(list(attackers.changes_of(self.site, answer)), [])
        for name in ("localhost", web_servers.OTHER, None):
            for hosts in attacks.HOSTS_OF_FRAMES:
                with self.subTest(name=name, hosts=hosts):
                    self.assertEqual(list(attackers.changes_of(self.site, self.body_by_frames("eve", name, attacks.PLAN, *hosts))), [])
        page = attackers.CONTENTS["web/index.html"]
        self.assertIn(page, self.body_by_frames("ann", "localhost", attacks.WEB, (":authority", "localhost")))
        for host in ("LOCALHOST", f"localhost:{self.site.port}"):
            asked = attacks.request(attacks.WEB).replace(b"localhost", host.encode())
            self.assertIn(page, self.site.answer("ann", asked))

    def body_by_frames(self, who: str, name: str | None, path: str, *hosts: tuple[str, str]) -> bytes:
        """The body of the answer by HTTP/2 to a request for a path with these fields. TLS asks for `name` or for none. Empty if there is none."""
        octets = frames.request((":method", "GET"), (":scheme", "https"), (":path", path), *hosts)
        with contextlib.suppress(OSError), self.site.connected(who, name, "h2") as client:
            return frames.body_of_answer(client, octets)
        return b""

    def check_probe(self) -> None:
        """`spki-authd -probe` must find no request that is granted while the daemon runs, nor, with `-stopped`, while it does not. It must find one
        where the server does not ask about some requests (`kind.hole`)."""
        self.site.restart_with([])
        self.probe(0, "nothing was granted")
        self.site.restart_with(self.kind.hole)
        self.probe(1, "granted: ")
        self.site.restart_with([])
        self.site.stop_daemon()
        try:
            self.probe(0, "nothing was granted", "-stopped")
        finally:
            self.site.start_daemon()

    def probe(self, status: int, text: str, *more: str) -> None:
        """Runs `spki-authd -probe` on the site, with the options `more`. It must end with `status`, write `text`, and leave no request out."""
        words = (self.site.program, "-probe", f"https://localhost:{self.site.port}/web/", *more)
        ended, output = output_of(*words, env={**self.site.settings, "SSL_CERT_FILE": self.site.at("ca/ca.crt")}, seconds=served.SECONDS)
        self.assertEqual((ended, text in output), (status, True), output)
        self.assertNotIn("left out", output)

    def check_port(self) -> None:
        """A server that asks the daemon on a port with TLS believes only the holder of the daemon's certificate. An impostor there says yes to all.
        With the daemon's certificate it gets the secret that the server sends to the daemon, and the request, which Eve may not make, is granted.
        With another certificate it gets no secret, and nothing is granted."""
        make = ("openssl", "req", "-x509", "-newkey", "ed25519", "-nodes", "-days", "9", "-subj", "/CN=spki-authd", "-addext",
                "subjectAltName=DNS:spki-authd,IP:127.0.0.1")
        for name in ("authd", "other"):
            self.site.sh(*make, "-keyout", f"etc/{name}.key", "-out", f"etc/{name}.crt")
        for name, is_granted in (("authd", True), ("other", False)):
            impostor = web_servers.Impostor(self.site.at(f"etc/{name}.crt"), self.site.at(f"etc/{name}.key"))
            try:
                self.site.restart_asking_port(impostor.server_port)
                self.assertEqual(self.site.status("eve", "GET", "/secret/plan.txt") == 200, is_granted)
                self.assertEqual(impostor.secrets, ["THE-SECRET"] if is_granted else [])
            finally:
                impostor.shutdown()
                impostor.server_close()

    def check_denied(self, asked: list[attackers.Asked], statuses: set[int]) -> None:
        """Each request, as (client, method, path), must get one of these statuses, none of which is a grant. No file may be sent or changed."""
        for each in asked:
            self.assertEqual(attackers.faults_of(self.site, each, statuses), [])


def table_of(kind: type[web_servers.ServerSite]) -> Callable[[type[Table]], type[Table]]:
    """Returns a decorator that gives a subclass of Table the tests of a server: one for each column, and others. They are skipped where something
    that they need is not there. The default of a lambda keeps the column of this turn."""
    def with_tests(table: type[Table]) -> type[Table]:
        table.kind = kind
        for column in columns_of(kind):
            setattr(table, f"test_{re.sub('[^a-z]+', '_', column)}", lambda self, column=column: self.check_rows(column))
        setattr(table, "test_other_sites", lambda self: self.check_sites())
        setattr(table, "test_probe", lambda self: self.check_probe())
        setattr(table, "test_fields", lambda self: self.check_fields())
        setattr(table, "test_hosts", lambda self: self.check_hosts())
        if kind.on_port:
            setattr(table, "test_port", lambda self: self.check_port())
        return needs.needs(*served.NEEDS, *kind.needs, *needs.LIBRARY)(table)
    return with_tests


@table_of(web_servers.Nginx)
class Nginx(Table):
    """nginx reads and writes files."""


@table_of(web_servers.Caddy)
class Caddy(Table):
    """Caddy reads files."""

    def test_client_without_certificate(self) -> None:
        """A client without a certificate gets 401. Caddy must send the daemon an empty certificate then: by itself it would send the name of its
        placeholder, which the daemon would refuse as malformed."""
        self.site.restart_with([])
        self.assertEqual(self.site.status(None, "GET", "/web/index.html"), 401)

    def test_writing_is_denied(self) -> None:
        """PUT and DELETE get 403 where the daemon grants them, as to the robot that may only write. Caddy 2.6.2 by itself answers them as GET."""
        self.site.restart_with([])
        for method in ("PUT", "DELETE"):
            self.assertEqual(attackers.faults_of(self.site, ("robot", method, "/web/out/main.js"), {403}), [])

    def test_index_of_a_folder(self) -> None:
        """A folder's path gets 404, also if the folder has an index file: that has another path, about which Caddy has not asked the daemon."""
        self.site.restart_with([])
        self.site.write("files/web/out/index.html", "an index")
        self.addCleanup(os.remove, self.site.at("files/web/out/index.html"))
        self.assertEqual(attackers.faults_of(self.site, ("ann", "GET", "/web/out"), {404}), [])


@table_of(web_servers.HAProxy)
class HAProxy(Table):
    """HAProxy passes on what a server behind it reads and writes."""


@table_of(web_servers.Apache)
class Apache(Table):
    """Apache reads and writes files."""

    def test_delete_of_a_folder(self) -> None:
        """DELETE of a folder without a last `/` is redirected: the example unsets `redirect-carefully`, set here, by which it would be deleted."""
        self.site.restart_with([("main.conf", "# more\n", "BrowserMatch ^ redirect-carefully\n")])
        self.assertEqual(attackers.faults_of(self.site, ("ann", "DELETE", "/web/out"), {301}), [])
