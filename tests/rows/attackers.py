"""What attackers send: certificates and keys that attacks.py names, made for a site where Ann may read and write /web/ and Eve has no right."""
import base64
import os
import re
from collections.abc import Iterator
from typing import Any, Optional

from harness import built
from harness.served import Site
from harness.support import canonical
from spki_cert_tool.files import now, signer_at
from spki_cert_tool.keys import digest_of
from spki_cert_tool.making import certificate_of, fields_of, signed_sequence
from spki_cert_tool.places import read_text
from spki_cert_tool.sexp import Value

READ = "(files read (* prefix /web/))"
CONTENTS = {"web/index.html": b"<p>the web</p>", "web/out/main.js": b"main();", "secret/plan.txt": b"a plan"}
STATUS = re.compile(rb"^HTTP/1\.[01] (\d{3})", re.MULTILINE)
# Who asks, None without a certificate for TLS; by which method; for which path.
Asked = tuple[Optional[str], str, str]
# Requests that must be denied, of which a run without --long sends the first five, and requests that Ann is granted.
ALL_ASKED: list[Asked] = [
    (None, "GET", "/secret/plan.txt"), ("eve", "GET", "/web/index.html"), ("ann", "GET", "/secret/plan.txt"), ("eve", "PUT", "/web/made"),
    (None, "GET", "/web/index.html"), ("eve", "HEAD", "/web/index.html"), ("eve", "PUT", "/secret/made"), ("eve", "DELETE", "/web/index.html"),
    (None, "DELETE", "/secret/plan.txt"), ("robot", "GET", "/web/out/main.js"), ("eve", "MKCOL", "/web/made/"), ("ann", "GET", "/web/"),
    ("eve", "POST", "/web/index.html")]
ASKED = ALL_ASKED if built.IS_LONG else ALL_ASKED[:5]
GRANTED: list[Asked] = [("ann", "GET", "/web/index.html"), ("ann", "PUT", "/web/made"), ("ann", "DELETE", "/web/index.html")]
# What Ann is granted, one after the other: a method, a path, a line of the header, and the status. By PUT she stores MADE.
PAGE, MADE = "/web/index.html", "/web/made"
READS = [("GET", PAGE, "A: b", 200), ("HEAD", PAGE, "A: b", 200), ("GET", PAGE, "Range: bytes=0-2", 206), ("GET", PAGE, "If-None-Match: *", 304),
         ("GET", "/web/none", "A: b", 404)]
WRITES = [("PUT", MADE, "A: b", 201), ("GET", MADE, "A: b", 200), ("DELETE", MADE, "A: b", 204)]
# The statuses of a denial, and those where no daemon has decided.
DENIED, UNDECIDED = {400, 401, 403, 404, 405, 409}, {500, 502, 503}


def changes_of(site: Site, answer: bytes) -> Iterator[str]:
    """A line for each file of CONTENTS whose content is in an answer or has changed, and for each made. Raises FileNotFoundError if one is gone."""
    for name, content in CONTENTS.items():
        if content in answer:
            yield f"{name} is sent"
        if site.text(f"files/{name}").strip() != content.decode():
            yield f"{name} has changed"
    yield from (f"{name} was made" for name in ("web/made", "secret/made") if os.path.exists(site.at(f"files/{name}")))


def faults_of(site: Site, asked: Asked, must: set[int]) -> list[str]:
    """A line for each fault of the answer to a request: a status that is not in `must` (0 stands for no answer), a file's content, a changed file."""
    who, method, path = asked
    body = "made" if method == "PUT" else ""
    header = f"{method} {path} HTTP/1.1\r\nHost: localhost\r\nConnection: close\r\nContent-Length: {len(body)}\r\n\r\n"
    answer = site.answer(who, (header + body).encode())
    faults = [f"{who} {method} {path} is {status}" for status in statuses(answer) or [0] if status not in must]
    return faults + [f"{who} {method} {path}: {change}" for change in changes_of(site, answer)]


def fields_of_answer(answer: bytes) -> dict[str, str]:
    """The fields of the first answer in the octets that a connection has received, by their names in small letters. Values of one name are joined by
    commas."""
    fields: dict[str, str] = {}
    for line in answer.partition(b"\r\n\r\n")[0].decode("latin-1").split("\r\n")[1:]:
        name, _, value = line.partition(":")
        fields[name.lower()] = ",".join([*filter(None, [fields.get(name.lower())]), value.strip()])
    return fields


def faults_of_fields(answer: bytes, has_clients_files: bool) -> Iterator[str]:
    """A line for each fault of the fields of an answer that was granted: a cache may keep it for others, a browser may guess its type or, if the site
    has files that clients write, run scripts in it."""
    fields = fields_of_answer(answer)
    directives = fields.get("cache-control", "").replace(" ", "").split(",")
    yield from (f"a cache is not told {each}" for each in ("private", "no-store") if each not in directives)
    yield from (f"a cache is told {each}" for each in ("surrogate-control", "cdn-cache-control") if each in fields)
    if fields.get("x-content-type-options") != "nosniff":
        yield "a browser may guess its type"
    if has_clients_files and "sandbox" not in fields.get("content-security-policy", "").split(","):
        yield "a browser may run its scripts"


def statuses(answer: bytes) -> list[int]:
    """The HTTP statuses of all answers in the octets that a connection has received."""
    return [int(digits) for digits in STATUS.findall(answer)]


def in_braces(value: Any) -> str:
    """A value in canonical form, or octets as they are, in base64 and braces, as a header has them."""
    return "{" + base64.b64encode(value if isinstance(value, bytes) else canonical(value)).decode() + "}"


def sequence(site: Site, by: str, to: str, tag: str, *, days: int = 9, begins: int = 0, chain: Value | None = None) -> Any:
    """The value of a sequence: the members of the sequence `chain` if it is given, a certificate by the key `by` for the key `to`, both names of
    files in keys/, and its signature. The certificate has the tag, does not delegate, and is valid from `begins` to `days`, in days from now."""
    signer, subject = (signer_at(site.at(f"keys/{who}")) for who in (by, to))
    _, node = read_text(tag.encode())
    return signed_sequence(certificate_of(signer.key, subject.key, fields_of(node.value, now(begins), now(days))), signer, chain)


class Attackers:
    """What attackers send to a site: `sent` has the text for each name that attacks.py has in braces. `form` is that of a certificate in the
    server's header: `escaped-pem` or `base64-der`. Also writes the attackers' certificates for TLS into the site's keys/."""

    def __init__(self, site: Site, form: str = "escaped-pem") -> None:
        self.site, self.form = site, form
        self.sent = self.sequences()
        self.make_tls_certificates()

    def sequences(self) -> dict[str, str]:
        """The texts for the names that attacks.py has in braces: sequences in braces, Ann's certificate for TLS in `form`, the hash of her key."""
        site = self.site
        good = sequence(site, "ann", "ben", READ)  # (`good[1]` is the certificate. 17 of them and 65 lists in one another are one more than allowed)
        text = canonical(good)  # (`text[-8]` is one of the last octets of the signature's value)
        values: dict[str, Any] = {
            "ben": good, "ended": sequence(site, "ann", "ben", READ, days=-1, begins=-2), "early": sequence(site, "ann", "ben", READ, begins=5),
            "tag": text.replace(b"4:read", b"5:write"), "value": text[:-8] + bytes([text[-8] ^ 1]) + text[-7:],
            "subject": text.replace(self.key("ben"), self.key("eve")), "own": sequence(site, "ben", "ben", READ),
            "signer": canonical(sequence(site, "ben", "ben", READ)).replace(b"6:issuer" + self.key("ben"), b"6:issuer" + self.key("ann")),
            "secret": sequence(site, "ann", "ben", "(files read (* prefix /secret/))"), "unsigned": [b"sequence", good[1]], "none": [b"sequence"],
            "other": sequence(site, "ann", "ben", "(files read /web/other)"), "passed": sequence(site, "ben", "eve", READ, chain=good),
            "many": [b"sequence", *good[1:] * 17], "bare": self.key("ben"), "deep": b"(1:a" * 65 + b")" * 65, "name": self.sequence_of_name()}
        certificate = site.text("keys/ann.crt")
        ann = certificate.translate({ord(character): f"%{ord(character):02X}" for character in "\n +/=%"})
        if self.form == "base64-der":
            ann = "".join(certificate.splitlines()[1:-1])
        digest = digest_of(signer_at(site.at("keys/ann")).key).hex()
        return {**{name: in_braces(value) for name, value in values.items()}, "ann": ann, "key": digest}

    def key(self, who: str) -> bytes:
        """The public key of `ann`, `ben` or another, in canonical form."""
        return canonical(signer_at(self.site.at(f"keys/{who}")).key)

    def sequence_of_name(self) -> Value:
        """The sequence of a certificate by which Ann gives Ben a name, and no right."""
        signer = signer_at(self.site.at("keys/ann"))
        certificate = certificate_of(signer.key, signer_at(self.site.at("keys/ben")).key, fields_of(None, None, now(9)), b"readers")
        return signed_sequence(certificate, signer, None)

    def make_tls_certificates(self) -> None:
        """Writes certificates for TLS into keys/: one of Eve's key in Ann's name; a file with both Eve's and Ann's; one of a P-521 key, which is made
        beside it; and one of Ben's key that has ended, by a request, since `req -x509` takes no negative number of days."""
        site, make = self.site, ("openssl", "req", "-x509", "-new")
        site.sh(*make, "-key", "keys/eve", "-subj", "/CN=ann", "-days", "9", "-out", "keys/named-ann.crt")
        site.write("keys/both.crt", site.text("keys/eve.crt") + site.text("keys/ann.crt"))
        site.sh("openssl", "genpkey", "-algorithm", "EC", "-pkeyopt", "ec_paramgen_curve:P-521", "-out", "keys/p521")
        site.sh(*make, "-key", "keys/p521", "-subj", "/CN=p521", "-days", "9", "-out", "keys/p521.crt")
        site.sh("openssl", "req", "-new", "-key", "keys/ben", "-subj", "/CN=ben", "-out", "tmp/old.csr")
        site.sh("openssl", "x509", "-req", "-in", "tmp/old.csr", "-key", "keys/ben", "-days", "-1", "-out", "keys/old.crt")

    def filled(self, octets: bytes) -> bytes:
        """The octets of an attack, with each name in braces replaced by its text in `sent`. Other braces stay."""
        return re.sub(rb"\{(\w+)\}", lambda match: self.sent.get(match[1].decode(), match[0].decode()).encode(), octets)
