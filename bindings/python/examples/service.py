"""Lets clients read and write packages, by signed requests. Usage: service.py ACL NAME, behind a server with TLS."""
import http.server
import pathlib
import posixpath
import sys
from datetime import datetime, timezone

import spki
import spki_http
import spki_verify

# The most octets of a body, and the action in the request to the guard by the method of HTTP.
MOST, ACTIONS = 65_536, {"GET": b"read", "PUT": b"write"}


class Handler(http.server.BaseHTTPRequestHandler):
    def answer(self) -> None:
        """Answers 200 and the entry that grants the request, 400 if Content-Length is not from 0 to MOST, or 403 and why it is not granted."""
        host, status = ", ".join(self.headers.get_all("Host", [])), 400  # (two Host fields make a name that the service does not have)
        try:
            length = int(self.headers.get("Content-Length", 0))
            if not 0 <= length <= MOST:
                raise ValueError(f"the length of the body is not from 0 to {MOST}")
            body, status = self.rfile.read(length), 403
            proof = verifier.check(spki_http.Message(self.command, host, self.path, self.headers.items(), body))
            if posixpath.normpath(self.path) != self.path or "%" in self.path or "?" in self.path:
                raise ValueError("the path is not normal")
            words = b"packages", ACTIONS[self.command], self.path.encode()
            question = spki.Question(proof.sequence, spki.ProvenKey.assume(proof.key), words=words, moment=datetime.now(timezone.utc))
            if grant := guard.decide(question, spki_verify.verify):
                verifier.take(proof)  # (only for a yes: strangers could fill the store of nonces)
            status, text = (200, f"yes entry {grant.entry}") if grant else (403, f"no\n{guard.explain(question, spki_verify.verify)}")
        except (spki_http.Refused, spki.Refused, ValueError) as why:
            text = str(why)
        self.send_response(status)
        self.end_headers()
        self.wfile.write(f"{text}\n".encode())

    do_GET, do_PUT, timeout = answer, answer, 60  # (a client may send nothing for so many seconds)


acl, name = sys.argv[1:] if len(sys.argv) == 3 else sys.exit(__doc__)
guard, verifier = spki.Guard(pathlib.Path(acl).read_bytes()), spki_http.Verifier(name)
with http.server.ThreadingHTTPServer(("127.0.0.1", 0), Handler) as server:
    print(server.server_port, flush=True)
    server.serve_forever()
