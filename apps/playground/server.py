"""The page over HTTP, on loopback only.

A request is refused unless it comes to this host and port, and has the token in its path. A request that asks something must also come
from the page itself: its origin is this host and port. So no other page of the browser can ask, also not by a name that leads here.
"""
import contextlib
import hmac
import http
import http.server
import json
import os
import secrets
import sys
import threading

HERE = os.path.dirname(os.path.abspath(__file__))
PAGE = os.path.join(HERE, "page")
# The octets of a question, the connections at once, and the seconds that one may be silent.
MOST_BODY, MOST_CONNECTIONS, SECONDS = 1 << 20, 64, 20
KINDS = {".html": "text/html; charset=utf-8", ".css": "text/css; charset=utf-8", ".js": "text/javascript; charset=utf-8",
         ".json": "application/json", ".svg": "image/svg+xml"}
POLICY = ("default-src 'none'; script-src 'self'; style-src 'self'; connect-src 'self'; img-src 'self'; base-uri 'none'; form-action 'none'; "
          "frame-ancestors 'none'; require-trusted-types-for 'script'; trusted-types 'none'")
HEADERS = {"Content-Security-Policy": POLICY, "X-Content-Type-Options": "nosniff", "Referrer-Policy": "same-origin", "Cache-Control": "no-store",
           "Cross-Origin-Opener-Policy": "same-origin", "Cross-Origin-Resource-Policy": "same-origin", "X-Frame-Options": "DENY",
           "Permissions-Policy": "camera=(), microphone=(), geolocation=()"}


def read_files():
    """The files of the folder `page` whose suffix is in KINDS, by their names: each as the value of `Content-Type` and its octets."""
    by_name = {}
    for name in sorted(os.listdir(PAGE)):
        kind = KINDS.get(os.path.splitext(name)[1])
        if kind:
            with open(os.path.join(PAGE, name), "rb") as file:
                by_name[name] = kind, file.read()
    return by_name


class Handler(http.server.BaseHTTPRequestHandler):
    """Answers the requests of one connection, with the files and jobs of its `server`, a `Server`. The base class calls `do_GET` and so on."""

    protocol_version = "HTTP/1.1"
    server_version = "playground"
    timeout = SECONDS
    # (an answer is two writes, and the second must not wait for the first to be acknowledged)
    disable_nagle_algorithm = True
    wbufsize = -1

    def do_GET(self):
        """Answers with a file of the page."""
        self.answer_by(self.give_file)

    do_HEAD = do_GET

    def do_POST(self):
        """Does a job, and answers with its result in JSON."""
        self.answer_by(self.do_job)

    def answer_by(self, method):
        """Answers by `method`, a function without arguments, which sends the answer. If it raises an error that is not one of the connection, answers
        with status 500, and raises the error again."""
        try:
            method()
        except (ConnectionError, TimeoutError):
            raise
        except Exception:
            # (the client may be gone)
            with contextlib.suppress(OSError):
                self.refuse(http.HTTPStatus.INTERNAL_SERVER_ERROR)
            raise

    def give_file(self):
        """Answers with the file of the page that is asked for, or with status 404, unless `name_asked` has refused the request."""
        name = self.name_asked(default="index.html")
        if name is None:
            return
        if name not in self.server.files:
            self.refuse(http.HTTPStatus.NOT_FOUND)
            return
        kind, octets = self.server.files[name]
        self.reply(http.HTTPStatus.OK, kind, octets)

    def do_job(self):
        """Does the job that is asked for, and answers with its result in JSON. Refuses a request from another page, with status 403, one for a job
        that does not exist, with 404, and what `name_asked` and `read_object` refuse."""
        name = self.name_asked(default="")
        if name is None:
            return
        # (older browsers send no Sec-Fetch-Site)
        if self.headers.get("Origin") not in self.server.origins or self.headers.get("Sec-Fetch-Site", "same-origin") != "same-origin":
            self.refuse(http.HTTPStatus.FORBIDDEN)
            return
        if name not in self.server.jobs:
            self.refuse(http.HTTPStatus.NOT_FOUND)
            return
        sent = self.read_object()
        if sent is not None:
            # (a name that each opened page makes up, so that its new question can replace its old one)
            page = sent.get("page")
            answer = self.server.workers.answer(page if isinstance(page, str) else "", name, sent)
            self.reply(http.HTTPStatus.OK, KINDS[".json"], json.dumps(answer).encode())

    def name_asked(self, default):
        """The name behind the token in the path, without a query, or the default if it is empty. If the host or the token is wrong, refuses the
        request and returns None."""
        if self.headers.get_all("Host") not in self.server.hosts:
            self.refuse(http.HTTPStatus.MISDIRECTED_REQUEST)
            return None
        token, slash, name = self.path.split("?")[0].removeprefix("/").partition("/")
        if not slash or not hmac.compare_digest(token.encode(), self.server.token.encode()):
            self.refuse(http.HTTPStatus.FORBIDDEN)
            return None
        return name or default

    def read_object(self):
        """Reads the object that was sent. If its length is missing or too large, or it is not sent as JSON or is no object, refuses the request and
        returns None."""
        length = self.headers.get("Content-Length", "")
        if not length.isascii() or not length.isdigit() or "Transfer-Encoding" in self.headers:
            self.refuse(http.HTTPStatus.LENGTH_REQUIRED)
            return None
        # (a number of thousands of digits is not read: `int` would raise ValueError)
        if len(length) > 9 or int(length) > MOST_BODY:
            self.refuse(http.HTTPStatus.REQUEST_ENTITY_TOO_LARGE)
            return None
        if self.headers.get_content_type() != "application/json":
            self.refuse(http.HTTPStatus.UNSUPPORTED_MEDIA_TYPE)
            return None
        try:
            sent = json.loads(self.rfile.read(int(length)))
        except (ValueError, RecursionError):
            sent = None
        if not isinstance(sent, dict):
            self.refuse(http.HTTPStatus.BAD_REQUEST)
            return None
        return sent

    def refuse(self, status):
        """Answers with a status and its words. The connection ends, because a body may be left in it."""
        self.close_connection = True
        self.reply(status, "text/plain; charset=utf-8", status.phrase.encode())

    def reply(self, status, kind, octets):
        """Answers with a status and octets. `kind` is the value of `Content-Type`. For HEAD the octets are left out."""
        self.send_response(status)
        for name, value in {**HEADERS, "Content-Type": kind, "Content-Length": str(len(octets))}.items():
            self.send_header(name, value)
        if self.close_connection:
            self.send_header("Connection", "close")
        self.end_headers()
        if self.command != "HEAD":
            self.wfile.write(octets)
        self.wfile.flush()

    def version_string(self):
        """The header `Server`. The base class would add a space and the version of Python."""
        return self.server_version

    def log_message(self, *_):
        """Nothing is logged: the token is in each path."""


class Server(http.server.ThreadingHTTPServer):
    """The server, with a bound on the connections at once. `workers` answer, `jobs` are the jobs by the names under which a page asks for them, and
    `start` are the octets of `start.json`."""

    daemon_threads = True
    request_queue_size = 32

    def __init__(self, port, workers, jobs, start):
        """Listens on a port of 127.0.0.1, or on any free one for 0. Raises `OSError` or `OverflowError` if that is not possible."""
        super().__init__(("127.0.0.1", port), Handler)
        self.token, self.workers, self.jobs = secrets.token_urlsafe(24), workers, jobs
        self.files = {**read_files(), "start.json": (KINDS[".json"], start)}
        self.room = threading.BoundedSemaphore(MOST_CONNECTIONS)
        # (browsers leave out the port of http)
        port = "" if self.server_port == 80 else f":{self.server_port}"
        self.origins = [f"http://{name}{port}" for name in ("127.0.0.1", "localhost")]
        # (as `get_all` returns the headers Host: there must be exactly one)
        self.hosts = [[origin.removeprefix("http://")] for origin in self.origins]

    @property
    def address(self):
        """The address of the page, with the token that each request must have."""
        return f"{self.origins[0]}/{self.token}/"

    def process_request(self, request, client_address):
        """Serves a connection in a thread, or closes it if there are too many."""
        if not self.room.acquire(blocking=False):
            self.shutdown_request(request)
            return
        try:
            super().process_request(request, client_address)
        except Exception:
            # (no thread has started, which would make room)
            self.room.release()
            raise

    def process_request_thread(self, request, client_address):
        """Serves a connection, and then makes room for another one."""
        try:
            super().process_request_thread(request, client_address)
        finally:
            self.room.release()

    def handle_error(self, request, client_address):
        """Prints the error that ended a request to standard error, with its traceback. Not of a connection that breaks or takes too long."""
        if not isinstance(sys.exc_info()[1], (ConnectionError, TimeoutError)):
            super().handle_error(request, client_address)
