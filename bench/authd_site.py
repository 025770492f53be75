"""What `authd.py` and `dashboard.py` measure: an access list of 10,000 entries, chains of three certificates, the daemon, the handler that says 200
to all, nginx before each of them, and the load of wrk."""
import base64
import contextlib
import json
import os
import re
import signal
import socket
import subprocess
import sys
import time
import urllib.parse
from datetime import datetime, timedelta, timezone

sys.path.append(os.path.join(os.path.dirname(os.path.abspath(__file__)), "..", "tests"))
from shared import BENCH, canonical, golang  # noqa: E402

from spki_cert_tool.keys import FileSigner, hash_of, new_private  # noqa: E402

ENTRIES, HOT, COLD = 10_000, 100, 6_000
# The cache has room for the certificates of the hot chains, and for few of the cold ones. So have the 1,000 sequences that the daemon keeps.
CACHE = 2_000
# The environment of the daemon, as its unit sets it.
UNIT = {"GLIBC_TUNABLES": "glibc.malloc.tcache_count=100"}
# When the daemon writes its log of grants to the disk: `each`, `seconds` or `never`.
SYNC = os.environ.get("SYNC", "seconds")
PORTS = 3
SECONDS_TO_START = 30
# The script of wrk. Its requests show the HOT chains in turn, but each tenth request shows one of the COLD ones in place of a HOT one. The script is
# completed by HOT, by the file of the chains, and by the most ms that a connection waits before a request.
LUA = """local chains, hot = {}, %d
for line in io.lines("%s") do chains[#chains + 1] = "SPKI " .. line end
local turn, cold = 0, 0
function setup(thread) thread:set("seed", math.random(1, #chains)) end
function init(args) cold = seed end
function delay() return math.random(0, %d) end
function request()
    turn = turn + 1
    local place = turn %% hot + 1
    if turn %% 10 == 0 then
        cold = cold %% (#chains - hot) + 1
        place = hot + cold
    end
    return wrk.format("GET", "/web/index.html", {["Authorization"] = chains[place]})
end
function done(summary, latency, requests)
    local errors = summary.errors
    print(string.format("figures %%d %%d %%d %%d %%d", summary.requests, summary.duration, latency:percentile(50), latency:percentile(99),
                        errors.connect + errors.read + errors.write + errors.status + errors.timeout))
end
"""
NGINX = """daemon off; {as_user} error_log {folder}/nginx.log warn; pid {folder}/nginx.pid; worker_processes 2;
events {{ worker_connections 1024; }}
http {{
    access_log off;
    large_client_header_buffers 4 80k;
    client_body_temp_path {folder}/body; proxy_temp_path {folder}/proxy; fastcgi_temp_path {folder}/f;
    uwsgi_temp_path {folder}/u; scgi_temp_path {folder}/s;
    upstream yes {{ server unix:{folder}/yes.socket; keepalive 64; }}
    upstream authd {{ server unix:{folder}/authd.socket; keepalive 64; }}
{servers}
}}
"""
SERVER = """    server {{ listen 127.0.0.1:{port}; root {folder}; {ask}
        location = /auth {{ internal; proxy_pass http://{name}; proxy_http_version 1.1; proxy_set_header Connection ""; proxy_pass_request_body off;
            proxy_set_header Content-Length ""; proxy_set_header X-Original-Method $request_method; proxy_set_header X-Original-URI $request_uri;
            proxy_set_header X-Original-Host $host; proxy_set_header X-Client-Cert "{certificate}"; }} }}
"""


class Figures:
    """What wrk has measured: requests, their rate a second, percentiles in ms, and errors."""

    def __init__(self, output):
        """Reads the line `figures` of the output of wrk. Raises SystemExit if there is no such line."""
        line = re.search(r"^figures (\d+) (\d+) (\d+) (\d+) (\d+)$", output, re.MULTILINE)
        if not line:
            sys.exit(f"wrk has failed: {output[-1000:]}")
        # (wrk counts in µs)
        self.requests, duration, p50, p99, self.errors = map(int, line.groups())
        self.rate, self.p50, self.p99 = self.requests / duration * 1e6, p50 / 1000, p99 / 1000

    def __str__(self):
        return f"{self.rate:>9,.0f} requests/s, p50 {self.p50:.2f} ms, p99 {self.p99:.2f} ms, {self.errors} errors"


def connect(at):
    """A connection to a port of loopback, which is a number, or to a Unix socket, which is a path. Raises OSError if nothing listens there."""
    if isinstance(at, int):
        return socket.create_connection(("127.0.0.1", at))
    client = socket.socket(socket.AF_UNIX)
    try:
        client.connect(at)
    except OSError:
        client.close()
        raise
    return client


def free_ports(count):
    """A list of the numbers of so many ports of loopback on which no process listens now."""
    with contextlib.ExitStack() as stack:
        sockets = [stack.enter_context(socket.create_server(("127.0.0.1", 0))) for _ in range(count)]
        return [each.getsockname()[1] for each in sockets]


class Site:
    """The files and the programs in `folder`. `nginx` has the ports for nginx alone, with the handler, and with the daemon. `list` is the path of the
    access list, `program` that of the daemon, once built, `handler` the process of the handler, and `running` has the processes that `end` ends."""

    def __init__(self, folder, library):
        """Writes the page, the list and the certificates into `folder`. The daemon is to be built with the library at the path `library`."""
        self.folder, self.library, self.running = folder, library, []
        self.nginx = free_ports(PORTS)
        os.chmod(folder, 0o755)
        self.write("web/index.html", "<p>hello</p>\n" * 100)
        self.make_certificates()

    def path(self, name):
        """The path of a file of the site."""
        return os.path.join(self.folder, name)

    def write(self, name, text, mode=0o644):
        """Writes a file, and returns its path."""
        path = self.path(name)
        os.makedirs(os.path.dirname(path), exist_ok=True)
        with open(path, "w", encoding="utf-8") as file:
            file.write(text)
        os.chmod(path, mode)
        return path

    # ---- certificates

    def make_certificates(self):
        """Writes the list, whose last entry is the root's, and the chains from the root to the client. Makes the client's TLS certificate, and keeps
        it as `certificate`, in percent-encoding as nginx passes one."""
        private = new_private("ed25519")
        signers, client = [FileSigner(new_private("ed25519")) for _ in range(3)], FileSigner(private)
        # (S-expressions in canonical form: each string has its length and a colon in front)
        others = b"".join(b"(5:entry(10:public-key(4:test%d:%d))(3:tag(5:files)))" % (len(str(place)), place) for place in range(ENTRIES - 1))
        self.list = self.path("acl")
        with open(self.list, "wb") as file:
            file.write(b"(3:acl" + others + b"(5:entry" + canonical(signers[0].key) + b"(9:propagate)(3:tag(5:files))))")
        keys = [*signers, client]
        self.write("chains", "".join(f"{self.chain(keys, number)}\n" for number in range(HOT + COLD)))
        self.certificate = urllib.parse.quote(self_signed(private))

    def chain(self, keys, number):
        """A sequence in transport form, of three certificates that no other number has. The keys are those of the root, two others and the client."""
        tag = [b"tag", [b"files", b"read", [b"*", b"prefix", b"/web/"]]]
        items = [b"sequence"]
        for signer, subject in zip(keys, keys[1:]):
            propagate = [] if subject is keys[-1] else [[b"propagate"]]
            certificate = [b"cert", [b"issuer", signer.key], [b"subject", subject.key], *propagate, tag, [b"comment", str(number).encode()]]
            items += [certificate, [b"signature", hash_of(certificate), signer.key, signer.sign(canonical(certificate))]]
        return "{" + base64.b64encode(canonical(items)).decode() + "}"

    # ---- programs

    def build(self, *flags):
        """Builds the daemon, with these flags of Go, and the handler. Raises CalledProcessError if one does not compile."""
        self.program = golang.build_daemon(self.library, self.path("spki-authd"), *flags)
        golang.go(BENCH, ["build", "-o", self.path("yes"), "yes.go"], self.library).check_returncode()

    def write_config(self):
        """Writes the daemon's configuration, and returns its path."""
        rules = [{"prefix": "/", "methods": {"GET": "read"}, "request": ["files", "{method}", "{path}"]}]
        return self.write("config.json", json.dumps({
            "listen": f"unix:{self.path('authd.socket')}", "server": "nginx", "list": self.list, "requests": rules, "cache": CACHE,
            "log": self.path("grants.log"), "log_sync": SYNC}))

    def start(self, *words, at, **environment):
        """Starts the program that the words name, with these variables added to its environment. Returns its process as soon as something listens at
        `at`, the number of a port of loopback or the path of a Unix socket. Ends the whole bench, with what the program wrote, if nothing listens
        there after SECONDS_TO_START."""
        with open(self.path(f"{os.path.basename(words[0])}.out"), "ab") as out:
            process = subprocess.Popen(words, stdin=subprocess.DEVNULL, stdout=out, stderr=out, env={**os.environ, **environment})
        self.running.append(process)
        for _ in range(SECONDS_TO_START * 20):
            # (until it listens, `connect` fails)
            with contextlib.suppress(OSError), connect(at):
                return process
            time.sleep(0.05)
        sys.exit(f"{words[0]} does not listen: {self.end_of_log(words[0])}")

    def end_of_log(self, program):
        """The end of what the program at this path has written, at most 2,000 characters."""
        with open(self.path(f"{os.path.basename(program)}.out"), encoding="utf-8", errors="replace") as file:
            return file.read()[-2000:]

    def start_daemon(self):
        """Starts the daemon, and returns its process."""
        return self.start(self.program, "-config", self.write_config(), at=self.path("authd.socket"), **UNIT)

    def start_all(self):
        """Starts the daemon, the handler and nginx, and returns the daemon's process."""
        daemon = self.start_daemon()
        # (an earlier handler has left its socket, at which a new one could not listen)
        with contextlib.suppress(FileNotFoundError):
            os.remove(self.path("yes.socket"))
        self.handler = self.start(self.path("yes"), self.path("yes.socket"), at=self.path("yes.socket"))
        # (nginx alone asks nobody, so the name of its handler has no effect)
        asks = [("", "yes"), ("auth_request /auth;", "yes"), ("auth_request /auth;", "authd")]
        servers = "".join(SERVER.format(port=port, folder=self.folder, ask=ask, name=name, certificate=self.certificate)
                          for port, (ask, name) in zip(self.nginx, asks))
        as_user = "user root;" if os.getuid() == 0 else ""
        path = self.write("nginx.conf", NGINX.format(folder=self.folder, servers=servers, as_user=as_user))
        self.start("nginx", "-p", self.folder, "-c", path, "-e", self.path("nginx.log"), at=self.nginx[0])
        return daemon

    def end(self):
        """Ends the programs that were started. Raises TimeoutExpired if one of them goes on for 30 s."""
        for process in self.running:
            process.terminate()
            process.wait(30)
        self.running.clear()

    # ---- load

    def load(self, port, seconds, connections, delay=0):
        """What wrk measures at a port of nginx. Each connection waits `delay` ms before a request, on average: the script draws a time from 0 to
        twice as long. Raises SystemExit if wrk fails."""
        script = self.write("load.lua", LUA % (HOT, self.path("chains"), 2 * delay))
        words = ["wrk", "-t", "2", "-c", str(connections), "-d", f"{seconds}s", "--timeout", "10s", "-s", script, f"http://127.0.0.1:{port}"]
        return Figures(subprocess.run(words, stdout=subprocess.PIPE, stderr=subprocess.STDOUT, text=True).stdout)


def self_signed(private):
    """A TLS certificate of a private key that this key has signed, in PEM."""
    # (imported here, since it takes a tenth of a second: `--help` does not wait for it)
    from cryptography import x509
    from cryptography.hazmat.primitives.serialization import Encoding
    name, now = x509.Name([]), datetime.now(timezone.utc)
    builder = x509.CertificateBuilder(name, name, private.public_key(), x509.random_serial_number(), now, now + timedelta(days=1))
    return builder.sign(private, None).public_bytes(Encoding.PEM).decode()


def resident(process):
    """The resident memory of a process, in KiB."""
    with open(f"/proc/{process.pid}/status", encoding="ascii") as status:
        return next(int(line.split()[1]) for line in status if line.startswith("VmRSS:"))


def processor_seconds(process):
    """The processor time that a process has used, in seconds."""
    with open(f"/proc/{process.pid}/stat", encoding="ascii") as stat:
        user, system = stat.read().rpartition(")")[2].split()[11:13]
    return (int(user) + int(system)) / os.sysconf("SC_CLK_TCK")


def reload(process):
    """Tells the daemon, whose process is given, to read its list again. Does not wait until it has."""
    process.send_signal(signal.SIGHUP)
