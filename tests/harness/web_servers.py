"""The web servers that ask spki-authd, each as its example in examples/ sets it up, in the folder of a site: the port, the folders and the names of a
real server are replaced. Each can be started with more configuration lines, as other sites have them: for error pages, a cache and so on."""
import http.server
import json
import os
import re
import socketserver
import ssl
import subprocess
import sys
import threading
from urllib.parse import unquote

from harness import served
from harness.support import EXAMPLES

SORRY, SORRY_TEXT = "/sorry.html", "we are sorry"
ERRORS = "500 502 503 504"
# The name of a second site, which asks the same daemon.
OTHER = "b.example"
# Configuration lines of other sites: the file, a text of it, and the lines that are put behind this text.
More = list[tuple[str, str, str]]
MODULES = ("mpm_event", "authz_core", "authz_host", "access_compat", "ssl", "lua", "headers", "dav", "dav_fs", "http2", "dir", "mime", "env",
           "setenvif", "alias", "cache", "cache_disk", "include", "rewrite")
FOLDER_OF_MODULES = "/usr/lib/apache2/modules"
SOCKET_OF_LUA = "/usr/lib/*/lua/5.3/socket/unix.so"


class ServerSite(served.Site):
    """A site with one of the web servers, which asks spki-authd before it answers."""

    # The server's name in the daemon's configuration, the form in which it sends a client's certificate, and what it needs beside nginx's example.
    name, form = "", "base64-der"
    needs: tuple[str, ...] = ()
    # The files of the example that the server reads.
    files: tuple[str, ...] = ()
    # Lines of other sites by what they do. `error pages` and `a cache` are columns of the table of attacks.
    sites: dict[str, More] = {}
    # Lines by which some requests are not decided: `spki-authd -probe` must find this hole.
    hole: More = []
    # What is replaced, and by what, where the daemon is on a port with TLS: what the pages say. A server that cannot ask there has nothing.
    on_port: list[tuple[str, str, str]] = []
    # What is replaced, and by what, so that the site takes requests for OTHER too.
    both_hosts: list[tuple[str, str, str]] = []
    # Whether clients write files.
    writes = True
    # The file with the lines of the site, and the text with which these begin; what is replaced in those of a second site beside its name and its
    # folder; and the address of that site.
    begins: tuple[str, str] = "", ""
    of_second: list[tuple[str, str]] = []
    second_address = "127.0.0.1"

    def prepare(self) -> None:
        """Writes the files of the server's example, for this site. `originals` has the former text of each file that is changed now, by its name."""
        self.originals: dict[str, str] = {}
        self.write(f"files{SORRY}", SORRY_TEXT)
        for folder in ("other", "other/web", "other/secret"):
            os.mkdir(self.at(folder))
        self.write("other/secret/plan.txt", "other")
        self.write("etc/authd.json", self.text("etc/authd.json").replace('"server": "nginx"', f'"server": "{self.name}"'))
        for name in self.files:
            with open(os.path.join(EXAMPLES, self.name, name), encoding="utf-8") as file:
                self.write(f"etc/{name}", self.replaced(file.read()))

    def replaced(self, text: str) -> str:
        """The text of a file of the example, with this site's folders and name in the place of those of a real server."""
        for name, here in (("/etc/spki-files", "etc"), ("/run/spki-authd", "run"), ("/run/spki-files", "run/files"), ("/srv/files", "files"),
                           ("/etc/haproxy", "etc"), ("/etc/apache2", "etc"), ("/var/lock/apache2", "tmp"), ("/var/log/nginx", "log")):
            text = text.replace(name, self.at(here))
        return text.replace("files.example.org", "localhost")

    def restart_with(self, more: More) -> None:
        """Starts the server again, with `more` lines in its example's files, and without those of the last time. Each row has a file, a text of it,
        and the lines that are put behind this text."""
        self.restart_replacing([(name, place, place + lines) for name, place, lines in more])

    def restart_asking_port(self, port: int) -> None:
        """Starts the server again, so that it asks the daemon by TLS on this port of loopback, if it can (`on_port`)."""
        self.restart_replacing([(name, place, lines.replace("{port}", str(port))) for name, place, lines in self.on_port])

    def restart_with_second_site(self) -> None:
        """Starts the server again, with a second site beside the example's: OTHER, whose folder is `other`, and whose lines are the example's."""
        self.restart_with([])
        name, begin = self.begins
        text = self.text(f"etc/{name}")
        own = other = text[text.index(begin):]
        for old, new in [*self.of_second, ("localhost", OTHER), (self.at("files"), self.at("other")), (self.at("run/files"), self.at("run/second"))]:
            other = other.replace(old, new)
        self.restart_with([(name, own, other)])

    def start_daemon_with_two_lists(self) -> None:
        """Starts the daemon again with a list for each host: that of `localhost` is the example's, and by that of OTHER Eve may do everything."""
        self.cert("entry", "--to", "keys/eve.pub", "--tag", "(files (* set read write) (* prefix /))", "--acl", "etc/other.sexp")
        config = json.loads(self.text("etc/authd.json"))
        own = config.pop("list")
        lists = [{"host": "localhost", "list": own}, {"host": OTHER, "list": self.at("etc/other.sexp")}]
        self.restart_daemon_with(json.dumps({**config, "lists": lists}))

    def restart_daemon_with(self, config: str) -> None:
        """Starts the daemon again with the text of a configuration."""
        self.stop_daemon()
        self.write("etc/authd.json", config)
        self.start_daemon()

    def restart_replacing(self, changes: list[tuple[str, str, str]]) -> None:
        """Starts the server again, with the files of its example but for these changes: a file, a text of it, and what replaces its first place.
        `{room}` in both texts is the folder of the site, and `{port}` where it listens. Raises AssertionError if a file does not have its text."""
        for name, text in self.originals.items():
            self.write(f"etc/{name}", text)
        self.originals = {name: self.text(f"etc/{name}") for name, _, _ in changes}
        for name, *old_and_new in changes:
            old, new = (each.replace("{room}", self.room).replace("{port}", str(self.port)) for each in old_and_new)
            text = self.text(f"etc/{name}")
            if old not in text:
                raise AssertionError(f"{name} has no {old!r}")
            self.write(f"etc/{name}", text.replace(old, new, 1))
        self.restart_server()


class Nginx(ServerSite):
    """nginx, with rates that no test reaches. test_nginx.py has more lines of other sites."""

    name, form = "nginx", "escaped-pem"
    files = ("loopback.conf", "files.conf")
    sites = {
        "error pages": [("loopback.conf", "http {\n", f"proxy_intercept_errors on; error_page 401 403 {ERRORS} =200 {SORRY};\n")],
        "a cache": [("loopback.conf", "http {\n", "proxy_cache_path {room}/tmp/cache keys_zone=site:1m; proxy_cache site; proxy_cache_valid any 1h;"
                     "proxy_cache_key $host; proxy_ignore_headers Cache-Control Expires Set-Cookie Vary X-Accel-Expires;\n")]}
    hole = [("files.conf", "location / {\n", "auth_request off;\n")]
    both_hosts = [("files.conf", "if ($host != $server_name) {\n        return 421;\n    }\n", "")]
    begins, of_second = ("files.conf", "\nserver {\n"), [("$spki_root", "{room}/other")]
    on_port = [("files.conf", "server unix:{room}/run/socket;", "server 127.0.0.1:{port};"),
               ("files.conf", "proxy_pass http://spki_authd/;", "proxy_pass https://spki_authd/; proxy_ssl_verify on; proxy_ssl_name spki-authd;"
                "proxy_ssl_trusted_certificate {room}/etc/authd.crt; proxy_set_header X-Spki-Secret THE-SECRET;")]

    def replaced(self, text: str) -> str:
        """The text of a file of the example for this site: nginx listens on its port, and limits no rate that tests reach."""
        text = super().replaced(text).replace("listen 443 ssl", f"listen 127.0.0.1:{self.port} ssl http2")
        return re.sub("rate=[0-9]+r/s", "rate=9000r/s", text)


class Caddy(ServerSite):
    """Caddy, which only reads files. Debian's has no cache. Behind SITE, the end of the site's options for TLS, lines of a site may be put."""

    name, needs, files = "caddy", ("caddy",), ("Caddyfile",)
    SITE = "client_auth {\n\t\t\tmode request\n\t\t}\n\t}\n"
    sites = {
        "error pages": [("Caddyfile", SITE, "handle_errors {\nroot * {room}/files\nrewrite * /sorry.html\nfile_server\n}\n")],
        "error pages of any name": [("Caddyfile", SITE, "handle_errors {\nfile_server\n}\n")],
        "error pages by their names": [("Caddyfile", SITE, "handle_errors {\ntry_files {path}.html {path}\nfile_server {\nstatus 200\n}\n}\n")],
        "a first lock that lets denials pass": [("Caddyfile", "uri /\n",
                                                 "@denied status 401 403\nhandle_response @denied {\nheader X-Denied yes\n}\n")],
        "templates": [("Caddyfile", SITE, "templates\n")], "a choice of files": [("Caddyfile", SITE, "try_files {path} /web/index.html\n")],
        "a folder of its own": [("Caddyfile", SITE, "file_server /secret/*\n")], "all files": [("Caddyfile", SITE, "file_server browse\n")],
        "the root of all": [("Caddyfile", SITE, "root * {room}/files\nfile_server\n")]}
    hole = [("Caddyfile", "\troute {\n", "respond *.css 404\n")]
    writes, begins = False, ("Caddyfile", "https://localhost:")
    both_hosts = [("Caddyfile", "https://localhost:{port} {", f"https://{OTHER}:{{port}}, https://localhost:{{port}} {{")]
    on_port = [("Caddyfile", "forward_auth unix/{room}/run/socket {\n", "forward_auth https://127.0.0.1:{port} {\ntransport http {\n"
                "tls_trusted_ca_certs {room}/etc/authd.crt\ntls_server_name spki-authd\n}\n"),
               ("Caddyfile", "header_up -X-Spki-Secret\n\t\t\tcopy_headers", "header_up X-Spki-Secret THE-SECRET\ncopy_headers")]

    def replaced(self, text: str) -> str:
        """The text of a file of the example for this site: Caddy waits 1 s at most for a client, and opens its port and no other."""
        text = re.sub("(read_header|read_body|idle) [0-9]+s", r"\1 1s", super().replaced(text))
        text = text.replace("\nlocalhost {", f"\nhttps://localhost:{self.port} {{").replace("\n:443 {", f"\nhttps://:{self.port} {{")
        return text.replace("{\n\tservers", "{\n\tadmin off\n\tauto_https off\n\tservers", 1)

    def command(self) -> list[str]:
        self.settings.update(HOME=self.at("tmp"), XDG_DATA_HOME=self.at("tmp"), XDG_CONFIG_HOME=self.at("tmp"))  # (it writes files there)
        return ["caddy", "run", "--config", self.at("etc/Caddyfile"), "--adapter", "caddyfile"]


class HAProxy(ServerSite):
    """HAProxy before a server of files that knows nothing of rights."""

    name, needs = "haproxy", ("haproxy",)
    files: tuple[str, ...] = ("haproxy.cfg", "spki.lua")
    ERRORFILES = "".join(f"    errorfile {status} {{room}}/etc/sorry.http\n" for status in (403, *ERRORS.split()))
    sites = {
        "error pages": [("haproxy.cfg", "defaults\n", ERRORFILES)],
        "a cache": [("haproxy.cfg", "backend files\n", "    http-request cache-use site\n    http-response cache-store site\n"),
                    ("haproxy.cfg", "# spki.lua is beside it.\n", "cache site\n    total-max-size 4\n    max-age 60\n")],
        "another frontend": [("haproxy.cfg", "timeout server 30s\n", "frontend other\n    bind unix@{room}/run/other\n    default_backend files\n")],
        "retries": [("haproxy.cfg", "defaults\n", "    retry-on all-retryable-errors\n    option redispatch\n    retries 3\n")],
        "rules before": [("haproxy.cfg", "frontend files\n", "    http-request set-var(txn.other) str(yes)\n    option http-ignore-probes\n")],
        "a first lock that fails": [("haproxy.cfg", "frontend files\n", "    http-request allow\n")],
        "a Lua that fails": [("spki.lua", "function(txn)\n", "    local nothing = txn.none.nothing\n")]}
    hole = [("haproxy.cfg", "frontend files\n", "    http-request return status 404 if METH_POST\n")]
    both_hosts = [("haproxy.cfg", "unless { req.fhdr(host),host_only -i localhost }", "if { always_false }")]
    begins, second_address = ("haproxy.cfg", "frontend files\n"), "127.0.0.2"
    of_second = [("frontend files", "frontend other"), ("backend files", "backend other"), ("backend spki-authd", "backend spki-authd-of-other"),
                 ("bind 127.0.0.1", f"bind {second_address}")]
    on_port = [("haproxy.cfg", "global\n", "global\n    httpclient.ssl.verify required\n    httpclient.ssl.ca-file {room}/etc/authd.crt\n"),
               ("spki.lua", 'url = "http://spki-authd/", dst = "unix@{room}/run/socket", timeout = 5000, headers = {\n',
                'url = "https://spki-authd/", dst = "ipv4@127.0.0.1:{port}", timeout = 5000, headers = { ["x-spki-secret"] = { "THE-SECRET" },\n')]

    def prepare(self) -> None:
        """Writes the files that HAProxy reads, and starts the server of files behind it."""
        super().prepare()
        self.write("etc/server.pem", self.text("etc/server.crt") + self.text("etc/server.key"))
        self.write("etc/sorry.http", f"HTTP/1.1 200 OK\r\nContent-Length: {len(SORRY_TEXT)}\r\nConnection: close\r\n\r\n{SORRY_TEXT}")
        self.behind = []
        for name, folder in (("files", "files"), ("second", "other")):
            os.mkdir(self.at(f"run/{name}"))
            self.behind.append(FileServer(self.at(f"run/{name}/socket"), self.at(folder)))

    def replaced(self, text: str) -> str:
        """The text of a file of the example for this site: HAProxy changes no user, listens on its port, and waits 1 s at most for a client."""
        text = re.sub("(?m)^    (user|group) .*\n", "", super().replaced(text))
        text = text.replace("timeout http-request 10s", "timeout http-request 1s").replace("timeout client 10s", "timeout client 1s")
        return text.replace("bind :443", f"bind 127.0.0.1:{self.port}")

    def command(self) -> list[str]:
        return ["haproxy", "-db", "-f", self.at("etc/haproxy.cfg")]

    def end(self) -> None:
        for each in self.behind:
            each.shutdown()
            each.server_close()
        super().end()


class Apache(ServerSite):
    """Apache, which reads and writes files by WebDAV."""

    name, needs, files = "apache", ("apache2", SOCKET_OF_LUA), ("files.conf", "spki.lua")
    LUA, ALLOW = 'local unix = require "socket.unix"\n', "function allow(r) return apache2.OK end\n"
    CACHE = ("CacheEnable disk /\nCacheRoot {room}/tmp\nCacheQuickHandler on\nCacheIgnoreCacheControl On\nCacheIgnoreNoLastMod On\n"
             "CacheStorePrivate On\nCacheStoreNoStore On\nCacheDefaultExpire 3600\n")
    sites = {
        "error pages": [("main.conf", "# more\n", "".join(f"ErrorDocument {status} {SORRY}\n" for status in (401, 403, *ERRORS.split())))],
        "a cache": [("main.conf", "# more\n", CACHE)],
        "error pages of the secret": [("main.conf", "# more\n",
                                       "".join(f"ErrorDocument {status} /secret/plan.txt\n" for status in (401, 403, 500, 503)))],
        "a cache without the quick handler": [("main.conf", "# more\n", CACHE.replace("Handler on", "Handler off"))],
        "satisfy any": [("main.conf", "# more\n", "<Location />\nSatisfy Any\nRequire all granted\nAllow from all\n</Location>\n")],
        "satisfy any in the site": [("files.conf", "TraceEnable off\n", "<Location /secret/>\nSatisfy Any\nRequire all granted\n</Location>\n")],
        "rules of a folder": [("files.conf", "TraceEnable off\n", "<Directory {room}/files/secret>\nAllowOverride All\nOptions All\n</Directory>\n")],
        "an alias": [("files.conf", "TraceEnable off\n", "Alias /open {room}/files/secret\n")],
        "lists of folders": [("main.conf", "# more\n", "<Directory />\nOptions Indexes FollowSymLinks MultiViews\n</Directory>\n")],
        "a rewrite": [("files.conf", "TraceEnable off\n", "RewriteEngine on\nRewriteRule ^/web/other$ /web/index.html [PT]\n")],
        "a hook of fixups before": [("spki.lua", LUA, ALLOW), ("main.conf", "# more\n", "LuaHookFixups {room}/etc/spki.lua allow\n")],
        "a hook of access before": [("spki.lua", LUA, ALLOW), ("main.conf", "# more\n", "LuaHookAccessChecker {room}/etc/spki.lua allow\n")],
        "a script that fails": [("spki.lua", "function decide(r)\n", "    local nothing = r.none.nothing\n")]}
    hole = [("spki.lua", "function decide(r)\n", "    if r.method == 'DELETE' then return apache2.DECLINED end\n")]
    both_hosts = [("spki.lua", "    if r.hostname ~= SITE then return 421 end\n", "")]
    begins, of_second = ("files.conf", "<VirtualHost "), [("spki.lua", "other.lua")]

    def prepare(self) -> None:
        """Writes what Apache reads: also main.conf, which loads its modules and includes the example. Root gives files to www-data, who serves."""
        super().prepare()
        self.write("etc/other.lua", self.text("etc/spki.lua").replace("localhost", OTHER))
        modules = "".join(f"LoadModule {name}_module {FOLDER_OF_MODULES}/mod_{name}.so\n" for name in MODULES)
        # (the socket is of root's group, and without a line on its group Apache would go on as root)
        server_user = "User www-data\nGroup root" if os.getuid() == 0 else ""
        self.write("etc/main.conf", f"ServerRoot {self.room}\nServerName localhost\nTimeout 1\nKeepAliveTimeout 1\n"
                   f"PidFile run/httpd.pid\nErrorLog log/error.log\nListen 127.0.0.1:{self.port}\n{modules}TypesConfig /etc/mime.types\n"
                   f"{server_user}\n# more\nInclude etc/files.conf\n")
        if server_user:
            os.chmod(self.room, 0o755)
            subprocess.run(["chown", "-R", "www-data", self.at("files"), self.at("other"), self.at("tmp")], check=True)

    def replaced(self, text: str) -> str:
        """The text of a file of the example for this site: Apache listens on its port."""
        return super().replaced(text).replace("*:443", f"127.0.0.1:{self.port}")

    def command(self) -> list[str]:
        return ["apache2", "-f", self.at("etc/main.conf"), "-DFOREGROUND"]


class Handler(http.server.BaseHTTPRequestHandler):
    """The base of handlers that answer by HTTP/1.1, and write no log."""

    protocol_version = "HTTP/1.1"

    def send_head(self, status: int, *lines: str) -> None:
        """Sends the head of an answer, with these lines `NAME: VALUE`."""
        self.send_response(status)
        for line in lines:
            self.send_header(*line.split(": "))
        self.end_headers()

    def log_message(self, format: str, *args: object) -> None:
        """Writes no log."""


class FileHandler(Handler):
    """Reads, writes or deletes the file that a request names. So a test sees by the files whether a request came that should have been denied."""

    def answer(self, status: int, octets: bytes = b"") -> None:
        """Sends an answer with a status and a body, but to HEAD and with 304 no body. Its fields say that a cache may keep it."""
        self.send_head(status, f"Content-Length: {len(octets)}", "Cache-Control: max-age=60", "Surrogate-Control: max-age=60",
                       "CDN-Cache-Control: max-age=60", "Last-Modified: Thu, 01 Jan 2026 00:00:00 GMT")
        if self.command != "HEAD" and status != 304 and octets:
            self.wfile.write(octets)

    def do_GET(self) -> None:
        try:
            with open(self.file(), "rb") as file:
                self.answer(304 if self.headers["If-None-Match"] else 206 if self.headers["Range"] else 200, file.read())
        except OSError:
            self.answer(404)

    def do_PUT(self) -> None:
        os.makedirs(os.path.dirname(self.file()), exist_ok=True)
        with open(self.file(), "wb") as file:
            file.write(self.rfile.read(int(self.headers.get("Content-Length", "0"))))
        self.answer(201)

    def do_DELETE(self) -> None:
        os.remove(self.file())
        self.answer(204)

    do_HEAD, do_POST, do_PATCH, do_OPTIONS, do_MOVE, do_COPY = do_GET, do_PUT, do_PUT, do_GET, do_DELETE, do_PUT

    def file(self) -> str:
        """The path of the file that the request names. With a link or `..` on the way, or a slash at the end: that of a file that is not there."""
        server = self.server
        assert isinstance(server, FileServer)
        path = os.path.join(server.folder, unquote(self.path.partition("?")[0]).lstrip("/"))
        return path if os.path.realpath(path) == path else os.path.join(server.folder, "none")


class FileServer(socketserver.ThreadingUnixStreamServer):
    """Serves the files of `folder` on a Unix socket at `path`, in threads of this process."""

    daemon_threads = True

    def __init__(self, path: str, folder: str) -> None:
        super().__init__(path, FileHandler)
        self.folder = folder
        threading.Thread(target=self.serve_forever, daemon=True).start()

    def handle_error(self, request: object, client_address: object) -> None:
        """Says nothing of a connection that the web server has closed. Other exceptions are printed."""
        if not isinstance(sys.exc_info()[1], ConnectionError):
            super().handle_error(request, client_address)  # type: ignore[arg-type]


class Impostor(http.server.ThreadingHTTPServer):
    """In the place of the daemon on a port with TLS: it grants each request, and keeps the secrets that it gets. Both arguments are paths."""

    def __init__(self, certificate: str, key: str) -> None:
        self.secrets: list[str] = []
        super().__init__(("127.0.0.1", 0), ImpostorHandler)
        context = ssl.SSLContext(ssl.PROTOCOL_TLS_SERVER)
        context.load_cert_chain(certificate, key)
        self.socket = context.wrap_socket(self.socket, server_side=True)
        threading.Thread(target=self.serve_forever, daemon=True).start()

    def handle_error(self, request: object, client_address: object) -> None:
        """Prints nothing of an error: a web server that does not trust the certificate breaks the connection."""


class ImpostorHandler(Handler):
    """Adds the secret of each request to `secrets` of its Impostor, and answers with a yes."""

    def do_GET(self) -> None:
        server = self.server
        assert isinstance(server, Impostor)
        server.secrets.append(self.headers["X-Spki-Secret"])
        self.send_head(200, "X-Spki-Answer: yes", "Content-Length: 0")


SERVERS: list[type[ServerSite]] = [Nginx, Caddy, HAProxy, Apache]
