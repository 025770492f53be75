-- /etc/apache2/spki.lua: asks spki-authd before each request. Debian's lua-socket is needed. Whatever goes wrong here is 503 or 500.
local unix = require "socket.unix"
-- The name of the site: each site has its own copy of this file. The daemon is told this name, and never the client's `Host`, which could choose the
-- list of another site.
local SITE = "files.example.org"

-- The line of a header, or an empty text where there is no value. Fails for a value with a control character: a line feed could begin another header.
local function line(name, value)
    if not value or value == "" then return "" end
    if value:find("[%c]") then error("a control character in " .. name) end
    return name .. ": " .. value .. "\r\n"
end

-- Asks the daemon about a request. Returns the status of its answer and X-Spki-Answer, each as a string, or nil if there is none. Fails if
-- the daemon gives no whole answer, if 5 seconds pass without a part of it, or where `line` fails.
local function ask_daemon(r)
    -- (X-Client-Cert takes a certificate as base64: PEM without its first and last line and without white space)
    local certificate = (r:ssl_var_lookup("SSL_CLIENT_CERT") or ""):gsub("%-%-%-%-%-[A-Z ]+%-%-%-%-%-", ""):gsub("%s", "")
    local client = assert(unix())
    client:settimeout(5)
    assert(client:connect("/run/spki-authd/socket"))
    assert(client:send("GET / HTTP/1.0\r\n" .. line("X-Original-Method", r.method) .. line("X-Original-URI", r.unparsed_uri)
        .. line("X-Original-Host", SITE) .. line("X-Real-IP", r.useragent_ip)
        .. line("X-Client-Cert", certificate) .. line("X-Request-Id", r.log_id) .. line("Authorization", r.headers_in["Authorization"])
        .. line("X-Spki-Sequence", r.headers_in["X-Spki-Sequence"]) .. line("Signature", r.headers_in["Signature"])
        .. line("Signature-Input", r.headers_in["Signature-Input"]) .. line("X-Spki-Public-Key", r.headers_in["X-Spki-Public-Key"])
        .. line("Content-Digest", r.headers_in["Content-Digest"])
        .. "\r\n"))
    local answer = assert(client:receive("*a"))
    client:close()
    -- (the lines up to the first empty one)
    local header = assert(answer:match("^(HTTP/1%.[01] .-\r\n)\r\n"), "no whole answer")
    return header:match("^HTTP/1%.[01] (%d%d%d) "), header:match("\r\nX%-Spki%-Answer: (%a+)\r\n")
end

-- The function of two hooks: that of access, and that of fixups, which is the last before a file is served. `Satisfy Any` and subrequests skip the
-- first one, and another module's script may end the second. What the first has granted is not asked again. DECLINED lets the request go on; what
-- else is returned is the status of a denial: 401, 403, 421 for another host, or 503 if the daemon does not decide.
function decide(r)
    if r.hostname ~= SITE then return 421 end
    if r.notes["spki_answer"] == "yes" then return apache2.DECLINED end
    -- (where the call fails, `status` is the error)
    local has_answered, status, answer = pcall(ask_daemon, r)
    if has_answered and status == "200" and answer == "yes" then
        r.notes["spki_answer"] = "yes"
        return apache2.DECLINED
    end
    if has_answered and status and status:sub(1, 1) == "4" then return status == "401" and 401 or 403 end
    r:err("spki-authd: " .. tostring(status))
    return 503
end
