-- /etc/haproxy/rsync.lua: asks spki-authd about a connection, and sets txn.spki_connection to yes if the key of its TLS certificate may GET /rsync/.
-- It can show no certificates of SPKI: those that were left with the daemon count.
-- The name of this site, for a daemon with several lists: rsync does not see the name that the client's TLS asks for, so it must not choose the list.
local SITE = "files.example.org"
core.register_action("spki_connection", { "tcp-req" }, function(txn)
    local answer = core.httpclient():get{ url = "http://spki-authd/", dst = "unix@/run/spki-authd/socket", timeout = 5000, headers = {
        ["x-original-method"] = { "GET" }, ["x-original-uri"] = { "/rsync/" }, ["x-original-host"] = { SITE },
        ["x-real-ip"] = { txn.sf:src() }, ["x-client-cert"] = { txn.sc:base64(txn.sf:ssl_c_der()) } } }
    -- (a yes is status 200 with exactly one X-Spki-Answer, which is `yes`)
    local decisions = answer and answer.headers and answer.headers["x-spki-answer"]
    local is_yes = decisions and answer.status == 200 and decisions[0] == "yes" and decisions[1] == nil
    if is_yes then txn:set_var("txn.spki_connection", "yes") end
end, 0)
