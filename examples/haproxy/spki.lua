-- /etc/haproxy/spki.lua: asks spki-authd about a request to the site of this name, and sets txn.spki_answer to `yes`, `no` or, for its status 401,
-- `unauthenticated`. Nothing is set if it does not answer within 5 seconds, for a status from 500 on, and for one below that is not 401 and has no
-- X-Spki-Answer.

-- A list of all values of a header, as the client has sent them. nil if there is none. (HAProxy counts them from 0, and a list of Lua from 1)
local function values(headers, name)
    local list = {}
    for place = 0, #(headers[name] or {}) do
        if headers[name] and headers[name][place] then list[#list + 1] = headers[name][place] end
    end
    return #list > 0 and list or nil
end

-- (`sf` and `sc` give an empty text where there is no certificate; `c:base64` of nil would give eight zero octets)
core.register_action("spki", { "http-req" }, function(txn, site)
    local headers = txn.http:req_get_headers()
    local answer = core.httpclient():get{ url = "http://spki-authd/", dst = "unix@/run/spki-authd/socket", timeout = 5000, headers = {
        ["x-original-method"] = { txn.sf:method() }, ["x-original-uri"] = { txn.sf:pathq() }, ["x-request-id"] = { txn.sf:unique_id() },
        ["x-original-host"] = { site }, ["x-real-ip"] = { txn.sf:src() },
        ["x-client-cert"] = { txn.sc:base64(txn.sf:ssl_c_der()) },
        ["authorization"] = values(headers, "authorization"), ["x-spki-sequence"] = values(headers, "x-spki-sequence"),
        ["signature"] = values(headers, "signature"), ["signature-input"] = values(headers, "signature-input"),
        ["x-spki-public-key"] = values(headers, "x-spki-public-key"), ["content-digest"] = values(headers, "content-digest") } }
    -- (a yes is status 200 with exactly one X-Spki-Answer, which is `yes`)
    local decisions = answer and answer.headers and answer.headers["x-spki-answer"]
    local is_yes = decisions and answer.status == 200 and decisions[0] == "yes" and decisions[1] == nil
    if is_yes then
        txn:set_var("txn.spki_answer", "yes")
    elseif answer and answer.status == 401 then
        txn:set_var("txn.spki_answer", "unauthenticated")
    elseif decisions and answer.status < 500 then
        txn:set_var("txn.spki_answer", "no")
    end
end, 1)
