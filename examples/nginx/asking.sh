# What the example and docs/OPERATING.md ask by, in the folder of the example. PORT is where nginx listens.

# asks WHO METHOD PATH [OPTION OF CURL ..]: prints the status, and keeps the answer in tmp/answer. `nobody` has no key.
asks() {
    who=$1 method=$2 path=$3
    shift 3
    [ "$who" = nobody ] || set -- --cert "keys/$who.crt" --key "keys/$who" "$@"
    status=$(curl -s -o tmp/answer -w '%{http_code}' --cacert ca/ca.crt -X "$method" "$@" "https://localhost:$PORT$path")
    echo "$who $method $path: $status"
}

# shows FILE: prints the header by which a client shows the certificates in FILE, for `asks .. -H "$(shows FILE)"`. They are a sequence in transport
# form, which is base64 in braces on one line.
shows() {
    echo "Authorization: SPKI $(spki-cert show --braces "$1")"
}

# reload: has spki-authd read its list and its ended certificates again, waits for the next line of its events, which says so, and prints its event.
# Fails if the daemon does not run. It waits without a limit. On a real server it is `systemctl reload spki-authd`, and the line is in its journal.
reload() {
    lines=$(wc -l < log/authd-events.log)
    kill -HUP "$(cat run/authd.pid)" || return 1
    until [ "$(wc -l < log/authd-events.log)" -gt "$lines" ]; do sleep 0.1; done
    tail -n 1 log/authd-events.log | sed 's/.*"event":"\([^"]*\)".*/\1/'
}
