#!/bin/sh
# Runs the example: starts nginx and spki-authd on loopback as an ordinary user, with all files in one temporary folder, and asks by curl. Each
# line is who asks for what, and the status; one that begins with # says why. Afterwards all is ended and removed. With `stay` it goes on until it
# is interrupted.
# Needs Debian's nginx, curl, openssl and python3-cryptography, and golang-go unless SPKI_AUTHD names the program. Build the library first:
# crates/spki_c/archive.py. The variable PORT names another port than 8443.
# Usage: examples/nginx/run.sh [stay]
set -eu
here=$(dirname "$(realpath "$0")") top=$(realpath "$(dirname "$0")/../..") PORT=${PORT:-8443}
PATH=$top/apps/spki-cert:$PATH:/usr/sbin
for tool in nginx curl openssl; do
    command -v "$tool" > /dev/null || { echo "$tool is missing (Debian: $tool)" >&2; exit 1; }
done
room=$(mktemp -d)
# clean_up: ends nginx and the daemon, whose process numbers are in run/, and removes the folder.
clean_up() {
    kill $(cat "$room"/run/*.pid) 2> /dev/null || true
    wait
    rm -rf "$room"
}
trap clean_up EXIT
trap 'exit 1' INT TERM

if [ -z "${SPKI_AUTHD:-}" ]; then
    SPKI_AUTHD=$room/spki-authd
    (cd "$top/apps/spki-authd" && go build -o "$SPKI_AUTHD" .)
fi
"$here/setup.sh" "$room" "$PORT"
cd "$room"
# start_daemon: starts spki-authd, and waits until it listens. If it ends, so does this script.
start_daemon() {
    "$SPKI_AUTHD" -config etc/authd.json >> log/authd.log 2>> log/authd-events.log &
    echo $! > run/authd.pid
    until [ -S run/socket ]; do
        kill -0 "$(cat run/authd.pid)" 2> /dev/null || { cat log/authd-events.log >&2; exit 1; }
        sleep 0.1
    done
}
start_daemon
# (nginx that root starts would otherwise serve as another user, who may not read the folder)
if [ "$(id -u)" = 0 ]; then as_user='user root;'; else as_user=''; fi
nginx -p "$room" -c etc/loopback.conf -e log/error.log -g "$as_user" &
nginx=$!
until curl -s -o tmp/answer --cacert ca/ca.crt "https://localhost:$PORT/"; do
    kill -0 "$nginx" 2> /dev/null || { echo "nginx has ended; is port $PORT taken? PORT=9443 $0" >&2; cat log/error.log >&2; exit 1; }
    sleep 0.1
done

. "$here/asking.sh"
echo '# The first check: without a key nothing is granted, and without the daemon nothing to anybody.'
asks nobody GET /web/index.html
kill "$(cat run/authd.pid)"
wait "$(cat run/authd.pid)" || true
asks ann GET /web/index.html
start_daemon
echo '# The list has an entry for Ann: she reads and writes below /web/, and nowhere else. Ben has no entry.'
asks ann GET /web/index.html
asks ann PUT /web/new.txt --data-binary 'a new file'
asks ann GET /web/new.txt
asks ann GET /secret/plan.txt
asks ben GET /web/new.txt
echo '# It has one for a robot, which only writes, below /web/out/.'
asks robot PUT /web/out/main.js --data-binary 'a build'
asks robot GET /web/out/main.js

echo '# Ann signs a certificate that lets Ben read for 30 days. The list does not change. He sends the certificate with each request.'
spki-cert sign --by keys/ann --to keys/ben.pub --tag '(files read (* prefix /web/))' --days 30 --try files read /web/new.txt -o to-ben
asks ben GET /web/new.txt -H "$(shows to-ben)"
echo '# It lets him neither write nor read elsewhere, and Eve gets nothing by it: it is for the key of Ben.'
asks ben PUT /web/new.txt -H "$(shows to-ben)" --data-binary 'by ben'
asks ben GET /secret/plan.txt -H "$(shows to-ben)"
asks eve GET /web/new.txt -H "$(shows to-ben)"

if [ "${1:-}" = stay ]; then
    echo "# nginx is at https://localhost:$PORT until you press Ctrl-C. The logs are in $room/log."
    echo '# To do what docs/OPERATING.md says, enter this in another shell:'
    echo "cd '$room'; PORT=$PORT EXAMPLE='$here' PATH='$top/apps/spki-cert:$(dirname "$SPKI_AUTHD")':\$PATH"
    wait
fi
