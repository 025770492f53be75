#!/bin/sh
# Ben copies a folder by rsync over TLS, and rsync knows nothing but his key: he has left Ann's certificate with the daemon, once. Each line is what he
# tries, and what comes of it.
# Usage: examples/haproxy/rsync.sh, in the folder of a site behind HAProxy that has read rsync.cfg, which listens for HTTPS at PORT and for rsync at
# RSYNC_PORT. Needs rsync (Debian: rsync) and spki-cert in the path.
set -eu

# by WHO: copies the folder to tmp/WHO with the key of a person. Fails if that is denied.
by() {
    RSYNC_SSL_CERT=keys/$1.crt RSYNC_SSL_KEY=keys/$1 RSYNC_SSL_CA_CERT=ca/ca.crt RSYNC_SSL_TYPE=openssl \
        rsync-ssl -a "rsync://localhost:$RSYNC_PORT/web/" "tmp/$1" > /dev/null 2>&1
}

spki-cert entry --to keys/ann.pub --propagate --tag '(files read /rsync/)' --comment 'ann, rsync' --acl etc/acl.sexp > /dev/null
kill -HUP "$(cat run/authd.pid)"
spki-cert sign --by keys/ann --to keys/ben.pub --tag '(files read /rsync/)' --days 30 -o rsync-to-ben > /dev/null
# (the daemon takes a moment to read its list again. If it has ended, `kill` fails, and with it this script)
until by ann; do
    kill -0 "$(cat run/authd.pid)"
    sleep 0.1
done
echo 'Ann copies'
by ben || echo 'Ben copies: denied'
spki-cert request --by keys/ben --body rsync-to-ben --curl "https://localhost:$PORT/.well-known/spki-chain" -- --silent --fail --cacert ca/ca.crt
echo "Ben leaves Ann's certificate"
by ben && echo "Ben copies: $(cat tmp/ben/page)"
by eve || echo 'Eve copies: denied'
