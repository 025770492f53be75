#!/bin/sh
# Prepares the example in an empty folder: a CA and a certificate for the server, keys of three people and a robot, the access list, files,
# and the configuration of nginx and spki-authd with this folder and a port of loopback in place of those of a real server.
# Needs openssl, and spki-cert in the path. Usage: examples/nginx/setup.sh FOLDER PORT
set -eu
here=$(dirname "$(realpath "$0")")
room=$(realpath "$1") port=$2
cd "$room"
umask 022
# (what is made is not said)
exec > /dev/null
mkdir ca etc files files/web files/web/out files/secret keys log run tmp
echo '<p>the web</p>' > files/web/index.html
echo 'main();' > files/web/out/main.js
echo 'a plan' > files/secret/plan.txt

# The server's certificate is signed by a CA, so that clients know the server.
openssl req -x509 -newkey ed25519 -nodes -subj '/CN=CA of the example' -days 30 -keyout ca/ca.key -out ca/ca.crt 2> /dev/null
openssl req -newkey ed25519 -nodes -subj '/CN=localhost' -keyout etc/server.key -out ca/server.csr 2> /dev/null
printf 'subjectAltName=DNS:localhost,IP:127.0.0.1\n' > ca/names
openssl x509 -req -in ca/server.csr -CA ca/ca.crt -CAkey ca/ca.key -CAcreateserial -days 30 -extfile ca/names -out etc/server.crt 2> /dev/null

# Each client has one key for SPKI and TLS. It signs its certificate for TLS itself: only the key counts.
for who in ann ben eve robot; do
    spki-cert key new --no-passphrase --pem "keys/$who" > /dev/null
    openssl req -x509 -new -key "keys/$who" -subj "/CN=$who" -days 30 -out "keys/$who.crt"
done

# Ann leads the web: she reads and writes there, and may let others. A robot writes what it builds. The list ends no right by itself.
spki-cert entry --to keys/ann.pub --propagate --tag '(files (* set read write) (* prefix /web/))' --comment 'ann, the web' --acl etc/acl.sexp
spki-cert entry --to keys/robot.pub --tag '(files write (* prefix /web/out/))' --comment 'robot, builds of the web' --acl etc/acl.sexp
# No certificate has ended. The last line has their number, and the SHA-256 of the lines before it.
echo "end 0 $(sha256sum < /dev/null | cut -c 1-64)" > etc/ended

cp "$here/loopback.conf" etc
for file in files.conf authd.json; do
    sed -e "s#/etc/spki-files#$room/etc#; s#/etc/spki-authd#$room/etc#; s#/run/spki-authd#$room/run#; s#/srv/files#$room/files#" \
        -e "s#/var/log/nginx#$room/log#; s#/var/log/spki-authd#$room/log#; s#listen 443 ssl#listen 127.0.0.1:$port ssl#; s#files.example.org#localhost#" \
        "$here/$file" > "etc/$file"
done
