#!/bin/sh
# Ben clones a repository over HTTPS, and git knows nothing but his key: he has left Ann's certificate with the daemon, once. Each line is what he
# tries, and what comes of it.
# Usage: examples/nginx/git.sh, in the folder that setup.sh has made, where nginx listens at PORT and the daemon has `signatures` and `chains`.
# Needs git (Debian: git) and spki-cert in the path.
set -eu
site=https://localhost:$PORT
export GIT_CONFIG_GLOBAL=/dev/null GIT_CONFIG_NOSYSTEM=1 GIT_TERMINAL_PROMPT=0

# The repository is files, which `git update-server-info` lists after each push. (On a server it does so as the hook post-update.)
git init -q --bare -b main files/web/site.git
git init -q -b main tmp/work
# pushes TEXT: commits a page with this text, and pushes it into the folder that nginx serves
pushes() {
    (cd tmp/work && echo "$1" > page && git add page && git -c user.name=Ann -c user.email=ann@localhost commit -q -m "$1" &&
        git push -q ../../files/web/site.git main)
    git --git-dir files/web/site.git update-server-info
}

# by WHO COMMAND ..: runs git with the key of a person, and without its messages. Fails if that is denied.
by() {
    who=$1
    shift
    GIT_SSL_CERT=$PWD/keys/$who.crt GIT_SSL_KEY=$PWD/keys/$who GIT_SSL_CAINFO=$PWD/ca/ca.crt git "$@" 2> /dev/null
}

pushes one
spki-cert sign --by keys/ann --to keys/ben.pub --tag '(files read (* prefix /web/site.git/))' --days 30 -o git-to-ben > /dev/null
by ben clone -q "$site/web/site.git" tmp/ben || echo 'Ben clones: denied'
spki-cert request --by keys/ben --body git-to-ben --curl "$site/.well-known/spki-chain" -- --silent --fail --cacert ca/ca.crt
echo "Ben leaves Ann's certificate"
by ben clone -q "$site/web/site.git" tmp/ben && echo "Ben clones: $(cat tmp/ben/page)"
pushes two
by ben -C tmp/ben pull -q && echo "Ben pulls: $(cat tmp/ben/page)"
by eve clone -q "$site/web/site.git" tmp/eve || echo 'Eve clones: denied'
