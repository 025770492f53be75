#!/bin/sh
# A build cache of three teams with twelve people and robots: from keys of SSH to answers. Each team has a lead, two developers and a robot.
# The cache's list has the leads. A lead lets the developers of the team read and write, and says who they are; a robot may only write.
# Ann works for two teams, and Ian for none. Needs spki-cert and ssh-keygen in the path. Usage: examples/builds/story.sh FOLDER, which is empty
set -eu
cd "$1"
mkdir certs
for who in wim ann ben web-robot ada eva ian app-robot dan gus joy data-robot; do
    ssh-keygen -q -t ed25519 -N '' -C $who -f $who
done

# team LEAD TEAM DEVELOPER DEVELOPER: adds the lead's entry to the list, and signs by the lead's key: the right of the team's developers, who is one,
# and the right of the robot
team() {
    echo "(entry $(spki-cert key "$1.pub") (propagate) (tag (cache (* set read write) (* prefix /$2/))))" >> entries
    spki-cert sign --by "$1" --named developers --tag "(cache (* set read write) (* prefix /$2/))" --days 90 \
        --try cache read "/$2/main.o" --try cache write "/$2/main.o" -o "certs/$2-developers.sexp"
    for developer in "$3" "$4"; do
        spki-cert name --by "$1" --name developers --to "$developer.pub" --days 90 -o "certs/$2-$developer.sexp"
    done
    spki-cert sign --by "$1" --to "$2-robot.pub" --tag "(cache write (* prefix /$2/out/))" --days 7 -o "certs/$2-robot.sexp"
}
team wim web ann ben
team ada app eva ann
team dan data gus joy
{ echo '(acl'; cat entries; echo ')'; } > acl.sexp
spki-cert check acl.sexp certs
spki-cert show --labels . acl.sexp certs/web-ann.sexp certs/app-ann.sexp

# asks WHO ACTION PATH: asks with all certificates at hand. spki-cert finds those that lead to the key. A no has status 1, and the story goes on.
asks() {
    echo; spki-cert ask --acl acl.sexp --key "$1.pub" --labels . --cert certs -- cache "$2" "$3" || true
}
asks ann write /web/main.o
asks ann write /app/main.o
asks ann read /data/main.o
asks web-robot write /web/out/main.o
asks web-robot read /web/out/main.o
asks ian read /app/main.o
