#!/usr/bin/env bash
# Two people, each with a store of their own, meet over a socket. Both add the same group and share it with the other, and
# each writes a note; then alice waits, bob dials, and at the end each has what the other wrote. Each command stands behind
# the name of who types it, and below it what it prints; examples/two_nodes.txt has the whole text. The stores and the socket
# are in a folder of their own, which is taken away at the end.
set -eu
cd "$(dirname "$0")/.."
bsp=$PWD/crates/bsp/out/bsp
.ci/built bsp || exit 1
folder=$(mktemp -d)
trap 'rm -rf "$folder"' EXIT
mkdir "$folder/alice" "$folder/bob"
group=76ff4980d3b5f63962cee45401b6b1bb92efe989c27de4629aac92b18163e6e0

# What someone types in the folder of their store, and what it prints.
types() {
    echo "$1\$ bsp ${*:2}"
    (cd "$folder/$1" && "$bsp" "${@:2}" 2>&1)
}

for who in alice bob; do
    types $who init
    types $who contact
    types $who group note 0 d
    types $who share 0 $group shared
done
printf 'shall we meet?' | types alice post $group 1
printf 'at noon' | types bob post $group 2

# Alice waits at the socket until bob comes. He ends once nothing came for five seconds, and she with him.
types alice sync 10000 1000 0 interactive 1000 unixlisten:../meet >"$folder/alice.text" &
waits=$!
for _ in {1..200}; do
    if [ -S "$folder/meet" ]; then break; fi
    sleep 0.05
done
types bob sync 10000 50 0 interactive 1000 unix:../meet >"$folder/bob.text"
wait $waits
cat "$folder/alice.text" "$folder/bob.text"

types alice inbox
types bob inbox
