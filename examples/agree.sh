#!/usr/bin/env bash
# Two people who agree on the groups that they share. Each has a store with a `sharing` group that the other may see; each says
# there that the group of their notes is joined, and what they said goes over a socket. Then both agree, each writes a note, and
# the notes go over. At last bob leaves the group and agrees again, so that what is written then stays where it is. Each command
# stands behind the name of who types it, and below it what it prints; examples/agree.txt has the whole text. The stores and the
# socket are in a folder of their own, which is taken away at the end.
set -eu
cd "$(dirname "$0")/.."
bsp=$PWD/crates/bsp/out/bsp
.ci/built bsp || exit 1
folder=$(mktemp -d)
trap 'rm -rf "$folder"' EXIT
mkdir "$folder/alice" "$folder/bob"
plan=311b53daff4768334b6081be48ccce56b213b586c99ad602adb2b8706a617194
notes=76ff4980d3b5f63962cee45401b6b1bb92efe989c27de4629aac92b18163e6e0

# What someone types in the folder of their store, and what it prints.
types() {
    echo "$1\$ bsp ${*:2}"
    (cd "$folder/$1" && "$bsp" "${@:2}" 2>&1)
}

# Alice waits at the socket until bob comes. He ends once nothing came for three seconds, and she with him.
meet() {
    rm -f "$folder/meet"
    types alice sync 10000 1000 0 batch 1000 unixlisten:../meet >"$folder/alice.text" &
    waits=$!
    for _ in {1..200}; do
        if [ -S "$folder/meet" ]; then break; fi
        sleep 0.05
    done
    types bob sync 10000 30 0 batch 1000 unix:../meet >"$folder/bob.text"
    wait $waits
    cat "$folder/alice.text" "$folder/bob.text"
}

for who in alice bob; do
    types $who init
    types $who contact
    types $who group sharing 0 s
    types $who share 0 $plan shared
done
types alice say $plan 1 join note 0 d
types bob say $plan 2 join note 0 d
types alice agree 0 $plan
meet
types alice agree 0 $plan
types bob agree 0 $plan
echo

printf 'shall we meet?' | types alice post $notes 3
printf 'at noon' | types bob post $notes 4
meet
types alice inbox
types bob inbox
echo

types bob say $plan 5 leave note 0 d
types bob agree 0 $plan
printf 'by myself' | types bob post $notes 6
meet
types alice inbox
types alice agree 0 $plan
