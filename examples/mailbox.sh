#!/usr/bin/env bash
# Two people who are never online together and only exchange files: of the files that they write one is lost, one is read twice,
# and two come in the wrong order. In the end both have the same messages. What had no answer is written again, here at once: the
# way of a file is said to take a millisecond (of files that are carried say how long it takes, as examples/courier.sh does). Each
# command stands behind the name of who types it, and below it what it prints; examples/mailbox.txt has the whole text. All is in
# a folder of its own, which is taken away at the end.
set -eu
cd "$(dirname "$0")/.."
bsp=$PWD/crates/bsp/out/bsp
.ci/built bsp || exit 1
folder=$(mktemp -d)
trap 'rm -rf "$folder"' EXIT
mkdir "$folder/alice" "$folder/bob"
group=76ff4980d3b5f63962cee45401b6b1bb92efe989c27de4629aac92b18163e6e0

# What someone types in the folder of their store, and what it prints.
types() {
    echo "$1\$ bsp ${*:2}"
    (cd "$folder/$1" && "$bsp" "${@:2}" 2>&1)
}

# The same of a file that is written, once what was written before may be written again; and what it has in it.
writes() {
    sleep 0.2
    echo "$1\$ bsp mailbox out 0 1 100 >$2"
    (cd "$folder/$1" && "$bsp" mailbox out 0 1 100 2>&1 >"$2")
    echo "$1\$ bsp records <$2"
    (cd "$folder/$1" && "$bsp" records <"$2")
}

# The same of a file that is read.
reads() {
    echo "$1\$ bsp mailbox in 0 <$2"
    (cd "$folder/$1" && "$bsp" mailbox in 0 2>&1 <"$2")
}

for who in alice bob; do
    types $who init
    types $who contact
    types $who group note 0 d
    types $who share 0 $group shared
done
printf 'shall we meet?' | types alice post $group 1
writes alice ../lost
rm "$folder/lost"
printf 'at noon?' | types alice post $group 2
writes alice ../letter

reads bob ../letter
reads bob ../letter
printf 'yes' | types bob post $group 3
writes bob ../first
printf 'by the bridge' | types bob post $group 4
writes bob ../second

reads alice ../second
reads alice ../first
writes alice ../receipt
reads bob ../receipt
writes bob ../nothing

types alice inbox
types bob inbox
