#!/usr/bin/env bash
# Two people without a network: what each has for the other is written to a file, which somebody carries. Alice's letter has
# what she wrote, bob's answer says that it came and has what he wrote, and her receipt says that this came. The way of a file
# may take a day, so nothing is written twice before two days have gone by. Each command stands behind the name of who types
# it, and below it what it prints; examples/courier.txt has the whole text. All is in a folder of its own, which is taken away
# at the end.
set -eu
cd "$(dirname "$0")/.."
bsp=$PWD/crates/bsp/out/bsp
.ci/built bsp || exit 1
folder=$(mktemp -d)
trap 'rm -rf "$folder"' EXIT
mkdir "$folder/alice" "$folder/bob"
group=76ff4980d3b5f63962cee45401b6b1bb92efe989c27de4629aac92b18163e6e0
day=86400000

# What someone types in the folder of their store, and what it prints.
types() {
    echo "$1\$ bsp ${*:2}"
    (cd "$folder/$1" && "$bsp" "${@:2}" 2>&1)
}

# The same for a session whose link is a file that came and one that goes; and what the one that goes has in it.
carries() {
    echo "$1\$ bsp sync 10 1 0 batch $day std <$2 >$3"
    (cd "$folder/$1" && "$bsp" sync 10 1 0 batch $day std 2>&1 <"$2" >"$3")
    echo "$1\$ bsp records <$3"
    (cd "$folder/$1" && "$bsp" records <"$3")
}

for who in alice bob; do
    types $who init
    types $who contact
    types $who group note 0 d
    types $who share 0 $group shared
done
printf 'shall we meet?' | types alice post $group 1
printf 'at noon' | types bob post $group 2

carries alice /dev/null ../letter
carries bob ../letter ../answer
carries alice ../answer ../receipt
carries bob ../receipt ../nothing

types alice inbox
types bob inbox
