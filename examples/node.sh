#!/usr/bin/env bash
# Two nodes that stay: each holds its store, keeps a link to the other, and does what is typed in its folder meanwhile, which finds it
# by itself. Alice writes and bob answers; bob's node is killed, alice writes once more, and it begins again; then both have all.
# `watch` prints alice's inbox as it grows, until her node ends.
# Each command stands behind the name of who types it, and below it what it prints; examples/node.txt has the whole text. The
# stores and the socket are in a folder of their own, which is taken away at the end.
set -eu
cd "$(dirname "$0")/.."
bsp=${BSP:-$PWD/crates/bsp/out/bsp}
[ -x "$bsp" ] || .ci/built bsp || exit 1
folder=$(mktemp -d)
declare -A node
trap 'for name in "${!node[@]}"; do kill "${node[$name]}" 2>/dev/null || true; done; rm -rf "$folder"' EXIT
mkdir "$folder/alice" "$folder/bob"
group=76ff4980d3b5f63962cee45401b6b1bb92efe989c27de4629aac92b18163e6e0

# What someone types in the folder of their store, and what it prints.
types() {
    echo "$1\$ bsp ${*:2}"
    (cd "$folder/$1" && "$bsp" "${@:2}" 2>&1)
}

# Begins the node of someone, whose link is this. How its links end is in a file beside the store.
serves() {
    echo "$1\$ bsp serve socket 0 interactive 1000 $2 &"
    (cd "$folder/$1" && exec "$bsp" serve socket 0 interactive 1000 "$2" </dev/null >/dev/null 2>>"../$1.log") &
    node[$1]=$!
}

# Waits until someone has so many messages.
has() {
    for _ in {1..300}; do
        if [ "$(cd "$folder/$1" && "$bsp" inbox | wc -l)" = "$2" ]; then return; fi
        sleep 0.1
    done
    echo "$1 does not come to have $2 messages: $(cat "$folder/$1.log")"
    exit 1
}

for who in alice bob; do
    types $who init
    types $who contact
    types $who group note 0 d
    types $who share 0 $group shared
done
serves alice unixlisten:../meet
serves bob unix:../meet
until [ -S "$folder/alice/bsp.sock" ]; do sleep 0.1; done
(cd "$folder/alice" && exec "$bsp" watch 0 >../watched 2>&1) &
watch=$!
printf 'shall we meet?' | types alice post $group 1
has bob 1
printf 'at noon' | types bob post $group 2
has alice 2
echo "bob's node is killed"
kill -9 "${node[bob]}"
wait "${node[bob]}" 2>/dev/null || true
printf 'where?' | types alice post $group 3
serves bob unix:../meet
has bob 3
printf 'by the river' | types bob post $group 4
has alice 4
types bob inbox
for who in alice bob; do
    types $who quit
    wait "${node[$who]}"
done
wait "$watch"
echo "alice\$ bsp watch 0"
cat "$folder/watched"
