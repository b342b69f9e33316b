#!/usr/bin/env bash
# One person and one store: a contact, two groups, a note, and a thread of a message with a reply, printed as a tree. Each command
# stands behind a `$`, and below it what it prints; examples/one_store.txt has the whole text. The store is in a folder of its own,
# which is taken away at the end.
set -eu
cd "$(dirname "$0")/.."
bsp=$PWD/crates/bsp/out/bsp
.ci/built bsp || exit 1
folder=$(mktemp -d)
trap 'rm -rf "$folder"' EXIT
cd "$folder"
group=76ff4980d3b5f63962cee45401b6b1bb92efe989c27de4629aac92b18163e6e0
note=fd59375c90d6a85ac52009eaf354ea6c33eea9f4010a34e11e965af78e460c10
thread=643823e9a30aff464f444740f79260a2363b6453227d987e04a1c9bb5def2d0e
root=5da57a8a0111544f3b9ff3f0911d8afb90bafbbbc8363afb0b1920ae03516b28

# What is typed, and what it prints.
types() {
    echo "\$ bsp $*"
    "$bsp" "$@" 2>&1
}

types init
types contact
types group note 0 d
types share 0 $group shared
printf hello | types post $group 5
types show
types inbox
types body $note
echo
types group thread 0 d
printf '\0who is there?' | types post $thread 6
printf "\\1$(sed 's/../\\x&/g' <<<$root)me" | types post $thread 7
types tree $thread 0 10
types tree $thread 1 1
