#!/bin/bash
# values.sh OLD.a NEW.a: instructions a node of x87_check and x87_evaluate in two libraries for x86-64, and of the
# peer, over the ready-made lists. QEMU runs the programs, and its plugin counts. The values of all three are compared.
# PEER_CC names another C compiler for x86-64, of the peer alone.
set -euo pipefail
[ $# = 2 ] || { echo "usage: $0 OLD.a NEW.a" >&2; exit 1; }
old=$(realpath "$1") new=$(realpath "$2")
cd "$(dirname "$0")"
made=$(mktemp -d)
trap 'rm -r "$made"' EXIT

compiler=x86_64-linux-gnu-gcc
lists=$(cd .. && cargo run --quiet --offline --release --bin lists "$made")
cc -O2 -shared -fPIC -o "$made/libcount.so" plugin.c
"${PEER_CC:-$compiler}" -O3 -fPIE -c -o "$made/peer.o" ../peer/src/values.c
"$compiler" -O2 -static -o "$made/old" values.c "$made/peer.o" "$old"
"$compiler" -O2 -static -o "$made/new" values.c "$made/peer.o" "$new"

# Run a program once, and leave its count and what it prints.
run() {
    qemu-x86_64 -plugin "$made/libcount.so" "$made/$1" "$made/$2" "$3" "$4" "$5" 2> "$made/count" > "$made/printed"
    count=$(cat "$made/count") printed=$(cat "$made/printed")
}

# Instructions a node: one call more than one.
a_node() {
    run "$@" 1
    local once=$count
    run "$@" 2
    awk "BEGIN { printf \"%9.2f\", ($count - $once) / ${printed% *} }"
}

printf '%-17s%36s%36s\n' '' check evaluate
printf '%-17s%9s%9s%9s%9s%9s%9s%9s%9s\n' list old new peer new/peer old new peer new/peer
for list in $lists; do
    printf '%-17s' "$list"
    for call in check evaluate; do
        seen=
        for side in "old $list $call library" "new $list $call library" "new $list $call peer"; do
            # shellcheck disable=SC2086
            a_node $side > "$made/a_node"
            cost=$(cat "$made/a_node")
            [ "${seen:=$printed}" = "$printed" ] || { echo "other values: $side" >&2; exit 1; }
            printf '%s' "$cost"
            [ "$side" != "new $list $call library" ] || ours=$cost
        done
        awk "BEGIN { printf \"%9.2f\", $ours / $cost }"
    done
    echo
done
