#!/usr/bin/env bash
# The tour: two small routines compiled, disassembled, lifted and shown. Prints what expected.txt holds.
# Where this machine's compiler makes other code of them, that is said, and the stored disassembly is taken.
set -euo pipefail
cd "$(dirname "$0")/../../.."
lift=${SLEETGATE_X87LIFT:-crates/x87lift/out/x87lift}
library=${SLEETGATE_LIB:-target/staticlib/libexport.a}
if [ ! -x "$lift" ] || [ ! -f "$library" ]; then
    echo "x87lift or the proved library is not there; build them by: (cd crates/x87lift && rt run -- --version) && bash host/tools/library.sh" >&2
    exit 1
fi
lifting=("$lift")
if [ "$(uname -m)" != x86_64 ]; then
    if ! command -v qemu-x86_64-static >/dev/null; then
        echo "this machine is not x86-64, and what runs code for x86-64 is not there; install it by: bash host/tools/emulator.sh" >&2
        exit 1
    fi
    lifting=(qemu-x86_64-static -L /usr/x86_64-linux-gnu "$lift")
fi
(cd host/tools && cargo build --offline --release -q -p x87rec -p x87show)
bin=${CARGO_TARGET_DIR:-host/tools/target}/release
work=$(mktemp -d)
trap 'rm -r "$work"' EXIT

compile() {
    gcc -m32 "${@:3}" -mfpmath=387 -mno-sse -fno-pic -fno-pie -fno-asynchronous-unwind-tables \
        -nostdlib -static "-Wl,-e,$2" -Wl,--build-id=none -o "$work/$1" "host/tools/tour/$1.c" &&
        (cd "$work" && objdump -d -M intel "$1") > "$work/$1.objdump"
}
compared() {
    if ! compile "$@" 2> "$work/errors"; then
        echo "$1: gcc -m32 or objdump cannot be run here: the stored disassembly is taken" >&2
    elif ! cmp -s "$work/$1.objdump" "host/tools/tour/$1.objdump"; then
        echo "$1: this compiler makes other code: the stored disassembly is taken" >&2
    fi
}
compared quaternion product -O2
compared filter tilt_step -O1 -ffast-math

way() {
    name=$1
    shift
    echo "\$ x87rec $* --names names < $name.objdump | x87lift | x87show --names names"
    "$bin/x87rec" "$@" --names "$work/names" < "host/tools/tour/$name.objdump" | "${lifting[@]}" | "$bin/x87show" --names "$work/names"
}
{
    way quaternion --path
    echo
    way filter --path --take 804902e
    echo
    way filter --path
    echo
    way filter --function tilt_step
} 2> "$work/passed"
cat "$work/passed" >&2
