#!/usr/bin/env bash
# Two questions about what the tour's filter stores on the way without a gap, put to z3. Prints what asked.txt holds, but for the values of a counterexample, which are z3's choice.
set -euo pipefail
cd "$(dirname "$0")/../../.."
if [ ! -f "${SLEETGATE_LIB:-target/staticlib/libexport.a}" ]; then
    echo "the proved library is not there; build it by: bash host/tools/library.sh" >&2
    exit 1
fi
if ! command -v z3 >/dev/null; then
    echo "z3 is not there; install it by: bash host/checks/solvers.sh" >&2
    exit 1
fi
(cd host/tools && cargo build --offline --release -q -p x87rec -p x87smt)
bin=${CARGO_TARGET_DIR:-host/tools/target}/release
work=$(mktemp -d)
trap 'rm -r "$work"' EXIT
tour=host/tools/tour
"$bin/x87rec" --path --take 804902e --names "$work/names" < $tour/filter.objdump 2> "$work/passed" | "$bin/x87smt" --statement 12 > "$work/stored.smt2" 2> "$work/said"
cat "$work/passed" "$work/said" >&2
for question in within moves; do
    sed -n 1p "$tour/$question.smt2"
    cat "$work/stored.smt2" "$tour/$question.smt2" | z3 -in
done
