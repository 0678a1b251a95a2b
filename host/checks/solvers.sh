#!/usr/bin/env bash
# Installs z3 and cvc5 from the Debian packages, each where it is not there. Needs the rights to install packages.
set -euo pipefail

wanted=()
for solver in z3 cvc5; do
    command -v "$solver" >/dev/null || wanted+=("$solver")
done
if [ "${#wanted[@]}" -gt 0 ]; then
    export DEBIAN_FRONTEND=noninteractive
    apt-get update -q
    apt-get install -q -y --no-install-recommends "${wanted[@]}"
fi
z3 --version
cvc5 --version | sed -n 1p
