#!/usr/bin/env bash
# Installs from the Debian packages what makes and runs programs for x86-64 on a machine of another kind, each where it is not there. Does nothing on x86-64. Needs the rights to install packages.
set -euo pipefail

[ "$(uname -m)" != x86_64 ] || exit 0
wanted=()
command -v x86_64-linux-gnu-gcc >/dev/null || wanted+=(gcc-x86-64-linux-gnu)
[ -e /usr/x86_64-linux-gnu/lib/libc.a ] || wanted+=(libc6-dev-amd64-cross)
command -v qemu-x86_64-static >/dev/null || wanted+=(qemu-user-static)
if [ "${#wanted[@]}" -gt 0 ]; then
    export DEBIAN_FRONTEND=noninteractive
    apt-get update -q
    apt-get install -q -y --no-install-recommends "${wanted[@]}"
fi
x86_64-linux-gnu-gcc --version | sed -n 1p
qemu-x86_64-static --version | sed -n 1p
