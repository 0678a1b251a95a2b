#!/usr/bin/env bash
# Proves and builds the static library that C and Rust link, target/staticlib/libexport.a: the calls of crates/export_c.
set -euo pipefail
cd "$(dirname "$0")/../.."
(cd crates/export_c && rt lib)
mkdir -p target/staticlib
cp crates/export_c/out/libexport_c.a target/staticlib/libexport.a
