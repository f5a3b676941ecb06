#!/bin/sh
# Proves the node and writes it as the static library that C and Rust link, target/staticlib/libcapi.a: the crate capi_c exports the calls of capi.
set -eu
cd "$(dirname "$0")/.."
(cd crates/capi_c && rt lib >/dev/null)
mkdir -p target/staticlib
cp crates/capi_c/out/libcapi_c.a target/staticlib/libcapi.a
