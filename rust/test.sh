#!/bin/sh
# Builds the crate and runs all its tests. sh rust/test.sh, from anywhere; what follows goes to cargo: sh rust/test.sh -j1.
# The archive is taken from the folder in BARKCUSHION_LIB (a full path), else from target/staticlib, and built there if
# it is missing.
set -eu
cd "$(dirname "$0")"
if [ -z "${BARKCUSHION_LIB:-}" ]; then
    unset BARKCUSHION_LIB
    [ -f ../target/staticlib/libbarkcushion.a ] || sh ../tools/archives.sh
fi
exec cargo test --offline "$@"
