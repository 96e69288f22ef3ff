#!/bin/sh
# Builds what C and Rust link, from proved crates:
#   target/staticlib/libbarkcushion.a       the whole codec
#   target/staticlib/libbarkcushion_path.a  the path part alone
# sh tools/archives.sh, from anywhere. Needs rt. Each archive is that of the static library of its name in crates/.
set -eu
cd "$(dirname "$0")/.."
lib=target/staticlib
mkdir -p "$lib"
log=$(mktemp)
trap 'rm -f "$log"' EXIT
for name in barkcushion barkcushion_path; do
    (cd "crates/$name" && rt lib) >"$log" 2>&1 || { cat "$log" >&2; exit 1; }
    cp "crates/$name/out/lib$name.a" "$lib/"
    ls -l "$lib/lib$name.a"
done
