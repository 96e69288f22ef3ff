#!/bin/sh
# How fast ours is beside the Rust crate rseip-cip 0.2.1, in one program and one run. Read bench/README.md.
#   sh bench/run.sh PAGES [--build FOLDER] [--archive FILE] [--profile release|thin] [--rounds N] [--calls N] [--only-build]
# PAGES    the folder of the crate's pages: it holds src/epath.rs and the others
# FOLDER   where to build, outside the tree (default: barkcushion-oracle in the temporary folder)
# FILE     our archive (default: target/staticlib/libbarkcushion.a)
# Both profiles are built and run if none is named.
set -eu
here=$(cd "$(dirname "$0")" && pwd)
root=$(dirname "$here")
pages=${1:?the folder of the pages}
shift
build=${TMPDIR:-/tmp}/barkcushion-oracle
archive=$root/target/staticlib/libbarkcushion.a
profiles='release thin'
run=yes
rounds=201
calls=1000000
while [ $# -gt 0 ]; do
    case $1 in
    --build) build=${2:?a folder}; shift ;;
    --archive) archive=${2:?an archive}; shift ;;
    --profile) profiles=${2:?a profile}; shift ;;
    --rounds) rounds=${2:?a number}; shift ;;
    --calls) calls=${2:?a number}; shift ;;
    --only-build) run= ;;
    *) echo "$1?" >&2; exit 2 ;;
    esac
    shift
done
case $build in /*) ;; *) build=$PWD/$build ;; esac
case $archive in /*) ;; *) archive=$PWD/$archive ;; esac
[ -f "$archive" ] || { echo "no $archive: sh tools/archives.sh makes it" >&2; exit 2; }
case $archive in */libbarkcushion.a) ;; *) echo "the archive has to be named libbarkcushion.a" >&2; exit 2 ;; esac

sh "$root/oracle/build.sh" "$pages" "$build"

# With their dates, so that cargo builds again what changed and nothing else.
rm -rf "${build:?}/bench" "$build/rust"
tar -C "$root" --exclude=target --exclude=Cargo.lock -cf - bench rust | tar -C "$build" -xf -
cd "$build/bench"
BARKCUSHION_LIB=$(dirname "$archive")
CARGO_TARGET_DIR=$build/bench-target
export BARKCUSHION_LIB CARGO_TARGET_DIR
for profile in $profiles; do
    cargo build --offline --profile "$profile" --quiet
done
[ "$run" ] || exit 0
echo "The archive asks from outside for: $(nm "$archive" 2>/dev/null | awk '$1 == "U" { u[$2] } $2 == "T" { t[$3] } END { for (f in u) if (!(f in t)) printf "%s ", f }')"
for profile in $profiles; do
    printf '\nprofile %s\n\n' "$profile"
    "$CARGO_TARGET_DIR/$profile/bench" --rounds "$rounds" --calls "$calls"
done
