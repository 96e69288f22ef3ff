#!/bin/sh
# Builds the Rust crate rseip-cip 0.2.1 from its pages, unchanged, with the harness around them.
#   sh oracle/build.sh PAGES [FOLDER]
# PAGES   the folder of the crate's pages: it holds src/epath.rs and the others
# FOLDER  where to build, outside the tree (default: barkcushion-oracle in the temporary folder)
# Needs cargo and four Debian packages, which are installed if they are missing. Nothing else comes from the network.
set -eu
here=$(cd "$(dirname "$0")" && pwd)
root=$(dirname "$here")
pages=${1:?the folder of the pages}
out=${2:-${TMPDIR:-/tmp}/barkcushion-oracle}
case $out in /*) ;; *) out=$PWD/$out ;; esac
case $out/ in "$root"/*) echo "$out lies in the tree: build elsewhere" >&2; exit 2 ;; esac
[ -f "$pages/src/epath.rs" ] || { echo "no src/epath.rs in $pages" >&2; exit 2; }

need='librust-bytes-dev librust-smallvec-dev librust-rand-dev librust-byteorder-dev'
# shellcheck disable=SC2086
dpkg -s $need >/dev/null 2>&1 || { apt-get update -qq && apt-get install -y -qq --no-install-recommends $need >/dev/null; } >&2

# What was recorded came of exactly these pages; others may be asked, but not unnoticed.
(cd "$pages" && sha256sum --check --quiet "$here/pages.sha256") >&2 || echo "note: not the pages of the recorded answers" >&2

# A file is copied where it differs, so that cargo builds again what changed and nothing else.
mkdir -p "$out"
list=$out/files
put() { # FROM TO
    printf '%s\n' "$2" >>"$list"
    cmp -s "$1" "$out/$2" || { mkdir -p "$(dirname "$out/$2")" && cp "$1" "$out/$2"; }
}
: >"$list"
for file in $(cd "$here" && find Cargo.toml .cargo harness rseip_core rseip-cip sample.txt sample-answers.txt -type f); do
    put "$here/$file" "$file"
done
for page in $(cd "$pages" && find src -name '*.rs'); do
    [ ! -e "$here/rseip-cip/$page" ] || { echo "$page is in the pages, and oracle/ has a stand-in for it" >&2; exit 2; }
    put "$pages/$page" "rseip-cip/$page"
done
# what an older build left behind
(cd "$out" && find harness rseip_core rseip-cip -type f) | while IFS= read -r file; do
    grep -qxF "$file" "$list" || rm "$out/$file"
done

cd "$out"
cargo build --offline --release --quiet
target/release/oracle <sample.txt | cmp - sample-answers.txt
