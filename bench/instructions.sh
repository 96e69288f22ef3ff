#!/bin/sh
# Instructions per call, ours beside the Rust crate rseip-cip 0.2.1, counted by valgrind's callgrind. Read bench/README.md.
#   sh bench/instructions.sh PAGES [--build FOLDER] [--archive FILE] [--profile release|thin]
# The arguments are those of run.sh; the profile is thin if none is named.
set -eu
here=$(cd "$(dirname "$0")" && pwd)
pages=${1:?the folder of the pages}
shift
build=${TMPDIR:-/tmp}/barkcushion-oracle
archive=
profile=thin
while [ $# -gt 0 ]; do
    case $1 in
    --build) build=${2:?a folder}; shift ;;
    --archive) archive=${2:?an archive}; shift ;;
    --profile) profile=${2:?a profile}; shift ;;
    *) echo "$1?" >&2; exit 2 ;;
    esac
    shift
done
command -v valgrind >/dev/null || { echo "valgrind is missing" >&2; exit 2; }
sh "$here/run.sh" "$pages" --build "$build" ${archive:+--archive "$archive"} --profile "$profile" --only-build
case $build in /*) ;; *) build=$PWD/$build ;; esac
bench=$build/bench-target/$profile/bench

counted() { # OP SIDE CALLS
    valgrind --tool=callgrind --callgrind-out-file=/dev/null "$bench" --only "$1" --side "$2" --calls "$3" 2>&1 |
        awk '/Collected *:/ { print $NF; found = 1 } END { if (!found) print "none" }'
}
# What start-up takes is in both runs and goes out of the difference.
per_call() { # OP SIDE
    few=$(counted "$1" "$2" 020)
    many=$(counted "$1" "$2" 120)
    awk -v few="$few" -v many="$many" 'BEGIN { if (few + 0 == 0 || many + 0 == 0) print "?"; else printf "%.0f\n", (many - few) / 100 }'
}

printf 'profile %s; instructions per call\n\n' "$profile"
echo '| operation | bytes | ours | crate | ours/crate | floor |'
echo '|---|---|---|---|---|---|'
"$bench" --list 2>/dev/null | while IFS="$(printf '\t')" read -r op sides bytes name; do
    ours=$(per_call "$op" ours)
    floor=$(per_call "$op" floor)
    case $sides in
    *crate*)
        theirs=$(per_call "$op" crate)
        ratio=$(awk -v a="$ours" -v b="$theirs" 'BEGIN { printf "%.2f", a / b }') ;;
    *) theirs=none ratio= ;;
    esac
    echo "| $name | $bytes | $ours | $theirs | $ratio | $floor |"
done
