#!/bin/sh
# The Rust as judge: asks the crate and our program `answers` the same, and compares.
#   sh oracle/compare.sh PAGES [--seed S] [--count N] [--answers PROGRAM] [--build FOLDER] [--refused]
#   sh oracle/compare.sh PAGES --record [FOLDER]      asks for the cases in FOLDER/stdin and writes FOLDER/stdout (default: crates/answers)
#   sh oracle/compare.sh PAGES --recorded [FOLDER]    asks again for what stands there, and compares
#   sh oracle/compare.sh PAGES --choose OP N          prints N made cases of an operation that are not recorded there
#   sh oracle/compare.sh PAGES --cards                prints the crate's answers to document 01's cards: crates/cards/stdin
# --refused shows what the crate did with the replies and bodies that we refuse.
# The last line is `N compared, 0 differ`. Read oracle/README.md.
set -eu
here=$(cd "$(dirname "$0")" && pwd)
root=$(dirname "$here")
pages=${1:?the folder of the pages}
shift
build=${TMPDIR:-/tmp}/barkcushion-oracle
answers=
mode=compare
op=
many=
folder=$root/crates/answers
refused=
seed=1
count=1000000
while [ $# -gt 0 ]; do
    case $1 in
    --record | --recorded)
        mode=$1
        case ${2:-} in '' | --*) ;; *) folder=$2; shift ;; esac ;;
    --choose) mode=$1; op=${2:?an operation}; many=${3:?a number}; shift 2 ;;
    --cards) mode=$1 ;;
    --seed) seed=${2:?a number}; shift ;;
    --count) count=${2:?a number}; shift ;;
    --answers) answers=${2:?a program}; shift ;;
    --build) build=${2:?a folder}; shift ;;
    --refused) refused=$1 ;;
    *) echo "$1?" >&2; exit 2 ;;
    esac
    shift
done
sh "$here/build.sh" "$pages" "$build"
set -- "$build/target/release/compare" "$folder" --seed "$seed" --count "$count" ${refused:+"$refused"}
case $mode in
--cards) exec "$build/target/release/cards" --record ;;
--choose) exec "$@" --choose "$op" "$many" ;;
--record*) exec "$@" "$mode" ;;
esac
if [ -n "$answers" ]; then
    [ -f "$answers" ] || { echo "no program $answers" >&2; exit 2; }
    exec "$@" --answers "$answers"
fi
# proved and built now; then what was built is asked to the end, whatever is changed in the tree meanwhile
sh "$root/tools/run.sh" answers </dev/null
exec "$@" --answers sh "$root/tools/run.sh" --built answers
