#!/bin/sh
# Runs a program of this repository; proves and builds it first, if need be.
#   sh tools/run.sh PROGRAM [ARG..]            from anywhere. Standard input, output and the status are PROGRAM's; what rt says goes to standard error.
#   sh tools/run.sh --built PROGRAM [ARG..]    runs what stands in crates/PROGRAM/out, whatever the sources say
set -eu
die() { echo "run.sh: $*" >&2; exit 2; }
root=$(cd "$(dirname "$0")/.." && pwd)
check=yes
[ "${1:-}" != --built ] || { check=''; shift; }
name=${1:-} known='' programs=''
for main in "$root"/crates/*/src/main.rt; do
    main=${main%/src/main.rt}
    programs="$programs ${main##*/}"
    [ "$name" != "${main##*/}" ] || known=yes
done
[ -n "$name" ] || die "which program? There are:$programs"
[ -n "$known" ] || die "no program $name. There are:$programs"
shift
command -v rt >/dev/null || die 'rt, the Rattle toolchain, is not in PATH'
crate=$root/crates/$name
program=$crate/out/$name

# Programs are for x86-64. On another processor rt runs them, where it can.
if [ "$(uname -m)" != x86_64 ]; then
    cd "$crate"
    exec rt run -- "$@"
fi

# rt sees by itself what has changed, but takes some seconds for that. So it is asked only where the sources, or the program, are not those of its
# last yes. It builds by a run, here one on no input.
if [ -n "$check" ]; then
    yes=$root/target/run/$name
    sources=$(cd "$root" && { rt version; find crates crates.txt -path '*/out' -prune -o -type f -exec sha256sum {} + | sort; } | sha256sum)
    if [ ! -f "$program" ] || [ ! -f "$yes" ] || [ "$(cat "$yes")" != "$sources $(sha256sum <"$program")" ]; then
        mkdir -p "$root/target/run"
        (cd "$crate" && rt run </dev/null >/dev/null 2>"$yes.log") || { cat "$yes.log" >&2; exit 2; }
        echo "$sources $(sha256sum <"$program")" >"$yes"
    fi
fi
[ -f "$program" ] || die "no $program"
exec "$program" "$@"
