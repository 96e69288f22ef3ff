#!/bin/sh
# Plants each fault of planted.c in turn and says after how many executions the driver found it. sh fuzz/planted.sh [EXECUTIONS], from anywhere.
# Needs clang and the archive, as run.sh does; CC and RUN are as there, and so are the address checks that CC may not have. The last line is
# `N planted, N found`.
set -eu
here=$(cd "$(dirname "$0")" && pwd)
archive=$(realpath "${BARK_ARCHIVE:-$here/../target/staticlib/libbarkcushion.a}")
out=${TMPDIR:-/tmp}/barkcushion-fuzz/planted
mkdir -p "$out"
cd "$out"
cc=${CC:-clang}
checks='-fsanitize=address,undefined -fno-sanitize-recover=all'
echo 'int main(void) { return 0; }' >probe.c
# The address checks keep a part of the address space for themselves, which an emulator may take out of the machine's memory: none under RUN.
# shellcheck disable=SC2086
if [ -n "${RUN:-}" ] || ! "$cc" $checks probe.c -o probe 2>/dev/null || ! ./probe; then
    echo "no address checks in $cc or under RUN: the pages that fault are all there is"
    checks=
fi
# shellcheck disable=SC2086
"$cc" -std=gnu11 -O2 -I"$here/../include" $checks -DSTANDALONE -c "$here/fuzz.c" -o driver.o
planted=0
found=0
while [ $planted -lt 33 ]; do
    planted=$((planted + 1))
    case $planted in
    [1-9]) wraps=write_message ;;
    1[0-4]) wraps=read_message ;;
    15) wraps='write_forward_close read_forward_close' ;;
    16) wraps=encode_parameters ;;
    17) wraps=read_reply ;;
    18 | 19) wraps=walk_item ;;
    20 | 21) wraps=join_bodies ;;
    22) wraps=read_nested ;;
    23) wraps=write_body ;;
    24) wraps=read_forward_open_reply ;;
    25) wraps=read_replies ;;
    *) wraps=take_scrap ;;
    esac
    flags=
    for name in $wraps; do flags="$flags -Wl,--wrap=bark_$name"; done
    "$cc" -std=gnu11 -O1 -I"$here/../include" -DFAULT="$planted" -c "$here/planted.c" -o fault.o
    # shellcheck disable=SC2086
    "$cc" $checks driver.o fault.o $flags ${FUZZ_EXTRA:-} "$archive" -o planted
    rm -f crash-*
    ${RUN:-} ./planted "${1:-1000000}" 1 >log 2>&1 || true
    first=$(find . -name 'crash-1-*' | sed 's/.*-//' | sort -n | head -n 1)
    if [ -n "$first" ]; then
        found=$((found + 1))
        echo "fault $planted ($wraps): found at execution $((first + 1)): $(sed -n 's/^BROKEN [a-z_]*: //p; s/.*ERROR: AddressSanitizer: \([A-Za-z-]*\).*/\1/p' log | head -n 1)"
    else
        echo "fault $planted ($wraps): not found"
    fi
done
echo "$planted planted, $found found"
[ "$planted" = "$found" ]
