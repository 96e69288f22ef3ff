#!/bin/sh
# Compiles the examples, runs three_tags on good and bad replies and frames on streams that are cut in many ways, and compares what each prints
# and its exit status. sh examples/test.sh, from anywhere. The archive is taken from the folder in BARKCUSHION_LIB, else from target/staticlib.
# CC and CFLAGS are used, as in CFLAGS=-fsanitize=address,undefined sh examples/test.sh; RUN, if set, are words to stand before a program: an
# emulator, where CC compiles for another processor.
set -eu
lib=${BARKCUSHION_LIB:-}
[ -z "$lib" ] || lib=$(cd "$lib" && pwd)
cd "$(dirname "$0")/.."
lib=${lib:-target/staticlib}/libbarkcushion.a
[ -f "$lib" ] || { echo "$lib is missing: run sh tools/archives.sh" >&2; exit 1; }
work=$(mktemp -d)
trap 'rm -rf "$work"' EXIT
for name in three_tags frames; do
    # shellcheck disable=SC2086
    ${CC:-cc} -std=c11 -Wall -Wextra -Werror ${CFLAGS:-} -Iinclude "examples/$name.c" "$lib" -o "$work/$name"
done

cases=0
# compared STATUS GOT WHAT: what was printed is what was wanted, and so is the exit status.
compared() {
    diff -u "$work/want" "$work/got" || { echo "FAILED: $3" >&2; exit 1; }
    [ "$2" = "$1" ] || { echo "FAILED: exit status $2, not $1: $3" >&2; exit 1; }
    cases=$((cases + 1))
}

# expect STATUS REPLY..: what it prints behind the request is on standard input. The reply "sample" is the built-in one.
expect() {
    status=$1
    shift
    [ "$1" != sample ] || shift
    {
        echo 'request: 0A 02 20 02 24 01 03 00 08 00 14 00 20 00' \
            '4C 04 91 05 46 6C 6F 77 31 00 01 00' \
            '4C 04 91 06 4C 65 76 65 6C 31 01 00' \
            '4C 05 91 07 53 74 72 6F 6B 65 31 00 01 00'
        cat
    } >"$work/want"
    got=0
    ${RUN:-} "$work/three_tags" "$@" >"$work/got" 2>&1 || got=$?
    compared "$status" "$got" "$*"
}

head='8A 00 00 00 03 00 08 00'
flow='CC 00 00 00 CA 00 00 00 48 42'
level='CC 00 00 00 CA 00 00 00 20 41'
stroke='cc000000ca00000048c1'

expect 1 sample <<'END'
reply: failed, general status 1E
Flow1: 50
Level1: refused 6, WORDS, extended status of two words or more
Stroke1: -12.5
TRIP
END
expect 0 "$head 12 00 1C 00 $flow $level $stroke" <<'END'
Flow1: 50
Level1: 10
Stroke1: -12.5
OK
END
# The same in many words.
# shellcheck disable=SC2086
expect 0 $head 1200 1C00 $flow $level $stroke <<'END'
Flow1: 50
Level1: 10
Stroke1: -12.5
OK
END
# A tag that is not there; one of another type; an item that ends in its header.
expect 1 "$head 0E 00 16 00 CC 00 04 01 05 00 CC 00 00 00 C3 00 01 00 CC 00 00" <<'END'
Flow1: failed, general status 04, extended 0005
Level1: not one REAL
Stroke1: refused 1, SHORT, the input ends too soon
TRIP
END
expect 1 "$head 12 00 1C 00 $flow CE 00 00 00 CA 00 00 00 20 41 $stroke" <<'END'
Flow1: 50
Level1: not a reply to Read Tag, service CE
Stroke1: -12.5
TRIP
END
expect 1 "8A 00 00 00 02 00 06 00 10 00 $flow $level" <<'END'
reply: 2 items for 3 tags
TRIP
END
expect 1 "$head 12 00 12 00 $flow $level $stroke" <<'END'
reply's body: refused 7, OFFSET, an offset breaks the body rule
TRIP
END
expect 1 "8A 00 08 00" <<'END'
reply: failed, general status 08
TRIP
END
expect 1 "CC 00 00 00" <<'END'
reply: not one to a packet, service CC
TRIP
END
expect 1 "8A 00 00" <<'END'
reply: refused 1, SHORT, the input ends too soon
TRIP
END
expect 1 "" <<'END'
reply: refused 1, SHORT, the input ends too soon
TRIP
END
for bad in "8A 0" "8G" "8A 00 0 0" "$(printf '%01026d' 0)"; do
    expect 1 "$bad" <<'END'
reply: not pairs of hex digits, or more than 512 bytes
TRIP
END
done

# frame COMMAND LENGTH BYTE..: a header with this command and data length, both in hex and low byte first, and these bytes of data
frame() {
    for byte in "$1" 00 "$2" "$3" 00 00 00 00 00 00 00 00 42 61 72 6B 00 00 00 00 00 00 00 00; do
        printf '%b' "\\0$(printf %o "0x$byte")"
    done
    shift 3
    for byte; do printf '%b' "\\0$(printf %o "0x$byte")"; done
}

# stream STATUS: the stream in the file of that name, cut in many ways, gives the lines on standard input and this status.
stream() {
    cat >"$work/want"
    for most in 1 2 3 23 24 25 27 52 1000 4096; do
        got=0
        ${RUN:-} "$work/frames" $most <"$work/stream" >"$work/got" || got=$?
        compared "$1" "$got" "at most $most bytes at a time"
    done
    for size in 1 7 24 29 512; do
        got=0
        dd bs=$size 2>"$work/dd" <"$work/stream" | ${RUN:-} "$work/frames" >"$work/got" || got=$?
        compared "$1" "$got" "through a pipe, $size bytes at a time"
    done
}

: >"$work/stream"
stream 0 <<'END'
OK
END
{
    frame 65 04 00 01 00 00 00
    frame 63 00 00
    frame 6F 10 00 00 00 00 00 0A 00 02 00 00 00 00 00 B2 00 00 00
} >"$work/stream"
stream 0 <<'END'
command 0065, 4 bytes of data: 01 00 00 00
command 0063, 0 bytes of data
command 006F, 16 bytes of data: 00 00 00 00 0A 00 02 00 ...
OK
END
# A pipe that pauses in a header.
got=0
{ dd bs=37 count=1 2>"$work/dd"; sleep 1; cat; } <"$work/stream" | ${RUN:-} "$work/frames" >"$work/got" || got=$?
compared 0 "$got" "a pipe that pauses"
# The end is missing, by one byte and by more than the data.
cp "$work/stream" "$work/whole"
dd bs=91 count=1 <"$work/whole" >"$work/stream" 2>"$work/dd"
stream 1 <<'END'
command 0065, 4 bytes of data: 01 00 00 00
command 0063, 0 bytes of data
the stream ends in a frame, behind 39 of its bytes
TRIP
END
dd bs=55 count=1 <"$work/whole" >"$work/stream" 2>"$work/dd"
stream 1 <<'END'
command 0065, 4 bytes of data: 01 00 00 00
command 0063, 0 bytes of data
the stream ends in a frame, behind 3 of its bytes
TRIP
END
# The longest frame that fits, and one that is longer by a byte: nothing behind it is read.
{
    frame 70 E8 07
    dd bs=2024 count=1 </dev/zero 2>"$work/dd"
    frame 63 00 00
} >"$work/stream"
stream 0 <<'END'
command 0070, 2024 bytes of data: 00 00 00 00 00 00 00 00 ...
command 0063, 0 bytes of data
OK
END
{
    frame 63 00 00
    frame 70 E9 07
    dd bs=2025 count=1 </dev/zero 2>"$work/dd"
    frame 63 00 00
} >"$work/stream"
stream 1 <<'END'
command 0063, 0 bytes of data
refused 2, ROOM, a frame too long for the buffer
TRIP
END
echo "$cases passed, 0 failed"
