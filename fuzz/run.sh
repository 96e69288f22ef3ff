#!/bin/sh
# Builds the driver over target/staticlib/libbarkcushion.a and runs it; README.md says what is checked. sh fuzz/run.sh [EXECUTIONS], from anywhere.
# Half of the executions are libFuzzer's, half are drawn by the driver's own generator; all are, where the compiler has no libFuzzer.
# The last line is `N executions, 0 crashes`; the status is 0 only then. From outside: BARK_ARCHIVE another archive, BARK_SEED another seed (1),
# CC another compiler (clang, or cc where there is none), FUZZ_EXTRA more to link, RUN words to stand before a program: an emulator, where CC
# compiles for another processor.
set -eu
here=$(cd "$(dirname "$0")" && pwd)
total=${1:-20000000}
seed=${BARK_SEED:-1}
archive=${BARK_ARCHIVE:-$here/../target/staticlib/libbarkcushion.a}
out=${TMPDIR:-/tmp}/barkcushion-fuzz
cc=${CC:-$(command -v clang || echo cc)}
[ -f "$archive" ] || { echo "no archive $archive: sh tools/archives.sh makes it" >&2; exit 2; }
archive=$(realpath "$archive")
mkdir -p "$out"
cd "$out"
# A function that answers nothing is no question.
sed -n '/ void bark_/d; s/.*[ *]\(bark_[a-z_]*\)(.*/\1/p' "$here"/../include/*.h | sort -u >in-headers
sed -n 's/^    X(\([a-z_]*\),.*/bark_\1/p' "$here/fuzz.c" | sort -u >in-driver
diff in-headers in-driver || { echo 'the headers and the driver have other functions' >&2; exit 2; }
rm -rf corpus crash-* timeout-* oom-* slow-unit-*
mkdir corpus

build() {
    program=$1
    shift
    # shellcheck disable=SC2086
    "$cc" -std=gnu11 -O2 -g -Wall -Wextra -I"$here/../include" "$@" "$here/fuzz.c" ${FUZZ_EXTRA:-} "$archive" -o "$program"
}

checks='-fsanitize=address,undefined -fno-sanitize-recover=all'
echo 'int main(void) { return 0; }' >probe.c
# The address checks keep a part of the address space for themselves, which an emulator may take out of the machine's memory: none under RUN.
# shellcheck disable=SC2086
if [ -n "${RUN:-}" ] || ! "$cc" $checks probe.c -o probe 2>/dev/null || ! ./probe; then
    echo "no address checks in $cc or under RUN: the pages that fault are all there is"
    checks=
fi

# shellcheck disable=SC2086
build drawn $checks -DSTANDALONE
done=0
crashes=0
echo '#include <stddef.h>
int LLVMFuzzerTestOneInput(const unsigned char *s, size_t n);
int LLVMFuzzerTestOneInput(const unsigned char *s, size_t n) { return s && n ? 0 : 0; }' >probe.c
if "$cc" -fsanitize=fuzzer probe.c -o probe 2>/dev/null; then
    # shellcheck disable=SC2086
    build guided $checks -fsanitize=fuzzer -fno-sanitize-coverage=trace-cmp
    ${RUN:-} ./guided -runs=$((total / 2)) -seed="$seed" -max_len=512 -detect_leaks=0 -print_final_stats=1 corpus "$here/seeds" >guided.log 2>&1 ||
        { crashes=1; grep -v '^#' guided.log | head -n 40; }
    done=$(sed -n 's/^stat::number_of_executed_units: //p' guided.log)
    sed -n '/^calls/,$p' guided.log
    echo "libFuzzer: ${done:=0} executions, $(sed -n 's/^stat::average_exec_per_sec: *//p' guided.log) a second"
else
    echo "no libFuzzer in $cc: all executions are drawn"
    ${RUN:-} ./drawn "$here"/seeds/* || crashes=1
fi
rest=$((total > done ? total - done : 0))
${RUN:-} ./drawn $rest "$seed" >drawn.log || true
# shellcheck disable=SC2046
set -- $(tail -n 1 drawn.log)
crashes=$((crashes + ${3:-1}))
echo "$((done + ${1:-0})) executions, $crashes crashes"
[ $crashes = 0 ]
