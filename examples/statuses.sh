#!/usr/bin/env bash
# Runs the program itself at least once for each exit status, and compares the status and the first line that it
# writes: of standard output for 0 and 4, and of standard error for 2, 3 and 5. Compares lines of the file of --state
# too.
# Usage: examples/statuses.sh [PROGRAM], the proved program where it isn't given
set -euo pipefail
top=$(cd "$(dirname "${BASH_SOURCE[0]}")/.." && pwd)
marm=${1:-$("$top/marm" --proved)}
work=$(mktemp -d)
trap 'rm -rf "$work"' EXIT
failed=0

# expect STATUS LINE WORDS..: the first line of standard output, or else of standard error, is LINE.
expect() {
    local status=$1 line=$2 got=0
    shift 2
    "$marm" "$@" >"$work/out" 2>"$work/err" || got=$?
    local first
    # (no pipe: `cat` would end by SIGPIPE)
    IFS= read -r first < <(cat "$work/out" "$work/err") || :
    if [ "$got" != "$status" ] || [ "$first" != "$line" ]; then
        echo "marm $*: status $got and '$first', not $status and '$line'"
        failed=1
    fi
}

# has TEXT: the last message has this text.
has() {
    grep -qF -- "$1" "$work/err" || { echo "the message isn't '$1': $(cat "$work/err")"; failed=1; }
}

# An image without program headers: the machine can't fetch its first instruction.
{
    head -c 44 "$top/examples/first.elf"
    printf '\0\0\0\0\0\0\0\0'
} >"$work/empty.elf"
head -c 33 "$top/examples/first.elf" >"$work/cut.elf"
board=$top/examples/boards/small.toml
{
    cat "$board"
    for at in $(seq 1 65537); do printf '[[event]]\nat = %s\nnmi = true\n' "$at"; done
} >"$work/many.toml"

expect 0 "1 F 00000008 2 p ok off" run --board "$board" --steps 10 "$top/examples/first.elf"
expect 0 "marm 0.3.0" --version
expect 2 "marm: usage" run --board "$board" "$top/examples/first.elf"
expect 3 "marm: load 1 Truncated" run --board "$board" --steps 10 "$work/cut.elf"
expect 3 "marm: board 1 NotToml" run --board "$top/examples/first.elf" --steps 10 "$top/examples/first.elf"
expect 3 "marm: board 4 OutOfRange" run --board "$work/many.toml" --steps 10 "$top/examples/first.elf"
has "a list of at most 65536 tables, each written as [[event]]"
expect 3 "marm: start 10 SegmentOutsideMemory" run --board "${board%small.toml}large.toml" --steps 10 "$top/examples/first.elf"
expect 4 "1 F FFFFFFFE 2 p mpu xn" run --board "$board" --steps 10 "$work/empty.elf"
expect 5 "marm: io" run --board "$board" --steps 10 "$work/missing.elf"
expect 0 "1 F 00000008 2 p ok off" run --board "$board" --steps 10 --state "$work/state" "$top/examples/first.elf"
for line in "R0 00000005" "PC 0000000A" "CLOCK 2"; do
    grep -qx -- "$line" "$work/state" || { echo "the state has no line '$line'"; failed=1; }
done
expect 5 "1 F 00000008 2 p ok off" run --board "$board" --steps 10 --state "$work/no/state" "$top/examples/first.elf"
has "$work/no/state: No such file or directory"
expect 5 "1 F 00000008 2 p ok off" run --board "$board" --steps 10 --dump "0x20000000:16=$work/no/dump" \
    "$top/examples/first.elf"
has "$work/no/dump: No such file or directory"
[ "$failed" = 0 ] && echo "each status is as it is to be"
exit "$failed"
