#!/usr/bin/env bash
# Refuses each growth of memory of the proved program in turn, and compares its answer with that of a run in which none
# is refused. Where a growth is refused, the answer is the same, or it is one of those for memory that ran out, with
# nothing on standard output: `marm: io` (5), `marm: board 7 OutOfMemory` (3), `marm: start 11 NoMemory` (3). Of a file
# that is refused the lines below the first may be missing, and of a run its notes. A segment outside of memory is never
# NoMemory. After each such run one without a refusal gives the whole answer. Prints for each case how many growths
# there are and how the runs ended. Ends with 1 where an answer was another, where the growths of a case weren't
# counted, as of a program that is linked statically, and where no case has a growth.
# Usage: fuzz/growths.sh [PROGRAM]
set -euo pipefail
top=$(cd "$(dirname "${BASH_SOURCE[0]}")/.." && pwd)
marm=${1:-$("$top/marm" --proved)}
room=$(mktemp -d)
trap 'rm -rf "$room"' EXIT
cc -O1 -shared -fPIC -o "$room/growths.so" "$top/fuzz/growths.c"
cd "$room"
cp "$top/examples/first.elf" first.elf
cp first.elf outside.elf
printf '\x30' | dd of=outside.elf bs=1 seek=$((0x42)) conv=notrunc status=none
cp "$top/examples/boards/small.toml" small.toml
{
    cat small.toml
    printf '[[event]]\nat = 2\nnmi = true\n[[event]]\nat = 3\nline = 7\nwhat = "pulse"\n'
} >events.toml
sed 's/^ram_size.*/ram_size = 1000/' small.toml >refused.toml
printf 'flash_base =\n' >cut.toml
printf 'step\nregs\nregions\nmem 8 4\nbreak 0xA\nrun 5\nquit\n' >commands

# Runs the program with these arguments, and refuses the growth of this number.
answer() {
    local number=$1
    shift
    status=0
    LD_PRELOAD=$room/growths.so GROWTHS=$room/count REFUSE=$number "$marm" "$@" <commands >out 2>err || status=$?
    first=$(head -n 1 err)
}

wrong=0
total=0
# Tries each growth of a case, which has a name and arguments.
try() {
    local name=$1 number growths refusals=0 same=0 noteless=0
    local -A ends=()
    shift
    rm -f count
    answer 0 "$@"
    if [ ! -s count ]; then
        echo "$name: $marm wrote no count of its growths: growths.so wasn't loaded" >&2
        exit 1
    fi
    cp out whole.out
    cp err whole.err
    local whole=$status line=$first
    growths=$(cat count)
    for ((number = 1; number <= growths; number++)); do
        answer "$number" "$@"
        if is_whole "$whole" whole.err; then
            same=$((same + 1))
        elif is_whole "$whole" <(sed '/^marm: note: /d' whole.err); then
            noteless=$((noteless + 1))
        elif [ ! -s out ] && is_stated "$whole" "$line"; then
            refusals=$((refusals + 1))
            ends[$first]=$((${ends[$first]:-0} + 1))
        else
            echo "$name: growth $number: status $status, $first" >&2
            wrong=$((wrong + 1))
        fi
        answer 0 "$@"
        if ! is_whole "$whole" whole.err; then
            echo "$name: after growth $number: status $status, $first" >&2
            wrong=$((wrong + 1))
        fi
    done
    total=$((total + growths))
    [ "$noteless" = 0 ] || echo "$name: the same answer without its notes $noteless times"
    echo "$name: $growths growths; the same answer $same times, refused $refusals times"
    for first in "${!ends[@]}"; do
        echo "    ${ends[$first]} times $first"
    done
}

# Whether the last answer has this status, the whole standard output, and this standard error.
is_whole() {
    [ "$status" = "$1" ] && cmp -s out whole.out && cmp -s err "$2"
}

# Whether the last answer is one for memory that ran out, or the first line of the file's refusal.
is_stated() {
    case "$status $first" in
    "5 marm: io" | "3 marm: board 7 OutOfMemory") ;;
    "3 marm: start 11 NoMemory") [ "$2" != "marm: start 10 SegmentOutsideMemory" ] ;;
    *) [ "$status" = "$1" ] && [ "$first" = "$2" ] && [ -n "$2" ] ;;
    esac
}

try "a run" run --board small.toml --steps 10 first.elf
try "a run beside events" run --board events.toml --steps 2 first.elf
try "the tasks" tasks --board small.toml --steps 10 first.elf
try "a page" report --board small.toml --steps 10 first.elf
try "a session" debug --board small.toml first.elf
try "a segment outside of memory" run --board small.toml --steps 10 outside.elf
try "a board out of range" run --board refused.toml --steps 10 first.elf
try "a board that is no TOML" run --board cut.toml --steps 10 first.elf
try "a missing image" run --board small.toml --steps 10 missing.elf
try "a wrong option" run --frob
try "help" --help
try "the version" --version
echo "$total growths, $wrong wrong answers"
if [ "$total" = 0 ]; then
    echo "no growth of memory was seen, so none was refused" >&2
    exit 1
fi
[ "$wrong" = 0 ]
