#!/usr/bin/env bash
# Does what a newcomer does first, in a clone where nothing is proved, so that the build without proofs answers.
# Compares status, standard output and standard error with what the pages and the files of the repository have, and says
# for each case what it found, with its seconds. It ends with 1 where any differs, and where the first answer takes more
# than two minutes; that is meant for 2 cores with nothing else beside.
# Usage: examples/first_use.sh [CLONE], a folder where nothing is proved; without one it clones the repository.
set -euo pipefail
top=$(cd "$(dirname "${BASH_SOURCE[0]}")/.." && pwd)
work=$(mktemp -d)
trap 'rm -rf "$work"' EXIT
clone=${1:-$work/clone}
[ "$#" -gt 0 ] || git clone -q "$top" "$clone"
cd "$clone"
if ./marm --proved >"$work/program" 2>&1; then
    echo "first_use: the program is proved in $clone" >&2
    exit 2
fi
marm=./marm
trace=$clone/crates/marm/stdout
failed=0
touch "$work/input" "$work/nothing"

# The last line on standard error: that the answer isn't proved, or why there is none.
note() {
    echo "marm: $1; $(printf '%q' "$marm") --prove proves and builds the program"
}
unproved="this answer isn't proved"

# Whether a file has all lines of another in their order. (`expect` calls it.)
# shellcheck disable=SC2317
has_lines() {
    awk 'NR == FNR { wanted[++count] = $0; next } $0 == wanted[at + 1] { at++ }
        END { exit !count || at < count }' "$2" "$1"
}

# expect CASE STATUS COMPARE WORDS..: marm, run with these words on $work/input, ends with the status, standard output
# is $wanted as COMPARE finds, and standard error is $work/err.
wanted=$trace
expect() {
    local name=$1 status=$2 compare=$3 got=0 begun=${EPOCHREALTIME/[.,]/} found=
    shift 3
    "$marm" "$@" <"$work/input" >"$work/got.out" 2>"$work/got.err" || got=$?
    took=$(((${EPOCHREALTIME/[.,]/} - begun) / 1000))
    [ "$got" = "$status" ] || found="status $got, not $status; "
    "$compare" "$work/got.out" "$wanted" >"$work/why" 2>&1 || found+="another standard output; "
    cmp "$work/got.err" "$work/err" >"$work/why" 2>&1 || found+="another standard error: $(cat "$work/got.err"); "
    [ -z "$found" ] || failed=1
    printf '%4d.%03d s  %s: %s\n' $((took / 1000)) $((took % 1000)) "$name" "${found:-as expected, status $status}"
}

# The first command of README's "Try it".
read -ra words < <(grep -o '\./marm run --board [^ ]* --steps [^ ]* examples/first\.elf' README.md)
note "$unproved" >"$work/err"
expect "the README's first command" 0 cmp "${words[@]:1}"
[ "$took" -le 120000 ] || { echo "the first answer took more than two minutes"; failed=1; }
expect "the same once more" 0 cmp "${words[@]:1}"

# A board and an image elsewhere.
odd="$work/a folder of 'odd' \"letters\": \$HOME=100%?*[x];é"
mkdir "$odd"
cp examples/boards/small.toml "$odd/a board.toml"
cp examples/first.elf "$odd/-an image\\.elf"
expect "files elsewhere, by absolute paths" 0 cmp run --board "$odd/a board.toml" --steps 10 "$odd/-an image\\.elf"
marm=$PWD/marm
cd "$odd"
note "$unproved" >"$work/err"
expect "files elsewhere, by relative paths" 0 cmp run --board="a board.toml" --steps 10 -- "-an image\\.elf"

# A refused board, as docs/FILES.md has it, and a file that isn't there.
wanted=$work/nothing
sed 's/^flash_size = .*/flash_size = 1000/' "$clone/examples/boards/small.toml" >"a small.toml"
{
    sed -n '/^    marm: board 4 OutOfRange/,/^$/ s/^    //p' "$clone/docs/FILES.md" | sed 's/^  small/  a small/'
    note "$unproved"
} >"$work/err"
expect "a refused board" 3 cmp run --board "a small.toml" --steps 10 -- "-an image\\.elf"
{
    printf 'marm: io\n  no image: No such file or directory (os error 2)\n'
    note "$unproved"
} >"$work/err"
expect "an image that isn't there" 5 cmp run --board "a board.toml" --steps 10 "no image"
cd "$clone"
marm=./marm

# The help, as a test has it.
wanted=$work/help
table=$(grep -rl --include='*.rt' '^words --help$' crates | head -n 1)
awk '/^words --help$/ { on = 1 } on && sub(/^out ?/, "") { print } on && /^err/ { exit }' "$table" >"$wanted"
{
    echo "marm: usage"
    note "$unproved"
} >"$work/err"
expect "the help" 2 cmp --help

# The session of docs/DEBUGGING.md: its commands on standard input, and the answers that the page shows.
wanted=$work/answers
sed -n '/^\$ .*round_robin.elf$/,/^```$/p; /^quit$/q' docs/DEBUGGING.md >"$work/session"
read -ra words < <(sed -n 's/^\$ \.\/marm //p' "$work/session")
commands='^\(step\|run\|task\|break\|regs\|mem\|regions\|explain\|quit\)\( \|$\)'
grep "$commands" "$work/session" >"$work/input"
grep -v -e "$commands" -e '^\$' -e '^\.\.$' -e '^```$' "$work/session" >"$wanted"
note "$unproved" >"$work/err"
expect "a debug script" 0 has_lines "${words[@]}"

# A trace of 2 MB: 40,000 steps of a program that takes no fewer than 50 bytes for one.
wanted=$work/nothing
note "no answer without proofs, since the output has more than 1 MiB" >"$work/err"
read -ra words <<<"run --board examples/firmware/board.toml --steps 40000 examples/firmware/crc32-loop.elf"
expect "a trace of 2 MB" 125 cmp "${words[@]}"

[ "$failed" = 0 ] && echo "first_use: all as expected"
exit "$failed"
