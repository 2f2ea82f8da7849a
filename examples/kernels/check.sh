#!/usr/bin/env bash
# Runs the kernels on marm, each on its board, and compares what they print with expected/NAME.txt. Then compares what
# `marm tasks` writes about mailbox and overlap, while the mailbox is allowed or not, with expected/NAME_tasks.txt. Last it
# holds the debug session task_b.txt over round_robin and over the image with other bytes in task a's memory:
# expected/task_b.txt has the lines of the answers that differ, and how each run of task b ended.
# Usage: examples/kernels/check.sh [FOLDER], the folder that build.sh was given.
set -euo pipefail
here=$(cd "$(dirname "${BASH_SOURCE[0]}")" && pwd)
top=$(cd "$here/../.." && pwd)
marm=$("$top/marm" --proved)
folder=${1:-$here}
work=$(mktemp -d)
trap 'rm -rf "$work"' EXIT
failed=0
for name in round_robin faults nested atomics mailbox overlap; do
    status=0
    "$marm" run --board "$here/$name.toml" --steps 20000 "$folder/$name.elf" >"$work/trace" || status=$?
    python3 -B "$top/examples/firmware/console.py" <"$work/trace" >"$work/text"
    last=$(tail -n 1 "$work/trace")
    steps=$(tail -n 2 "$work/trace" | head -n 1 | cut -d' ' -f1)
    if [ "$status" = 0 ] && [ "$last" = "stop breakpoint 0" ] && cmp "$work/text" "$here/expected/$name.txt"; then
        echo "$name: as expected, $steps steps"
    else
        echo "$name: NOT AS EXPECTED, $steps steps, $last"
        failed=1
    fi
done

# check_tasks NAME STATUS ARGUMENT..: what `marm tasks` writes, and its status, without the numbers of its lines `world`,
# which depend on the compiler.
check_tasks() {
    local name=$1 wanted=$2 status=0
    shift 2
    "$marm" tasks --board "$here/$name.toml" --steps 20000 --expect-apart "$@" "$folder/$name.elf" >"$work/lines" \
        2>"$work/message" || status=$?
    sed -E 's/^(world [0-9]+) steps .* ([^ ]+)$/\1 \2/' "$work/lines" >"$work/text"
    if [ "$status" = "$wanted" ] && grep -v '^#' "$here/expected/${name}_tasks.txt" | cmp "$work/text" -; then
        echo "$name: tasks as expected"
    else
        echo "$name: tasks NOT AS EXPECTED, status $status"
        failed=1
    fi
}
check_tasks mailbox 1
check_tasks overlap 1 --allow 0x20000200-0x2000021F
if "$marm" tasks --board "$here/mailbox.toml" --steps 20000 --expect-apart --allow 0x20000200-0x2000021F \
    "$folder/mailbox.elf" | grep -q '^apart 1 2$'; then
    echo "mailbox: apart, but for the mailbox"
else
    echo "mailbox: NOT APART"
    failed=1
fi

for name in round_robin round_robin_filled; do
    "$top/marm" debug --board "$here/round_robin.toml" "$folder/$name.elf" <"$here/task_b.txt" >"$work/$name"
done
paste -d '\t' "$work/round_robin" "$work/round_robin_filled" | awk -F '\t' '
    $1 != $2 { print "round_robin.elf: " $1; print "round_robin_filled.elf: " $2 }
    $1 == $2 && /^task / { print $1 }' >"$work/text"
if cmp "$work/text" "$here/expected/task_b.txt"; then
    echo "task_b: as expected"
else
    echo "task_b: NOT AS EXPECTED"
    failed=1
fi
exit "$failed"
