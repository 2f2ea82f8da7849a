#!/usr/bin/env bash
# Writes by what CI runs the kernels: copies of their images in crates/test_firmware/data, and their rows in its args
# and stdout, after those of `make gate` of examples/firmware; and before all of them the trace of first.elf on Slow,
# which is that of crates/marm, and the debug session over two images of round_robin. The program there takes one board
# for all images, which is that of nested: its script has no effect on a program that enables no line.
set -euo pipefail
here=$(cd "$(dirname "${BASH_SOURCE[0]}")" && pwd)
gate=$here/../../crates/test_firmware
names=(round_robin.elf faults.elf nested.elf atomics.elf mailbox.elf overlap.elf)

if grep -q '^nested.elf$' "$gate/args"; then
    echo "gate.sh: the rows are there; write those of the firmware anew by make -C examples/firmware gate" >&2
    exit 1
fi
cp "$here/../first.elf" "$here/../boards/small.toml" "$here/nested.toml" "$here/task_b.txt" \
    "$here/round_robin_filled.elf" "${names[@]/#/$here/}" "$gate/data"
{
    printf '%s\n' --slow small.toml 10 first.elf --alike task_b.txt round_robin.elf round_robin_filled.elf nested.toml
    sed 1d "$gate/args"
    printf '%s\n' "${names[@]}"
} >"$gate/args.new"
mv "$gate/args.new" "$gate/args"
{
    cat "$gate/../marm/stdout"
    echo "round_robin.elf and round_robin_filled.elf:"
    cat "$here/expected/task_b.txt" "$gate/stdout"
    for name in "${names[@]}"; do
        echo "$name:"
        cat "$here/expected/${name%.elf}.txt"
        echo "stop breakpoint 0"
    done
} >"$gate/stdout.new"
mv "$gate/stdout.new" "$gate/stdout"
