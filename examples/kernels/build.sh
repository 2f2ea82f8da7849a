#!/usr/bin/env bash
# Builds the kernels for a Cortex-M3. Usage: examples/kernels/build.sh [FOLDER]
#
# CC is clang (with ld.lld) where it isn't set, or arm-none-eabi-gcc; CFLAGS has further options, as -g for a debugger.
# FOLDER is this one where it isn't given, whose files gate.sh copies for CI. Those are clang's, without CFLAGS.
set -euo pipefail
here=$(cd "$(dirname "${BASH_SOURCE[0]}")" && pwd)
folder=$(realpath "${1:-$here}")
compiler=${CC:-clang}
work=$(mktemp -d)
trap 'rm -rf "$work"' EXIT

flags=(-mthumb -mcpu=cortex-m3 -mfloat-abi=soft -Os -std=c11 -Wall -Wextra -ffreestanding -ffunction-sections
    -fno-unwind-tables -fno-asynchronous-unwind-tables -fno-jump-tables -I "$here/runtime" -I "$here/../firmware/kit")
case $compiler in
*clang*) flags+=(--target=thumbv7m-none-eabi -fuse-ld=lld -Qunused-arguments) ;;
*) flags+=(-fno-tree-loop-distribute-patterns) ;;
esac
read -ra more <<<"${CFLAGS:-}"
flags+=("${more[@]}")

# The start code of the kit, for a program without a C library.
"$compiler" "${flags[@]}" -Wa,-defsym,PLAIN=1 -c "$here/../firmware/kit/start.s" -o "$work/start.o"

# build NAME SOURCE..: a kernel of these sources, the start code and the runtime.
build() {
    local name=$1 source objects=("$work/start.o")
    shift
    for source in "$@" runtime/console.c; do
        "$compiler" "${flags[@]}" -c "$here/$source" -o "$work/$(basename "${source%.*}").$name.${source##*.}.o"
        objects+=("$work/$(basename "${source%.*}").$name.${source##*.}.o")
    done
    "$compiler" "${flags[@]}" "${objects[@]}" -nostdlib -static -T "$here/link.ld" -Wl,-n -o "$folder/$name.elf"
}

build round_robin round_robin.s round_robin.c task_a.c task_b.c task_c.c
# the same with other bytes in task a's memory
python3 -B "$here/fill.py" "$folder/round_robin.elf" "$folder/round_robin_filled.elf"
build faults faults.s faults.c
build nested nested.c
build atomics atomics.c
build mailbox round_robin.s mailbox.c writer.c reader.c
build overlap round_robin.s overlap.c writer.c reader.c
