#!/usr/bin/env bash
# Runs the real gdb with `marm gdb` over the kernels, built with line numbers. Each script of crosscheck/gdb is a list of
# gdb's commands; its lines `#= TEXT` are what gdb has to print, in their order, among other lines.
# It needs gdb-multiarch, arm-none-eabi-gcc and python3, and the proved program. Usage: crosscheck/gdb.sh [SCRIPT..]
set -euo pipefail
for name in gdb-multiarch arm-none-eabi-gcc python3; do
    command -v "$name" >/dev/null || { echo "crosscheck: $name isn't there" >&2; exit 1; }
done
top=$(cd "$(dirname "${BASH_SOURCE[0]}")/.." && pwd)
marm=${MARM:-$("$top/marm" --proved)}
work=$(mktemp -d)
trap 'rm -rf "$work"' EXIT
CC=arm-none-eabi-gcc CFLAGS="-g -Og" "$top/examples/kernels/build.sh" "$work"
arm-none-eabi-gcc -mthumb -mcpu=cortex-m3 -Os -g -ffreestanding -nostdlib -static -Wa,-defsym,PLAIN=1 \
    -I "$top/examples/kernels/runtime" -I "$top/examples/firmware/kit" -T "$top/examples/kernels/link.ld" -Wl,-n \
    "$top/examples/firmware/kit/start.s" "$top/crosscheck/gdb/forever.c" -o "$work/forever.elf"
python3 -B "$top/crosscheck/gdb_scripts.py" "$marm" "$top" "$work" "$@"
