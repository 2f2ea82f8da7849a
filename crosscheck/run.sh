#!/usr/bin/env bash
# Carries out random instructions, as many random accesses under random regions of the MPU, and a tenth as many cases of reads and
# writes of system registers and special registers and as many of exceptions, on marm and on QEMU's Cortex-M3, and compares what
# they leave, which were granted, what was read and what handlers find. It needs qemu-system-arm, clang, lld and llvm-objcopy.
# Usage: crosscheck/run.sh [COUNT] [SEED]
set -euo pipefail
for name in qemu-system-arm clang ld.lld llvm-objcopy; do
    command -v "$name" >/dev/null || { echo "crosscheck: $name isn't there" >&2; exit 1; }
done
top=$(cd "$(dirname "${BASH_SOURCE[0]}")/.." && pwd)
marm=$("$top/marm" --proved)
folder=$(mktemp -d)
trap 'rm -rf "$folder"' EXIT
count=${1:-10000}
different=0
for name in instructions regions system; do
    [ "$name" != system ] || count=$(((count + 9) / 10))
    clang --target=thumbv7m-none-eabi -mcpu=cortex-m3 -I "$top/crosscheck" -c -o "$folder/object" "$top/crosscheck/$name.s"
    ld.lld -Ttext=0 -e 0 -o "$folder/linked" "$folder/object"
    llvm-objcopy -O binary -j .text "$folder/linked" "$folder/harness"
    PYTHONPATH="$top/bench" python3 -B "$top/crosscheck/compare_$name.py" "$marm" \
        "$top/crosscheck/board.toml" "$folder/harness" "$folder" "$count" "${2:-2026}" || different=1
done
"$top/crosscheck/exceptions.sh" "${2:-2026}" "$count" || different=1
exit "$different"
