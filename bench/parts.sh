#!/usr/bin/env bash
# Prints how many decodes a second the proved decoder makes: over random halfwords, over a program that clang compiled
# for ARMv7-M (left out where clang or llvm-objdump isn't there), and over the loops and the real program of bench/run.sh,
# with what part of their steps it takes where meanings are kept, as they are there; and the same of the decisions of that
# program's accesses, with the MPU off and with eight regions. Appends the figures to bench/results.csv.
# Usage: bench/parts.sh [COUNT] [ROUNDS]
set -euo pipefail
top=$(cd "$(dirname "${BASH_SOURCE[0]}")/.." && pwd)
marm=$("$top/marm" --proved)
folder=$(mktemp -d)
trap 'rm -rf "$folder"' EXIT
# The program that is timed stands in a repository of its own, on copies of the crates and of what was proved of them.
mkdir -p "$folder/top/crates/rate/src"
for name in instruction_set devices platform reference regs data_processing micro_data micro trace mpu \
    encodings decode_short decode_long decode; do
    cp -r "$top/crates/$name" "$folder/top/crates/$name"
    grep "^$name:" "$top/crates.txt" >>"$folder/top/crates.txt"
done
echo "rate: mpu decode" >>"$folder/top/crates.txt"
cp "$top/bench/rate.rt.in" "$folder/top/crates/rate/src/main.rt"
head -c 4 /dev/zero >"$folder/four"
(cd "$folder/top/crates/rate" && rt run -- decode "$folder/four" 1) >"$folder/log" 2>&1 || { cat "$folder/log" >&2; exit 1; }
clang --target=thumbv7m-none-eabi -mcpu=cortex-m3 -O2 -ffreestanding -c -o "$folder/mix.o" "$top/bench/mix.c" &&
    llvm-objdump -d "$folder/mix.o" >"$folder/listing" || : >"$folder/listing"
python3 -B "$top/bench/parts.py" "$folder/top/crates/rate/out/rate" "$marm" \
    "$top/examples/boards/small.toml" "$top/examples/firmware/board.toml" "$top/examples/firmware/crc32-loop.elf" \
    "$folder/listing" "$folder" "${1:-30000000}" "${2:-9}"
