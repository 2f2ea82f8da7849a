#!/usr/bin/env bash
# Prints how many steps and lines a second the proved program makes: on two loops, beside a plain C program that does no
# more than format such lines, with regions, SysTick and a script; and on a real program, beside the same machine without a
# trace. Where qemu-system-arm and qemu-plugin.h are installed, a plugin of QEMU that writes the same lines runs too; set
# QEMU_PLUGIN_HEADERS to the folder of the header where the compiler doesn't look. Then, by bench/parts.sh, what part of a
# step decoding and deciding take. An IMAGE is timed in marm and in QEMU too: one that makes at least so many steps, on the
# board of test_firmware. Appends the figures to bench/results.csv. Usage: bench/run.sh [STEPS] [ROUNDS] [IMAGE..]
set -euo pipefail
top=$(cd "$(dirname "${BASH_SOURCE[0]}")/.." && pwd)
marm=$("$top/marm" --proved)
folder=$(mktemp -d)
trap 'rm -rf "$folder"' EXIT
# The program that runs images without a trace.
(cd "$top/crates/test_firmware" && rt run -- data/small.toml) >"$folder/log" 2>&1 || { cat "$folder/log" >&2; exit 1; }
gcc -O2 -o "$folder/format" "$top/bench/format.c"
plugin=
if command -v qemu-system-arm >"$folder/log" &&
    gcc -O2 -shared -fPIC ${QEMU_PLUGIN_HEADERS:+-I"$QEMU_PLUGIN_HEADERS"} -o "$folder/plugin.so" "$top/bench/plugin.c" 2>"$folder/log"
then
    plugin=$folder/plugin.so
else
    echo "without QEMU: qemu-system-arm or qemu-plugin.h isn't there"
fi
python3 -B "$top/bench/rounds.py" "$marm" "$top/crates/test_firmware/out/test_firmware" "$folder/format" \
    "$plugin" "$top/examples/firmware/board.toml" "$top/examples/firmware/crc32-loop.elf" \
    "$folder" "${1:-3000000}" "${2:-15}" "${@:3}"
"$top/bench/parts.sh" "$((10 * ${1:-3000000}))" "${2:-9}"
