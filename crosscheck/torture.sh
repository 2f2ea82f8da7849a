#!/usr/bin/env bash
# Runs gcc's execution tests on marm and on QEMU's board mps2-an385, linked with the start kit of examples/firmware, and
# compares the whole traces: each fetch, load and store, and the stop. The tests are those of Debian's package
# gcc-12-source, where it is installed. A level is O0, O1, O2, O3 or Os, or one of them after `confined-`: then the
# program is unprivileged, under the five regions of the kit. It ends with 1 where a difference isn't known
# (torture_known.py).
# It needs arm-none-eabi-gcc with newlib, qemu-system-arm, gcc and qemu-plugin.h of QEMU's sources; QEMU_PLUGIN_HEADERS
# is the folder of the header where the compiler doesn't look. JOBS tests run side by side, and TEST is one test's name.
# Usage: crosscheck/torture.sh [-j JOBS] [-t TEST] [LEVEL..]
set -euo pipefail
for name in qemu-system-arm arm-none-eabi-gcc gcc python3; do
    command -v "$name" >/dev/null || { echo "crosscheck: $name isn't there" >&2; exit 1; }
done
jobs=1
test=
while getopts j:t: option; do
    case $option in
    j) jobs=$OPTARG ;;
    t) test=$OPTARG ;;
    *) exit 2 ;;
    esac
done
shift $((OPTIND - 1))
[ $# -gt 0 ] || set -- O0 O1 O2 O3 Os confined-O2
top=$(cd "$(dirname "${BASH_SOURCE[0]}")/.." && pwd)
marm=$("$top/marm" --proved)
sources=$(find /usr/src/gcc-12 -name 'gcc-12*.tar.xz' 2>/dev/null | head -n 1 || :)
[ -n "$sources" ] || { echo "crosscheck: the sources of gcc aren't there: install gcc-12-source" >&2; exit 1; }
folder=$(mktemp -d)
trap 'rm -rf "$folder"' EXIT
gcc -O2 -shared -fPIC ${QEMU_PLUGIN_HEADERS:+-I"$QEMU_PLUGIN_HEADERS"} -o "$folder/plugin.so" "$top/bench/plugin.c" || {
    echo "crosscheck: no plugin: set QEMU_PLUGIN_HEADERS to the folder of qemu-plugin.h" >&2
    exit 1
}
tar -xJf "$sources" -C "$folder" --wildcards --strip-components 4 '*/gcc/testsuite/gcc.c-torture/execute/*'
python3 -B "$top/crosscheck/compare_torture.py" "$marm" "$top" "$folder" "$jobs" "$test" "$@"
