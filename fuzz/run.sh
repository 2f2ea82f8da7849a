#!/usr/bin/env bash
# Tries images, boards, sessions of debug and gdb, and arguments, made of those of the repository and at random, on the
# proved program. Each answer has a status and a first line that go together, or a trace, a page or an answer of the
# right form; a second run within the limits that docs/ROBUSTNESS.md states writes the same bytes; so does the machine
# Slow; and a session that makes the steps of a run writes its lines. Prints how many cases ended how, and each finding
# with a folder that has its files and its command. The same SEED makes the same cases, from case FIRST on. Runs JOBS
# processes side by side (2).
# Usage: [JOBS=2] [FIRST=0] fuzz/run.sh [SECONDS] [SEED]
set -euo pipefail
top=$(cd "$(dirname "${BASH_SOURCE[0]}")/.." && pwd)
marm=$("$top/marm" --proved)
slow=$top/crates/test_firmware/out/test_firmware
folder=$(mktemp -d)
(cd "$top/crates/test_firmware" && rt run -- --slow data/small.toml 10 data/first.elf) >"$folder/log" 2>&1 ||
    { cat "$folder/log" >&2; exit 1; }
# (its own copies, so that a build beside it changes nothing)
cp "$marm" "$folder/marm"
cp "$slow" "$folder/slow"
status=0
PYTHONPATH="$top/bench:$top/crosscheck" python3 -B "$top/fuzz/fuzz.py" "$folder/marm" "$folder/slow" "$top" "$folder" \
    "${2:-1}" "${1:-600}" "${JOBS:-2}" "${FIRST:-0}" || status=$?
[ "$status" != 0 ] || rm -rf "$folder"
exit "$status"
