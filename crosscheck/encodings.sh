#!/usr/bin/env bash
# Asks marm, llvm-objdump and arm-none-eabi-objdump what encodings are: each 16-bit one, and random 32-bit ones. It lists where
# they differ, each kind of difference once with what the manual says there, and ends with 1 where a difference isn't known.
# llvm-mc says which it finds UNPREDICTABLE. It needs python3, clang, llvm-mc, llvm-objdump and arm-none-eabi-objdump.
# Usage: crosscheck/encodings.sh [COUNT] [SEED]
set -euo pipefail
for name in clang llvm-mc llvm-objdump arm-none-eabi-objdump; do
    command -v "$name" >/dev/null || { echo "crosscheck: $name isn't there" >&2; exit 1; }
done
top=$(cd "$(dirname "${BASH_SOURCE[0]}")/.." && pwd)
marm=$("$top/marm" --proved)
folder=$(mktemp -d)
trap 'rm -rf "$folder"' EXIT
PYTHONPATH="$top/bench" python3 -B "$top/crosscheck/compare_encodings.py" "$marm" \
    "$folder" "${1:-20000}" "${2:-2026}"
