#!/usr/bin/env bash
# Prints how many host instructions a step of marm takes, as valgrind's callgrind counts them, in loops of 1 to 1,000 KiB
# of mixed code: straight code, loads and stores, literals, branches and calls. Each is the difference of two runs, so
# that the start doesn't count. Appends the numbers to bench/results.csv. Usage: bench/sizes.sh
set -euo pipefail
command -v valgrind >/dev/null || { echo "bench: valgrind isn't there" >&2; exit 1; }
top=$(cd "$(dirname "${BASH_SOURCE[0]}")/.." && pwd)
marm=$("$top/marm" --proved)
folder=$(mktemp -d)
trap 'rm -rf "$folder"' EXIT
python3 -B "$top/bench/sizes.py" "$marm" "$folder"
