#!/usr/bin/env bash
# Measures what the proved program needs: the least stack at which a run, a session and the deepest board work, the most
# memory that is resident, and the processor time of a start, of a board and of an image. Appends the figures to
# bench/results.csv; docs/check.py --fix puts them into docs/ROBUSTNESS.md. It needs /usr/bin/time (Debian: time).
# Usage: fuzz/needs.sh
set -euo pipefail
[ -x /usr/bin/time ] || { echo "fuzz: /usr/bin/time isn't there" >&2; exit 1; }
top=$(cd "$(dirname "${BASH_SOURCE[0]}")/.." && pwd)
marm=$("$top/marm" --proved)
folder=$(mktemp -d)
trap 'rm -rf "$folder"' EXIT
PYTHONPATH="$top/bench" python3 -B "$top/fuzz/needs.py" "$marm" "$top" "$folder"
