#!/usr/bin/env bash
# Opens the pages of `marm report` in headless Chromium, for the kernels, crc32-loop and a program of newlib where it is
# built. The numbers on each page have to be those that the trace of `marm run` has, and what it says of worlds what the
# lines of `marm tasks` say; the browser has to find no error; no address outside of the page is asked for. It keeps
# pictures of each page in FOLDER, light and dark, 400 and 1,400 pixels wide, to be looked at.
# It needs chromium and python3. Usage: crosscheck/report.sh [FOLDER]
set -euo pipefail
for name in chromium python3; do
    command -v "$name" >/dev/null || { echo "crosscheck: $name isn't there" >&2; exit 1; }
done
top=$(cd "$(dirname "${BASH_SOURCE[0]}")/.." && pwd)
marm=$("$top/marm" --proved)
folder=${1:-$(mktemp -d)}
mkdir -p "$folder"
python3 -B "$top/crosscheck/report_pages.py" "$marm" "$top" "$folder"
