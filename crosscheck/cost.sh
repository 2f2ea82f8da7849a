#!/usr/bin/env bash
# Prints how many host instructions a step of marm takes, as valgrind's callgrind counts them: of the loops of
# bench/run.sh and of a real program, on boards without a script, with one, eight and sixteen regions, with SysTick and a
# handler each 1,000 ticks, and on boards with 65,536 events and 240 lines. A number is the difference of two runs, over
# the difference of their steps, so that starting the program doesn't count. Then of what kernels do (a turn of a loop), and
# of a step of a kernel, from its start, by each command. Appends the numbers to bench/results.csv. The status is 1 where
# one is above its ceiling in crosscheck/ceilings.csv.
# MARM_LUA may name an image of Lua, with its board beside it (IMAGE.toml), whose step is counted too.
# Usage: crosscheck/cost.sh [STEPS [kernels]]
set -euo pipefail
command -v valgrind >/dev/null || { echo "crosscheck: valgrind isn't there" >&2; exit 1; }
top=$(cd "$(dirname "${BASH_SOURCE[0]}")/.." && pwd)
marm=$("$top/marm" --proved)
folder=$(mktemp -d)
trap 'rm -rf "$folder"' EXIT
status=0
if [ "${2:-}" != kernels ]; then
    PYTHONPATH="$top/bench" python3 -B "$top/crosscheck/cost.py" "$marm" \
        "$top/examples/firmware/crc32-loop.elf" "$folder" "${1:-200000}" || status=1
fi
PYTHONPATH="$top/bench" python3 -B "$top/crosscheck/cost_kernels.py" "$marm" "$top" "$folder" "${1:-200000}" || status=1
exit $status
