#!/usr/bin/env bash
# Tries inputs that AFL++ makes on the proved program: images, boards and debug sessions, each for a third of the time,
# from those of the repository. The program has no instrumentation, and Debian's AFL++ has no QEMU mode. So AFL++ runs
# afl_target.c, which starts marm, counts the forms of the lines that it writes as what is new, and reports a crash
# where status, first line and output don't go together. Prints how many inputs were tried, and the folder of each
# finding.
# It needs afl-fuzz (Debian: afl++) and gcc. Usage: fuzz/afl.sh [SECONDS] [image|board|session..]
set -euo pipefail
for name in afl-fuzz gcc python3; do
    command -v "$name" >/dev/null || { echo "fuzz: $name isn't there" >&2; exit 1; }
done
top=$(cd "$(dirname "${BASH_SOURCE[0]}")/.." && pwd)
seconds=${1:-900}
shift $(($# > 0))
[ $# -gt 0 ] || set -- image board session
folder=$(mktemp -d)
cp "$("$top/marm" --proved)" "$folder/marm"
gcc -O2 -o "$folder/target" "$top/fuzz/afl_target.c"
image=$top/examples/kernels/round_robin.elf
board=$top/examples/kernels/round_robin.toml
mkdir -p "$folder/seeds/image" "$folder/seeds/board" "$folder/seeds/session"
cp "$top"/examples/kernels/{atomics,faults,nested,round_robin}.elf "$folder/seeds/image"
cp "$top/examples/first.elf" "$folder/seeds/image"
cp "$top"/examples/boards/*.toml "$top"/examples/kernels/*.toml "$folder/seeds/board"
cp "$top/examples/kernels/task_b.txt" "$folder/seeds/session"
printf 'regs\nregions\nstep\nbreak 0x100\nrun 50\nexplain 0x20000000 u w\nmem 0x20000000 16\ntask 10\nquit\n' \
    >"$folder/seeds/session/commands"
# what AFL++ puts into its inputs as a whole: keys, values and commands
printf '"%s"\n' flash_base flash_size ram_size priority_bits lines regions '[[event]]' 'at = ' 'line = ' 'what = ' \
    rise fall pulse 'nmi = true' 'step\x0a' 'run 9\x0a' 'task 9\x0a' 'break 0x2' 'regs\x0a' 'mem 0x2' 'explain 0x2' \
    '[[device]]' '[[ram]]' 'base = ' 'size = ' 'by = ' 'load_poke = ' 'store_value = ' 'enable = ' 'poke = ' \
    'value = ' 'place word 0x2' 'place reg ' 'place special ' 'signal pulse ' 'signal nmi\x0a' 'save 0\x0a' \
    'back 0\x0a' 'watch w 0x2' 'stop faults on\x0a' 'trace none\x0a' 'clear\x0a' 'state\x0a' 'next\x0a' 'help\x0a' \
    'script 1\x0a' 'quit\x0a' >"$folder/words"
export AFL_SKIP_CPUFREQ=1 AFL_NO_UI=1 AFL_NO_AFFINITY=1 AFL_I_DONT_CARE_ABOUT_MISSING_CRASHES=1 AFL_MAP_SIZE=65536
wrong=0
for kind in "$@"; do
    afl-fuzz -i "$folder/seeds/$kind" -o "$folder/$kind" -x "$folder/words" -t 20000 -m none -V "$((seconds / $#))" \
        -- "$folder/target" "$folder/marm" "$kind" "$image" "$board" @@ >"$folder/$kind.log" 2>&1 ||
        { tail -n 20 "$folder/$kind.log" >&2; exit 1; }
    stats=$folder/$kind/default/fuzzer_stats
    figure() { awk -v name="$1" '$1 == name { print $3 }' "$stats"; }
    echo "$kind: $(figure execs_done) inputs, $(figure corpus_found) kept, $(figure saved_crashes) findings," \
        "$(figure saved_hangs) without an end, in $(figure run_time) s"
    wrong=$((wrong + $(figure saved_crashes) + $(figure saved_hangs)))
done
if [ "$wrong" != 0 ]; then
    echo "the inputs are in $folder/*/default/{crashes,hangs}"
    exit 1
fi
rm -rf "$folder"
