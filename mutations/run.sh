#!/usr/bin/env bash
# Tries the mutations that CI leaves out: the prover has to refuse a crate with each edit of mutations/CRATE. They are
# tried by `rt must-fail` in a copy of the sources, with links to what `rt check`, `rt lib` or ./marm --prove left in
# crates/*/out, so that no library is proved again whose sources are as they were. Several runs can go side by side,
# each with other crates. With --apply-only it proves nothing, and only checks that each edit still fits its source:
# those of mutations/ and those of crates/*/must-fail. Ends with 1 where an edit isn't refused or doesn't fit.
# Usage: mutations/run.sh [--apply-only] [CRATE..]
set -euo pipefail
top=$(cd "$(dirname "${BASH_SOURCE[0]}")/.." && pwd)
apply_only=
if [ "${1:-}" = --apply-only ]; then
    apply_only=yes
    shift
fi
python3 -B "$top/mutations/applies.py" "$@"
[ -z "$apply_only" ] || exit 0

[ $# -gt 0 ] || set -- $(cd "$top/mutations" && printf '%s\n' */ | tr -d /)
for crate in "$@"; do
    [ -d "$top/mutations/$crate" ] || { echo "mutations: $crate has no folder in mutations/" >&2; exit 2; }
done

# The copy: on the repository's file system, since there are no links to another one.
room=$(mktemp -d)
if [ "$(stat -c %d "$room")" != "$(stat -c %d "$top")" ]; then
    rmdir "$room"
    room=$(mktemp -d "$top/.building.XXXXXX")
fi
trap 'rm -rf "$room"' EXIT
cp "$top/HANDLES" "$top/crates.txt" "$room"
for folder in "$top"/crates/*/; do
    copy=$room/crates/$(basename "$folder")
    mkdir -p "$copy/out"
    for part in src specs proofs; do
        [ ! -d "$folder$part" ] || cp -a "$folder$part" "$copy"
    done
    for part in rlib incremental; do
        [ -d "${folder}out/$part" ] || continue
        cp -al "${folder}out/$part" "$copy/out" 2>/dev/null || cp -a "${folder}out/$part" "$copy/out"
    done
done

all=0
refused=0
for crate in "$@"; do
    cp -a "$top/mutations/$crate" "$room/crates/$crate/must-fail"
    count=$(find "$room/crates/$crate/must-fail" -name '*.edit' | wc -l)
    echo "$crate: $count to try"
    SECONDS=0
    (cd "$room" && rt must-fail "$crate") </dev/null 2>&1 | tee "$room/log" || true
    found=$(grep -c "^rt: must-fail $crate/.*: refused, as it must be" "$room/log" || true)
    echo "$crate: $found refused, $((count - found)) not refused ($((SECONDS / 60)) min $((SECONDS % 60)) s)"
    all=$((all + count))
    refused=$((refused + found))
done
echo "$refused refused, $((all - refused)) not refused"
[ "$refused" -eq "$all" ]
