#!/usr/bin/env bash
# Checks the package: types, tests, examples.
#
#   python/check.sh            all, on the proved program, or on the one that the environment's MARM names
#   python/check.sh --parts    what needs no program: lines, boards, images, transcripts, sweeps, errors, the toy
#
# PYTHON is the interpreter (3.9 or later). mypy, pytest, pytest-xdist and Dask's distributed are used where they are
# installed; a line says so where one isn't.
set -euo pipefail
here=$(cd "$(dirname "${BASH_SOURCE[0]}")" && pwd)
cd "$here"

case ${1:-} in
'')
    MARM=${MARM:-$(../marm --proved)}
    command -v "$MARM" >/dev/null || { echo "python/check.sh: there is no program $MARM" >&2; exit 1; }
    MARM=$(realpath -- "$(command -v "$MARM")")
    ;;
--parts)
    MARM=
    export MARM_PARTS=1  # tests that need a program are skipped
    ;;
*)
    echo "usage: python/check.sh [--parts]" >&2
    exit 2
    ;;
esac
export MARM PYTHONDONTWRITEBYTECODE=1
unset PYTEST_ADDOPTS

# has MODULE: whether the interpreter has it.
has() { "$python" -c "import $1" 2>/dev/null; }

# The interpreter: the first that has pytest, or else python3.
python=${PYTHON:-python3}
[ -n "${PYTHON:-}" ] || has pytest || [ ! -x /usr/bin/python3 ] || python=/usr/bin/python3
"$python" -c 'import sys; sys.exit(sys.version_info < (3, 9))' || { echo "$python is older than 3.9" >&2; exit 1; }
echo "$("$python" --version), program: ${MARM:-none}"

if has mypy; then
    "$python" -m mypy --no-error-summary --cache-dir=/dev/null
    echo "mypy --strict: no error"
elif command -v mypy >/dev/null; then
    mypy --no-error-summary --cache-dir=/dev/null
    echo "mypy --strict: no error"
else
    echo "mypy isn't installed: types aren't checked"
fi

log=$(mktemp)
trap 'rm -f "$log"' EXIT
"$python" -m unittest discover -s . -t . 2>&1 | tee "$log"
if has pytest && has xdist; then
    "$python" -m pytest -q -p no:cacheprovider -n 2 --dist load ${MARM_PARTS:+--ignore=examples/test_first.py}
elif has pytest; then
    "$python" -m pytest -q -p no:cacheprovider tests/test_fixture.py ${MARM:+examples/test_first.py}
    echo "pytest-xdist isn't installed: the suite isn't spread"
else
    echo "pytest isn't installed: the fixture isn't tested"
fi
has distributed || echo "distributed isn't installed: there is no sweep by Dask"
# (CI shows the last line)
sed -nE 's/^Ran ([0-9]+) tests? in .*/\1 unit tests ran, none failed/p' "$log" | tail -n 1
