#!/bin/bash
# Functions of C against C itself, as bench/gcc.py says.
#
#     bench/gcc.sh [RUNS]
set -eu
command -v gcc >/dev/null || { echo "gcc: it isn't there" >&2; exit 9; }
exec python3 "$(dirname "$0")/gcc.py" "$@"
