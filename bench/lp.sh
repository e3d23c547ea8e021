#!/bin/bash
# Solves the linear programs of bench/lp with both tableaux of this repository, with glpsol's exact solver and with QSopt_ex's esolver,
# as far as these are installed, and prints seconds of processor time, the least of five runs, and how many times as long the sparse
# tableau takes as each of the others. Wants the program: (cd crates/bench_lp && rt run), and the packages glpk-utils and qsopt-ex.
#     bench/lp.sh [RUNS] [FILE..]
cd "$(dirname "$0")/.." || exit 1
program=$PWD/crates/bench_lp/out/bench_lp
runs=${1:-5}
shift
[ $# -gt 0 ] || set -- bench/lp/*.lp
TIMEFORMAT='%U'
aside=$(mktemp -d)
trap 'rm -rf "$aside"' EXIT

# The least processor time of some runs, less nothing: reading the file counts for each program.
least() {
    for ((i = 0; i < runs; i++)); do
        { time (cd "$aside" && timeout 600 "$@" >/dev/null 2>&1); } 2>&1
    done | sort -n | head -n 1
}

over() { [ -n "$2" ] && echo "$1 $2" | awk '{ printf "%.2f", ($1 + 0.001) / ($2 + 0.001) }' || echo -; }

echo "problem dense sparse glpsol esolver sparse/glpsol sparse/esolver outcome"
for file in "$@"; do
    path=$(realpath "$file")
    outcome=$("$program" "$path" 1 sparse | cut -d' ' -f2-)
    dense=$(least "$program" "$path" 1 dense)
    sparse=$(least "$program" "$path" 1 sparse)
    glpsol=
    command -v glpsol >/dev/null && glpsol=$(least glpsol --lp "$path" --exact)
    esolver=
    command -v esolver >/dev/null && esolver=$(least esolver "$path")
    echo "$(basename "$file" .lp) $dense $sparse ${glpsol:--} ${esolver:--} $(over "$sparse" "$glpsol") $(over "$sparse" "$esolver") $outcome"
done
