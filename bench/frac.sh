#!/bin/bash
# Times an operation in nanoseconds of processor time: for each operation and size, that of the fractions and that of
# GMP's mpq, both less the time of a run with no rounds. Wants the programs: (cd crates/bench_fractions && rt run) and
#     gcc -O2 bench/mpq.c -o bench/mpq -lgmp
cd "$(dirname "$0")/.." || exit 1
rounds=${1:-2000}
TIMEFORMAT='%U'
timed() { { time "$@" >/dev/null; } 2>&1; }
for size in whole small middle large; do
    for op in plus times add_product over cmp; do
        line="$op $size"
        for program in crates/bench_fractions/out/bench_fractions bench/mpq; do
            idle=$(timed $program 0 $op $size)
            busy=$(timed $program "$rounds" $op $size)
            line="$line $(echo "scale=1; ($busy - $idle) * 1000000000 / ($rounds * 1024)" | bc)"
        done
        echo "$line"
    done
done
