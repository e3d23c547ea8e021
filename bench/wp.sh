#!/bin/bash
# The annotations of programs, judged by Frama-C's WP.
#
#     [DOMAIN=D] bench/wp.sh [PROGRAM ..]
#
# Annotates each program, by default all of examples/, over octagons or the domain that is named, and has WP prove what was written,
# over numbers without limits (its model `nat`). Prints for each program how many goals are proved, and names the others, each with its
# line of the annotated text; ends with the sums. Status 0 only where all goals about loop invariants are proved. It needs Frama-C, Why3
# and Z3, takes cvc5 where that is there (Debian: frama-c-base why3 z3 cvc5), and the built program.
set -u
top=$(cd "$(dirname "$0")/.." && pwd)
annotate=$top/crates/tmpl_acsl/out/tmpl_acsl
domain=${DOMAIN:-octagons}
room=$(mktemp -d)
trap 'rm -rf "$room"' EXIT
[ -x "$annotate" ] || { echo "wp: ./tmpl_acsl isn't built" >&2; exit 9; }
[ $# -gt 0 ] || set -- "$top"/examples/*.c
cp "$top/bench/wp.h" "$room" || exit 9

# Why3 finds Z3 by itself, but knows no cvc5 of today. That one reads what is written for CVC4, but for the name of the logic.
export WHY3CONFIG=$room/why3.conf
why3 config detect -C "$WHY3CONFIG" >"$room/detected" 2>&1 || { cat "$room/detected" >&2; exit 9; }
provers=z3
version=$(cvc5 --version 2>/dev/null | awk 'NR == 1 { print $5 }')
if [ -n "$version" ]; then
    provers=z3,cvc5
    cat >>"$WHY3CONFIG" <<END

[prover]
name = "CVC5"
version = "$version"
command = "cvc5 --force-logic=ALL --tlimit=%t000 --lang=smt2 %f"
driver = "cvc4_17"
shortcut = "cvc5"
interactive = false
END
fi

# Reads what WP prints about the annotated text in the file $1: prints each goal that isn't proved, and last how many goals there are,
# how many are proved, and the same of those about invariants.
judge() {
    awk -v text="$1" '
        function close_goal() {
            if (goal == "") return
            all++; proved += valid
            if (goal ~ /Invariant/) { invariants++; kept += valid }
            if (!valid) { print "  not proved: " goal ", line " line ": " lines[line] " (" answers ")" }
            goal = ""
        }
        BEGIN { while ((getline written < text) > 0) { lines[++count] = written; sub(/^[ \t]+/, "", lines[count]) } }
        /^Goal .* \(file .*, line [0-9]+\)/ {
            close_goal()
            line = $0; sub(/.*, line /, "", line); sub(/\).*/, "", line)
            goal = $0; sub(/^Goal /, "", goal); sub(/ \(file .*/, "", goal)
            valid = 0; answers = ""
        }
        /^Prover .* returns / {
            if (/ returns Valid/) valid = 1
            answer = $0; sub(/^Prover /, "", answer); sub(/ returns/, ":", answer)
            answers = answers (answers == "" ? "" : ", ") answer
        }
        END { close_goal(); print all + 0, proved + 0, invariants + 0, kept + 0 }'
}

all=0 proved=0 invariants=0 kept=0 wrong=0
for program in "$@"; do
    name=$(basename "$program")
    if ! "$annotate" "$program" --domain "$domain" >"$room/$name"; then
        echo "$name: not annotated"
        wrong=$((wrong + 1))
        continue
    fi
    if ! (cd "$room" && frama-c -wp -wp-model Typed+nat -wp-prover "$provers" -wp-timeout 10 -wp-print \
        -cpp-extra-args="-include wp.h" "$name") >"$room/said" 2>&1; then
        echo "$name: not read by Frama-C"
        sed 's/^/  /' "$room/said"
        wrong=$((wrong + 1))
        continue
    fi
    judge "$room/$name" <"$room/said" >"$room/judged"
    read -r goals valid about held <<<"$(tail -n 1 "$room/judged")"
    echo "$name: $valid of $goals goals proved, of which $held of $about about invariants"
    sed '$d' "$room/judged"
    all=$((all + goals)) proved=$((proved + valid)) invariants=$((invariants + about)) kept=$((kept + held))
done
echo "$# programs, $wrong failed; $proved of $all goals proved, of which $kept of $invariants about invariants (provers: Qed,$provers)"
[ $wrong = 0 ] && [ $kept = $invariants ]
