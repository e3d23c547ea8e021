#!/bin/sh
# Whether `./tmpl` and `./tmpl_acsl` answer the same in both ways of running: as the proved programs that ./build has made, and as the sources
# as they are. Compares bytes, messages and exit codes of forty-odd command lines: the examples of docs/USING.md, every refusal, files by
# relative and absolute path, in other working folders, with spaces in names, through a pipe, names that begin with `-`, and `--`.
#
#     bench/both_ways.sh        after ./build; takes two minutes more where the sources haven't been run yet
top=$(CDPATH='' cd -- "$(dirname -- "$0")/.." && pwd) || exit 2
for name in tmpl tmpl_acsl; do
    [ -x "$top/out/$name" ] || { echo "both_ways: ./build first" >&2; exit 2; }
done
room=$(mktemp -d) || exit 2
trap 'rm -rf "$room"' EXIT
# A checkout that has the proved programs alone, and one that has none of them.
for way in proved plain; do
    mkdir -p "$room/$way/out"
    ln -s "$top/tmpl" "$top/tmpl_acsl" "$top/tools" "$top/crates" "$top/crates.txt" "$room/$way/"
done
for name in tmpl tmpl_acsl; do
    cp "$top/out/$name" "$top/out/$name.sum" "$room/proved/out/"
done
[ ! -d "$top/out/unproved" ] || cp -r "$top/out/unproved" "$room/plain/out/"
work="$room/work with spaces"
mkdir -p "$work/below"
cp "$top"/examples/* "$work/"
cp "$work/sum.c" "$work/a program.c"
cp "$work/sum.c" "$work/-dash.c"
cp "$work/sum.c" "$work/help"
printf 'x\n-x + y\n' >"$work/sum.rows"
printf '0*x\n' >"$work/zero.rows"
printf 'int main() { int x; x = 3037000500*x; x = 3037000500*x; }' >"$work/wide.c"
printf 'int main() { x = 1; }' >"$work/unknown.c"
printf 'int main() { int x = 07; }' >"$work/number.c"
head -c 70000 /dev/zero | tr '\0' ' ' >"$work/long.c"
printf 'half: x <= \n' >"$work/bad.claims"
printf 'nonsense' >"$work/bad.cert"
count=0 wrong=0

# Runs the words in the folder `in_folder` of the work folder, in both ways.
in_folder=.
compare() {
    program=$1
    shift
    count=$((count + 1))
    for way in proved plain; do
        (cd "$work/$in_folder" && "$room/$way/$program" "$@" <"${given:-/dev/null}") >"$room/$way.out" 2>"$room/$way.err"
        echo $? >"$room/$way.status"
        # The line that says which way it is.
        sed -i '/not proved on this machine; .\/build proves and builds them/d' "$room/$way.err"
    done
    for part in out err status; do
        cmp -s "$room/proved.$part" "$room/plain.$part" || { wrong=$((wrong + 1)); echo "differs in $part: $program $*"; }
    done
    last=$(cat "$room/proved.status")
}

# The same, with the exit code that is expected.
expect() {
    code=$1
    shift
    compare "$@"
    [ "$last" = "$code" ] || { wrong=$((wrong + 1)); echo "status $last, not $code: $*"; }
}

expect 0 tmpl solve sum.c
expect 0 tmpl solve sum.c --domain octagons
expect 0 tmpl solve --domain=zones sum.c --policy first
expect 0 tmpl solve "$work/sum.c" --domain zones
expect 0 tmpl solve "a program.c"
expect 0 tmpl solve -- -dash.c
expect 0 tmpl solve --domain octagons -- "-dash.c"
expect 0 tmpl solve help
expect 0 tmpl solve sum.c --domain rows --rows sum.rows
expect 4 tmpl solve sum.c --domain rows --rows=zero.rows
expect 3 tmpl solve sum.c --domain rows --rows absent.rows
expect 3 tmpl solve absent.c
expect 3 tmpl solve long.c
expect 4 tmpl solve unknown.c
expect 4 tmpl solve number.c
expect 5 tmpl solve wide.c
expect 6 tmpl solve nested.c --improvements 1
expect 2 tmpl solve
expect 2 tmpl solve sum.c --domain triangles
expect 2 tmpl
expect 2 tmpl --help
given="$work/sum.c" expect 0 tmpl solve /dev/stdin
expect 0 tmpl certify sum.c --domain octagons
cp "$room/proved.out" "$work/sum.cert"
expect 0 tmpl check sum.c sum.cert
expect 1 tmpl check nested.c sum.cert
expect 1 tmpl check sum.c bad.cert
expect 0 tmpl upgrade sum.cert
expect 0 tmpl bench --seed 1 --loops 1
expect 0 tmpl prove pair.c pair.claims --domain zones
expect 4 tmpl prove pair.c bad.claims
expect 0 tmpl transitions buffer.tsys
expect 4 tmpl transitions sum.c
expect 0 tmpl equations fair.equ
expect 4 tmpl equations sum.c
# Each command line that the page of the commands shows over a file of examples/.
ln -s "$top/examples" "$work/examples"
grep -o '`[a-z]* examples/[^`]*`' "$top/docs/USING.md" | tr -d '`' | grep -v FILE | sort -u >"$room/shown"
[ -s "$room/shown" ] || { wrong=$((wrong + 1)); echo "docs/USING.md shows no command line"; }
while read -r line; do
    compare tmpl $line
done <"$room/shown"
in_folder=below
expect 0 tmpl solve ../sum.c --domain octagons
expect 0 tmpl_acsl ../sum.c --domain octagons
in_folder=.
expect 0 tmpl_acsl pair.c
expect 2 tmpl_acsl
expect 4 tmpl_acsl unknown.c
echo "$count command lines, $wrong differences"
[ "$wrong" -eq 0 ]
