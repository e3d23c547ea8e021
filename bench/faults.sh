#!/bin/bash
# The real program under faults: refused memory, failing and short reads and writes, and what systems do to a program's files.
#
#     bench/faults.sh [STEP]
#
# Each run has to end by itself with the documented status, and with exactly the right bytes or a prefix of them; the summary counts the runs of each kind and
# names each wrong one. Status 0 only where there was none. STEP, 1 if left out, tries every STEPth allocation alone. It needs a C compiler and the built program.
set -u
top=$(cd "$(dirname "$0")/.." && pwd)
program=$top/crates/tmpl/out/tmpl
step=${1:-1}
room=$(mktemp -d)
trap 'rm -rf "$room"' EXIT
[ -x "$program" ] || { echo "faults: ./tmpl isn't built" >&2; exit 9; }
cc -O2 -shared -fPIC -o "$room/faults.so" "$top/bench/faults.c" || exit 9
cd "$room" || exit 9

echo 'int main() { int x = 0; while (x < 100) { x = x + 1; } }' >loop
echo 'int main() { int x; assume(x <= 7); }' >below
echo 'int main() { int x = 0; while (nondet()) { assume(3*x <= 10); x = x + 1; } }' >thirds
printf '%s' '{"bounds":[["+inf","+inf"],["7","+inf"]],"format":1,"rows":[["1"],["-1"]],"steps":[{"items":[{"edge":0,"low":{"free":["7"],"start":["0"]},"to":"7","unknown":[1,0]}],"kind":"plain"},{"items":[{"direction":{"free":["-1"],"start":["0"]},"edge":0,"low":{"free":["0"],"start":["0"]},"rate":"1","unknown":[1,1]}],"kind":"ray"}],"uppers":[{"guards":["1"],"kind":"bound","rows":["0","0"]}]}' >cert
echo 'x + 2*y' >rows
echo 'int main() { int x = 1, y = 2; }' >pair
wrong=0
tried=0

# Counts a run, and says what was wrong with it.
judge() {
    tried=$((tried + 1))
    [ "$1" = ok ] || { wrong=$((wrong + 1)); echo "WRONG: $2" >&2; }
}

# Whether the file $1 holds the first bytes of the file $2.
is_prefix() { cmp -s -n "$(wc -c <"$1")" "$1" "$2"; }

# One run with the words $4.. under the $2th fault of the kind $1, where the statuses $3 (a pattern) are documented: 0 goes with exactly the right bytes and no message, others with a
# prefix and at most one line of message. A run has ten seconds.
try() {
    local kind=$1 at=$2 fine=$3 verdict=ok
    shift 3
    FAULT_KIND=$kind FAULT_AT=$at LD_PRELOAD=$room/faults.so timeout 10 "$program" "$@" >got 2>said </dev/null
    local status=$?
    if [ $status = 0 ]; then
        cmp -s got right || verdict=bad
        [ ! -s said ] || verdict=bad
    else
        [[ $status == $fine ]] || verdict=bad
        is_prefix got right || verdict=bad
        [ "$(wc -l <said)" -le 1 ] || verdict=bad
    fi
    judge $verdict "$* with $kind $at: status $status"
}

# All faults of the command with these words: each allocation, read and write in turn.
command_under_faults() {
    FAULT_COUNTS=$room/counts LD_PRELOAD=$room/faults.so "$program" "$@" >right 2>said || { judge bad "$* with no fault"; return; }
    read -r allocations reads writes <counts
    local before=$tried at kind
    for ((at = 1; at <= allocations; at += step)); do try alloc "$at" 7 "$@"; done
    for ((at = 1; at <= reads; at++)); do
        try read "$at" 3 "$@"
        for kind in short-read again-read; do try $kind "$at" '[3]' "$@"; done
    done
    for ((at = 1; at <= writes; at++)); do
        try write "$at" 8 "$@"
        for kind in short-write again-write; do try $kind "$at" '[8]' "$@"; done
    done
    echo "$*: $allocations allocations (every ${step}th tried), $reads reads, $writes writes: $((tried - before)) runs"
}

command_under_faults solve loop
command_under_faults check below cert
command_under_faults certify thirds
command_under_faults solve pair --domain rows --rows rows
command_under_faults solve loop --domain octagons --policy first
command_under_faults bench --seed 1 --loops 2

# One run as a system may spoil it: the name of the case, the status that is documented, the words of the message or nothing, and the shell's line, where $program is the program.
spoil() {
    local name=$1 fine=$2 message=$3
    timeout 60 bash -c "$4" >got 2>said </dev/null
    local status=$? verdict=ok
    [[ $status == $fine ]] || verdict=bad
    [ -z "$message" ] || [ "$(cat said)" = "$message" ] || verdict=bad
    [ "$(wc -l <said)" -le 1 ] || verdict=bad
    judge $verdict "$name: status $status, message '$(head -c 200 said)'"
    echo "$name: status $status, $(head -n 1 said)"
}
export program
"$program" solve loop >right
mkdir folder
mkfifo pipe
spoil 'output is a full device' 8 'cannot write' '"$program" solve loop >/dev/full'
spoil 'output is closed' 8 'cannot write' '"$program" solve loop >&-'
spoil 'the reader of a pipe has gone' 8 'cannot write' '(sleep 0.2; "$program" solve loop; echo $? >code) | true; sleep 0.5; exit $(cat code)'
spoil 'output and messages are closed' 8 '' '"$program" solve loop >&- 2>&-'
spoil 'messages are a full device' 4 '' '"$program" solve rows 2>/dev/full'
# (the message goes through a pipe, since the limit would hold for its file, too; by default the system ends a program at this limit with a signal)
spoil 'a file at its size limit' 8 'cannot write' 'code=$( (trap "" XFSZ; ulimit -f 0; "$program" solve loop 2>&3 >limited; echo $?) 3> >(cat >&2) ); sleep 0.2; exit $code'
spoil 'the program is absent' 3 'cannot read the program' '"$program" solve nothing'
spoil 'the program is a folder' 3 'cannot read the program' '"$program" solve folder'
spoil 'a part of the name is a file' 3 'cannot read the program' '"$program" solve loop/x'
spoil 'the name is empty' 3 'cannot read the program' '"$program" solve ""'
spoil 'a name of 5,000 bytes' 3 'cannot read the program' '"$program" solve "$(head -c 5000 /dev/zero | tr "\0" a)"'
spoil 'the rows are absent' 3 'cannot read the rows' '"$program" solve pair --domain rows --rows nothing'
spoil 'the certificate is a folder' 3 'cannot read the certificate' '"$program" check below folder'
spoil 'the program comes through a pipe' 0 '' '(cat loop >pipe &) ; "$program" solve pipe | cmp - right'
spoil 'a device without end' 3 'too long: the program' '"$program" solve /dev/zero'
spoil 'an empty device' 4 'program refused: unexpected token at line 1' '"$program" solve /dev/null'
if [ "$(id -u)" = 0 ]; then
    chmod 755 "$room"
    cp "$program" ./tmpl && cp loop locked && chmod 000 locked
    spoil 'the program may not be read' 3 'cannot read the program' 'setpriv --reuid=65534 --regid=65534 --clear-groups ./tmpl solve locked'
fi

# Limits of memory: the run ends whole, or for want of memory, or the system can't start it at all.
before=$tried
for ((megabytes = 1; megabytes <= 64; megabytes++)); do
    for words in 'solve loop' 'check below cert' 'solve loop --domain octagons'; do
        # shellcheck disable=SC2086
        "$program" $words >right
        (ulimit -v $((megabytes * 1024)) && exec timeout 60 "$program" $words) >got 2>said
        status=$?
        case $status in
            0) cmp -s got right && judge ok || judge bad "$words in $megabytes MiB: status 0 with other bytes" ;;
            7) is_prefix got right && judge ok || judge bad "$words in $megabytes MiB: status 7 with other bytes" ;;
            126 | 127) [ ! -s got ] && judge ok || judge bad "$words in $megabytes MiB: not started, but wrote" ;;
            *) judge bad "$words in $megabytes MiB: status $status" ;;
        esac
        counted[status]=$((${counted[status]:-0} + 1))
    done
done
echo "limits of memory from 1 to 64 MiB: $((tried - before)) runs; by status:$(for status in "${!counted[@]}"; do printf ' %s: %s' "$status" "${counted[status]}"; done)"

echo "$tried runs, $wrong wrong"
[ $wrong = 0 ]
