#!/bin/sh
# Walks the page out/tmpl.html, or the file that is given, in a headless Chromium without network: `bench/page.sh [PAGE]`. What it shows is
# compared with what ./tmpl writes. Pictures of it are kept in out/page/, and the one of docs/USING.md is made anew with `--picture`.
# Debian's packages: chromium, python3; gcc, with which the module's heap is tried besides; fonts-inter, for the pictures alone.
# No part of the gate: `./build page` makes the page first.
top=$(CDPATH='' cd -- "$(dirname -- "$0")/.." && pwd) || exit 9
for word in chromium python3; do
    command -v "$word" >/dev/null 2>&1 || { echo "page.sh: $word isn't there" >&2; exit 9; }
done
if command -v cc >/dev/null 2>&1; then
    room=$(mktemp -d) || exit 9
    cc -O1 -o "$room/heap_test" "$top/bench/heap_test.c" && "$room/heap_test" || { rm -rf "$room"; exit 1; }
    rm -rf "$room"
fi
exec python3 "$top/bench/page.py" "$@"
