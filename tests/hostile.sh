#!/bin/sh
# Tries a built program against damaged files, failing calls, unkind paths and sudden ends, each script for ten minutes at most.
# tests/hostile.sh PROGRAM prints what each script found, and ends with 0 only where nothing differs.

program=$1
[ -x "$program" ] || { echo "usage: tests/hostile.sh PROGRAM" >&2; exit 2; }
here=$(CDPATH='' cd -- "$(dirname -- "$0")" && pwd) || exit 1
failed=0

try() {
    echo "== $1"
    timeout 600 python3 "$here/$1" "$program" || { echo "FAILED: $1"; failed=1; }
}

try files.py
try edges.py
try kills.py
try terminal.py
if command -v cc >/dev/null; then try turns.py; else echo '== turns.py is left out: it needs a C compiler'; fi
if command -v strace >/dev/null; then try calls.py; else echo '== calls.py is left out: it needs strace'; fi
exit "$failed"
