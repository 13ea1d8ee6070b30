#!/bin/sh
# Times the reading of SQL texts of 4,096 bytes, each read 10,000 times in one process by the program `sql_bench`.
# Prints for each kind of text the microseconds of one reading, by the clock and by the processor's time.
here=$(CDPATH='' cd -- "$(dirname -- "$0")/.." && pwd) || exit 1
program=$here/crates/sql_bench/out/sql_bench
times=10000
(cd "$here/crates/sql_bench" && rt run -- 1 "SELECT a FROM t") >/dev/null 2>&1 || { echo "sql_bench cannot be built" >&2; exit 1; }

# A text of 4,096 bytes: a beginning, a part over and over, an end, and blanks.
text() {
    awk -v first="$1" -v part="$2" -v last="$3" 'BEGIN {
        text = first
        while (length(text part last) <= 4096) text = text part
        printf "%-4096s", text last
    }'
}

# Times one text, under a name.
measure() {
    seconds=$({ /usr/bin/time -f '%e %U' "$program" "$times" "$2" >/dev/null; } 2>&1) || exit 1
    echo "$seconds" | awk -v name="$1" -v n="$times" '{ printf "%s: %.0f, processor %.0f\n", name, $1 * 1e6 / n, $2 * 1e6 / n }'
}

measure "blanks" "$(text 'SELECT a FROM t' ' ' '')"
measure "a sum of names" "$(text 'SELECT SUM(a' '+a' ') FROM t')"
measure "a list of names" "$(text 'SELECT a' ',a' ' FROM t')"
measure "conditions under OR" "$(text 'SELECT a FROM t WHERE a=1' ' OR a=1' '')"
measure "conditions under AND" "$(text 'SELECT a FROM t WHERE a=1' ' AND a=1' '')"
measure "a list of values" "$(text 'SELECT a FROM t WHERE a IN (1' ',1' ')')"
