#!/bin/sh
# Times plane files of the table that `daq demo 1` makes, of 2^20 rows and of 2^24 (or of so many as the words say). `daq load` makes one from the table's
# CSV, beside sqlite3 importing that CSV into a database. `daq query` counts, adds up and takes the latest day where a number is negative, beside sqlite3
# on that database, beside the program of limit.c, which answers the same from the same file with no bound on the way, and beside arrays.py, which answers
# it by numpy from arrays in memory (Debian's python3-numpy; left out where it is not installed). All files were just written, so they are in memory.
# Prints for a load its seconds, and for a query the milliseconds until its first block was there and until its end, each the least of five runs; and peak
# kilobytes. The answers have to be the same.
here=$(CDPATH='' cd -- "$(dirname -- "$0")/.." && pwd) || exit 1
. "$here/bench/common.sh"
cc -O3 -march=native -o "$folder/limit" "$here/bench/limit.c" || exit 1

# The seconds and the rate of a load of so many bytes, beside those of an import.
print_loads() {
    echo "$1 $2 $3" | awk '{
        printf "load: %.2f s, %.0f MB a second, %d KB; sqlite3 %.2f s, %.1f times that, %d KB\n",
            $3 / 1e3, $1 / $3 / 1e3, $4, $6 / 1e3, $6 / $3, $7
    }'
}

measure() {
    make_table "$1"
    load=$("$folder/stopwatch" 1 "$folder/loaded" "$program" load "$csv" "$planes" "$schema") || exit 1
    import=$("$folder/stopwatch" 1 "$folder/imported" sqlite3 "$database" "CREATE TABLE t(a INTEGER, b REAL, d TEXT, g TEXT)" \
        ".mode csv" ".import --skip 1 $csv t") || exit 1
    echo "$1 rows: $(wc -c <"$csv") bytes of CSV, $(wc -c <"$planes") of planes, $(wc -c <"$database") of the database"
    print_loads "$(wc -c <"$csv")" "$load" "$import"
    # The first block ends with the fifth line: behind the query's are that of the round and one for each item.
    ours=$(least 5 "$folder/report" "$program" query "$planes" "SELECT COUNT(*), SUM(b), MAX(d) FROM t WHERE a < 0") || exit 1
    theirs=$(least 1 "$folder/rows" sqlite3 -separator ' ' "$database" \
        "SELECT COUNT(*), printf('%.2f', SUM(b)), MAX(d) FROM t WHERE a < 0") || exit 1
    limit=$(least 1 "$folder/lines" "$folder/limit" "$planes" 2>/dev/null) || exit 1
    arrays=none
    if /usr/bin/python3 -c 'import numpy' 2>/dev/null; then
        arrays=$("$here/bench/arrays.py" "$planes" 2>&1 >"$folder/arrays") || exit 1
    fi
    rounds=$(grep -c '^round ' "$folder/report")
    echo "$ours $theirs $limit $arrays" | awk -v rounds="$rounds" '{
        printf "query: first block %.1f ms, all %d rounds %.1f ms, %d KB; sqlite3 %.1f ms, %d KB; limit %.1f ms, %d KB; numpy %s ms\n", $1, rounds, $2, $3, $5, $6, $8, $9, $10
    }'
    tail -n 4 "$folder/report" | head -n 3 >"$folder/answer"
    tr ' ' '\n' <"$folder/rows" | awk '{ print NR, $0 }' | cmp - "$folder/answer" && cmp "$folder/lines" "$folder/answer" || exit 1
    [ "$arrays" = none ] || cmp "$folder/arrays" "$folder/answer" || exit 1
    cat "$folder/answer"
}

[ $# -gt 0 ] || set -- 1048576 16777216
for rows; do measure "$rows"; done
