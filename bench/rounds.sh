#!/bin/sh
# Times `daq ask` on a CSV of 2^20 records (or so many as the first word says) with four columns: whole numbers of 30 binary digits, decimals up to
# 100.00, days of ten years and 16 texts. The query counts, adds up and takes the latest day where a number is negative. Prints the wall seconds of
# the query, of them those that a query without a column takes (to read the table), and of one round; the peak kilobytes; and beside it sqlite3's
# answer over the same file imported into memory.
here=$(CDPATH='' cd -- "$(dirname -- "$0")/.." && pwd) || exit 1
folder=$(mktemp -d) || exit 1
trap 'rm -rf "$folder"' EXIT
rows=${1:-1048576}
schema=a:int,b:dec2,d:date,g:text
"$here/daq" ask "$here/examples/p.csv" price:int "SELECT SUM(price) FROM t" >/dev/null || exit 1
file=$folder/rounds.csv
awk -v rows="$rows" 'BEGIN {
    srand(1)
    print "a,b,d,g"
    for (i = 0; i < rows; i++)
        printf "%d,%.2f,%04d-%02d-%02d,g%02d\n", (rand() - 0.5) * 2 ^ 30, rand() * 100,
            2000 + rand() * 10, 1 + rand() * 12, 1 + rand() * 28, rand() * 16
}' >"$file"
echo "$rows rows, $(wc -c <"$file") bytes"

# Wall seconds and peak kilobytes of a query, whose report goes to a file.
ask() {
    /usr/bin/time -f '%e %M' "$here/daq" ask "$file" "$schema" "$1" 2>&1 >"$folder/report"
}

load=$(ask "SELECT COUNT(*) FROM t") || exit 1
all=$(ask "SELECT COUNT(*), SUM(b), MAX(d) FROM t WHERE a < 0") || exit 1
rounds=$(grep -c '^round ' "$folder/report")
echo "$load $all" | awk -v rounds="$rounds" '{ printf "daq %s s in all, %s s of them to read the table; %d rounds of %.3f s; %d KB\n", $3, $1, rounds, ($3 - $1) / rounds, $4 }'
tail -n 4 "$folder/report" | head -n 3
{ /usr/bin/time -f 'sqlite3 %e s %M KB' sqlite3 :memory: ".mode csv" ".import $file t" \
    "SELECT COUNT(*), SUM(b), MAX(d) FROM t WHERE CAST(a AS INTEGER) < 0" >"$folder/answer"; } 2>&1
cat "$folder/answer"
