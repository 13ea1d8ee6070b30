#!/bin/sh
# Times `daq ask` on a CSV of 2^20 records with a column of each kind, beside sqlite3 importing the same file into memory and answering the
# same sum. Prints the bytes of the file, then for each program its wall seconds, its peak kilobytes and its answer.
here=$(CDPATH='' cd -- "$(dirname -- "$0")/.." && pwd) || exit 1
folder=$(mktemp -d) || exit 1
trap 'rm -rf "$folder"' EXIT
"$here/daq" ask "$here/examples/p.csv" price:int "SELECT SUM(price) FROM t" >/dev/null || exit 1
file=$folder/kinds.csv
awk 'BEGIN {
    srand(1)
    print "number,price,day,town"
    for (i = 0; i < 2 ^ 20; i++)
        printf "%d,%.2f,%04d-%02d-%02d,town %03d\n", (rand() - 0.5) * 2 ^ 32, rand() * 10000,
            1990 + rand() * 40, 1 + rand() * 12, 1 + rand() * 28, rand() * 500
}' >"$file"
echo "$(wc -c <"$file") bytes"
{ /usr/bin/time -f 'daq %e s %M KB' "$here/daq" ask "$file" number:int,price:dec2,day:date,town:text \
    "SELECT SUM(price) FROM t" >"$folder/report"; } 2>&1
tail -n 2 "$folder/report" | head -n 1
{ /usr/bin/time -f 'sqlite3 %e s %M KB' sqlite3 :memory: ".mode csv" ".import $file t" \
    "SELECT SUM(price) FROM t" >"$folder/answer"; } 2>&1
cat "$folder/answer"
