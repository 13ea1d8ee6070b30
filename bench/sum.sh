#!/bin/sh
# Times `daq ask` on the sum of a column of random whole numbers, beside awk summing the same file.
# Prints for each size: bytes of the file, wall seconds and peak kilobytes of daq, wall seconds of awk.
here=$(CDPATH='' cd -- "$(dirname -- "$0")/.." && pwd) || exit 1
folder=$(mktemp -d) || exit 1
trap 'rm -rf "$folder"' EXIT
"$here/daq" ask "$here/examples/p.csv" price:int "SELECT SUM(price) FROM t" >/dev/null || exit 1
for exponent in 20 23; do
    file=$folder/v$exponent.csv
    awk -v n="$exponent" 'BEGIN { srand(1); print "v"; for (i = 0; i < 2 ^ n; i++) printf "%d\n", (rand() - 0.5) * 2 ^ 32 }' >"$file"
    ours=$({ /usr/bin/time -f '%e %M' "$here/daq" ask "$file" v:int "SELECT SUM(v) FROM t" >/dev/null; } 2>&1)
    theirs=$({ /usr/bin/time -f '%e' awk '{ sum += $1 } END { printf "%d\n", sum }' "$file" >/dev/null; } 2>&1)
    echo "2^$exponent rows: $(wc -c <"$file") bytes; daq $ours; awk $theirs"
done
