#!/bin/sh
# Three questions to a table in the shape of TPC-H's lineitem, at scale 1 some 6 million rows, beside sqlite3: where a person could have
# stopped, what had been read by then, and the exact answer.
#   lineitem.sh [PROGRAM [SCALE]]     PROGRAM is daq at the top where none is named; at scale 1 it takes 2 GB of the temporary folder
top=$(CDPATH='' cd -- "$(dirname -- "$0")/.." && pwd) || exit 1
program=${1:-$top/daq}
scale=${2:-1}
columns=quantity,extendedprice,discount,tax,returnflag,linestatus,shipdate
folder=$(mktemp -d) || exit 1
trap 'rm -rf "$folder"' EXIT
cc -O2 -o "$folder/make" "$top/bench/lineitem.c" && cc -O2 -o "$folder/stopwatch" "$top/bench/stopwatch.c" || exit 1

"$folder/make" "$scale" 1 "$columns" >"$folder/t.csv" || exit 1
schema=$("$folder/make" schema "$columns")
echo "\$ daq load lineitem.csv lineitem.daq $schema"
"$program" load "$folder/t.csv" "$folder/t.daq" "$schema" || exit 1
rows=$(($(wc -l <"$folder/t.csv") - 1))
plane=$(((rows + 63) / 64 * 8))
if command -v sqlite3 >/dev/null; then
    fields=$(echo "$schema" | sed 's/:int/ INTEGER/g; s/:dec[0-9]/ REAL/g; s/:date/ TEXT/g; s/:text/ TEXT/g')
    sqlite3 "$folder/t.db" "CREATE TABLE t($fields)" ".mode csv" ".import --skip 1 $folder/t.csv t" || exit 1
else
    echo 'sqlite3 is not installed'
fi

# seconds MILLISECONDS
seconds() {
    awk -v ms="$1" 'BEGIN { printf "%.2f s", ms / 1000 }'
}

# block LAST_LINE: the block of the report that ends there.
block() {
    head -n "$1" "$folder/report" | awk '/^round / { block = "" } { block = block $0 "\n" } END { printf "%s", block }'
}

# ask QUESTION SQL OTHER_SQL: a person could have stopped at the first block within 1 %; where rows are in an order the last block tells
# them.
ask() {
    printf '\n# %s\n$ daq query lineitem.daq "%s" --policy balanced\n' "$1" "$2"
    "$program" query "$folder/t.daq" "$2" --policy balanced >"$folder/report" || exit 1
    lines=$(wc -l <"$folder/report")
    case $2 in
    *'ORDER BY'*) near_line=$((lines - 1)) near_planes=$(grep -c '^round ' "$folder/report") && near_planes=$((near_planes - 1)) ;;
    *) near=$("$top/bench/within.py" 1 <"$folder/report") || exit 1
        near_planes=${near%% *} near_line=$(echo "$near" | cut -d ' ' -f 2) ;;
    esac
    times=$("$folder/stopwatch" "$near_line" "$folder/copy" "$program" query "$folder/t.daq" "$2" --policy balanced) || exit 1
    echo "After $near_planes planes, $((near_planes * plane / 1000000)) MB, and $(seconds "${times%% *}"):"
    block "$near_line"
    if [ "$near_line" -lt $((lines - 1)) ]; then
        echo "To the end, after $(($(grep -c '^round ' "$folder/report") - 1)) planes and $(seconds "$(echo "$times" | cut -d ' ' -f 2)"):"
        block $((lines - 1)) | tail -n +2
    fi
    if [ -f "$folder/t.db" ]; then
        times=$("$folder/stopwatch" 1 "$folder/rows" sqlite3 -separator ' ' "$folder/t.db" "$3") || exit 1
        echo "sqlite3, after $(seconds "$(echo "$times" | cut -d ' ' -f 2)"):"
        cat "$folder/rows"
    fi
}

small="discount BETWEEN 0.05 AND 0.07 AND quantity < 24"
ask 'Q6: what would revenue gain without the small discounts of 1994?' \
    "SELECT SUM(extendedprice * discount) FROM t WHERE shipdate >= DATE '1994-01-01' AND shipdate < DATE '1995-01-01' AND $small" \
    "SELECT SUM(extendedprice * discount) FROM t WHERE shipdate >= '1994-01-01' AND shipdate < '1995-01-01' AND $small"

keys='returnflag, linestatus'
sums='SUM(quantity), SUM(extendedprice), SUM(extendedprice * (1 - discount)), AVG(quantity), COUNT(*)'
ask 'Q1: what was shipped until September 1998, by flag and status?' \
    "SELECT $keys, $sums FROM t WHERE shipdate <= DATE '1998-09-02' GROUP BY $keys" \
    "SELECT $keys, $sums FROM t WHERE shipdate <= '1998-09-02' GROUP BY $keys ORDER BY $keys"

ask 'Which three lines of 1998 are the dearest?' \
    "SELECT * FROM t WHERE shipdate >= DATE '1998-01-01' ORDER BY extendedprice DESC LIMIT 3" \
    "SELECT rowid, extendedprice FROM t WHERE shipdate >= '1998-01-01' ORDER BY extendedprice DESC, rowid LIMIT 3"
