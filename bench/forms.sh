#!/bin/sh
# Times `daq query` with groups and with an order, over the plane file of the table that `daq demo 1` makes, of 2^20 rows and of 2^24 (or of so many as the
# words say), beside sqlite3 on a database of the same table; for an order without and with an index on its key. All files were just written, so they are in
# memory. Prints for each query the milliseconds until its first block was there and until its end, its rounds and the milliseconds of one, each of the least
# of three runs; peak kilobytes; and the milliseconds of sqlite3. The last block has to hold what sqlite3 answers.
here=$(CDPATH='' cd -- "$(dirname -- "$0")/.." && pwd) || exit 1
. "$here/bench/common.sh"
runs=3

# Prints the figures of a query, so many lines of whose report end with its first block, beside those of sqlite3's.
print_query() {
    ours=$(least "$2" "$folder/report" "$program" query "$planes" "$1") || exit 1
    theirs=$(least 1 "$folder/answer" sqlite3 "$database" "$3") || exit 1
    echo "$ours $theirs" | awk -v sql="$1" -v rounds="$(grep -c '^round ' "$folder/report")" '{
        printf "%s: first block %.1f ms, all %d rounds %.1f ms, a round %.1f ms, %d KB; sqlite3 %.1f ms, %d KB\n",
            sql, $1, rounds, $2, ($2 - $1) / (rounds - 1), $3, $5, $6
    }'
}

# The keys and first answers of the last block's groups, as sqlite3 prints them.
groups_told() {
    awk '/^round / { count = 0 } /^group / { key = $2; gsub("\047", "", key) } /^1 / { lines[++count] = key "|" $2 } END { for (i = 1; i <= count; i++) print lines[i] }' "$folder/report"
}

# The rows of the last block, in the order of their numbers.
rows_told() {
    awk '/^round / { count = 0 } /^row / { lines[++count] = $2 } END { for (i = 1; i <= count; i++) print lines[i] }' "$folder/report"
}

measure() {
    make_table "$1"
    "$program" load "$csv" "$planes" "$schema" >/dev/null || exit 1
    import_table || exit 1
    echo "$1 rows"
    # The first block ends with the line of the last item of its one cell: behind the query's line are those of the round, the cell and the items.
    print_query "SELECT g, COUNT(*), SUM(b) FROM t GROUP BY g" 5 "SELECT g, COUNT(*), printf('%.2f', SUM(b)) FROM t GROUP BY g"
    cut -d '|' -f 1,2 "$folder/answer" >"$folder/wanted" && groups_told | cmp - "$folder/wanted" || exit 1
    print_query "SELECT d, COUNT(*), SUM(b) FROM t GROUP BY d" 5 "SELECT d, COUNT(*), printf('%.2f', SUM(b)) FROM t GROUP BY d"
    cut -d '|' -f 1,2 "$folder/answer" >"$folder/wanted" && groups_told | cmp - "$folder/wanted" || exit 1
    for index in without with; do
        [ "$index" = without ] || sqlite3 "$database" "CREATE INDEX by_b ON t(b); CREATE INDEX by_a ON t(a)" || exit 1
        echo "sqlite3 $index an index on the key:"
        print_query "SELECT * FROM t ORDER BY b DESC LIMIT 10" 3 "SELECT rowid FROM t ORDER BY b DESC, rowid LIMIT 10"
        sort -n "$folder/answer" >"$folder/wanted" && rows_told | cmp - "$folder/wanted" || exit 1
        print_query "SELECT * FROM t WHERE d >= DATE '2005-01-01' ORDER BY a LIMIT 1000" 3 "SELECT rowid FROM t WHERE d >= '2005-01-01' ORDER BY a, rowid LIMIT 1000"
        sort -n "$folder/answer" >"$folder/wanted" && rows_told | cmp - "$folder/wanted" || exit 1
    done
}

[ $# -gt 0 ] || set -- 1048576 16777216
for rows; do measure "$rows"; done
