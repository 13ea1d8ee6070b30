#!/bin/sh
# Times `daq session` of eight queries over the plane file of the table that `daq demo 1` makes, of 2^20 rows and of 2^24 (or of so many as the words say),
# beside eight runs of `daq query`, one after the other. All files were just written, so they are in memory. Prints the milliseconds until the session's first
# block was there and until its end, and those of the eight runs together, each the least of three; peak kilobytes, of the runs those of the greatest; and the
# bytes of the file that the system handed over, by strace. Each query has to have the blocks of its run.
here=$(CDPATH='' cd -- "$(dirname -- "$0")/.." && pwd) || exit 1
. "$here/bench/common.sh"
runs=3
script=$folder/script
# A session may have 2^27 cells, so at 2^24 rows each of eight queries names one column.
cat >"$script" <<END
SELECT SUM(a) FROM t
SELECT COUNT(*) FROM t WHERE a < 0
SELECT SUM(b) FROM t
SELECT AVG(b) FROM t
SELECT COUNT(*) FROM t WHERE b >= 50
SELECT MAX(d) FROM t
SELECT COUNT(*) FROM t WHERE d >= DATE '2005-01-01'
SELECT g, COUNT(*) FROM t GROUP BY g
END

# The bytes of the plane file that a command reads.
bytes_read() {
    strace -o "$folder/calls" -P "$planes" "$@" >"$folder/traced" || exit 1
    awk '/^p?read(64|v|v2)?\(/ { sum += $NF } END { print sum + 0 }' "$folder/calls"
}

# The blocks of the query with this number.
blocks_of() {
    awk -v query="$1" '/^at / { own = $4 == query; next } /^end / { own = 0 } own' "$folder/report"
}

# The milliseconds of a run of each query together, the kilobytes of the greatest, and the bytes that they read together.
measure_runs() {
    number=0
    while IFS= read -r sql; do
        number=$((number + 1))
        figures=$(least 1 "$folder/alone" "$program" query "$planes" "$sql" </dev/null) || exit 1
        blocks_of "$number" >"$folder/wanted"
        sed '1d;$d' "$folder/alone" | cmp - "$folder/wanted" >&2 || exit 1
        bytes=$(bytes_read "$program" query "$planes" "$sql" </dev/null) || exit 1
        echo "$figures $bytes"
    done <"$script" | awk '{ time += $2; bytes += $4 } $3 > most { most = $3 } END { if (NR < 8) exit 1; print time, most, bytes }'
}

measure() {
    make_table "$1"
    "$program" load "$csv" "$planes" "$schema" >/dev/null || exit 1
    # The first block ends with the twelfth line: behind those of the queries are that of the step, the round and the item.
    ours=$(least 12 "$folder/report" "$program" session "$planes" "$script") || exit 1
    alone=$(measure_runs) || exit 1
    bytes=$(bytes_read "$program" session "$planes" "$script") || exit 1
    steps=$(awk '/^at / { last = $2 } END { print last }' "$folder/report")
    echo "$1 rows, a file of $(wc -c <"$planes") bytes"
    echo "$ours $bytes $alone" | awk -v steps="$steps" '{
        printf "session: first block %.1f ms, all %d steps %.1f ms, %d KB, %d bytes read; eight runs: %.1f ms, %d KB, %d bytes\n", $1, steps, $2, $3, $4, $5, $6, $7
    }'
}

[ $# -gt 0 ] || set -- 1048576 16777216
for rows; do measure "$rows"; done
