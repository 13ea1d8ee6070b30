# What the scripts that time plane files share. They run this in their own shell, with `here` set to the repository's top. Where the variable
# TABLES names a folder, the tables of `daq demo` are made once and kept there; it has to be an absolute path.
# shellcheck shell=sh
folder=$(mktemp -d) || exit 1
trap 'rm -rf "$folder"' EXIT
"$here/daq" ask "$here/examples/p.csv" price:int "SELECT SUM(price) FROM t" >/dev/null || exit 1
program=$here/crates/daq/out/daq
schema=a:int,b:dec2,d:date,g:text
csv=$folder/t.csv planes=$folder/t.daq database=$folder/t.db
cc -O2 -o "$folder/stopwatch" "$here/bench/stopwatch.c" || exit 1

# The least milliseconds to so many lines of a command's output and to its end, and the most kilobytes, of five runs (or as many as `runs` says).
least() {
    for run in $(seq "${runs:-5}"); do
        "$folder/stopwatch" "$@" || exit 1
    done | sort -n -k 2 | awk -v runs="${runs:-5}" '
        NR == 1 { end = $2; first = $1 }
        $1 < first { first = $1 }
        $3 > most { most = $3 }
        END { if (NR < runs) exit 1; print first, end, most }'
}

# The CSV of the table that `daq demo 1` makes of so many rows.
make_table() {
    rm -f "$planes" "$database"
    "$here/bench/table.sh" 1 "$1" "$csv" || exit 1
}

# Its database, by sqlite3.
import_table() {
    sqlite3 "$database" "CREATE TABLE t(a INTEGER, b REAL, d TEXT, g TEXT)" ".mode csv" ".import --skip 1 $csv t"
}
