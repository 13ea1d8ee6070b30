#!/bin/sh
# A table in many parts: cut by rows, loaded and asked side by side by GNU parallel, and combined round by round; beside sqlite3.
#   shards.sh [PROGRAM [SCALE]]                 a table in the shape of TPC-H's lineitem; at scale 11.19, which is usual, 2^26 rows
#   shards.sh PROGRAM CSV SCHEMA SQL [WIDTH]    a table of your own; the SQL as sqlite3 takes it, too
# PROGRAM is daq at the top where none is named. At the usual scale it takes 5 GB of the temporary folder.
#
# Over many machines: where each has daq and the CSV's parts are to be spread from here,
#   parallel --sshlogin alpha,beta --transferfile {} --cleanup --tag --line-buffer daq query {} "'SELECT ..'" ::: part*.daq |
#     daq combine "$(ls part*.daq | wc -l)" /dev/stdin
# copies each file to the machine that asks it. Where each machine has files of its own, let it combine them first, by a script `daq-parts`,
#   cd /data && parallel -j0 --tag --line-buffer daq query {} "'SELECT ..'" ::: part*.daq | daq combine "$(ls part*.daq | wc -l)" /dev/stdin
# and then combine the reports of the machines, each of which is a part:
#   parallel --nonall --sshlogin alpha,beta --tag --line-buffer ./daq-parts | daq combine 2 /dev/stdin --width 100000
top=$(CDPATH='' cd -- "$(dirname -- "$0")/.." && pwd) || exit 1
program=${1:-$top/daq}
command -v parallel >/dev/null || { echo 'shards.sh: skipped, since GNU parallel is not installed (Debian: apt install parallel)'; exit 0; }
folder=$(mktemp -d) || exit 1
trap 'rm -rf "$folder"' EXIT
# Builds the program where there is none yet.
"$program" --version >/dev/null || exit 1

# Milliseconds since some day.
now() { echo $(($(date +%s%N) / 1000000)); }

# seconds BEGUN: how long ago that was.
seconds() { awk -v ms=$(($(now) - $1)) 'BEGIN { printf "%.1f s", ms / 1000 }'; }

if [ -f "${2:-}" ]; then
    csv=$2 schema=$3 sql=$4 width=${5:-0}
else
    scale=${2:-11.19}
    columns=quantity,extendedprice,discount,shipdate
    csv=$folder/t.csv
    cc -O2 -o "$folder/make" "$top/bench/lineitem.c" || exit 1
    "$folder/make" "$scale" 1 "$columns" >"$csv" || exit 1
    schema=$("$folder/make" schema "$columns")
    sql="SELECT COUNT(*), SUM(extendedprice * discount) FROM t WHERE shipdate >= DATE '1994-01-01' AND shipdate < DATE '1995-01-01' AND quantity < 24"
    # About 1 % of the sum, in units of its fourth decimal.
    width=$(awk -v scale="$scale" 'BEGIN { printf "%.0f", scale * 37000000000 }')
fi
processors=$(getconf _NPROCESSORS_ONLN)
bytes=$(wc -c <"$csv")
# Twice as many parts as processors, and more where a part would have more than 400 MB.
block=$((bytes / (2 * processors) + 1))
[ "$block" -le 400000000 ] || block=400000000

echo "$(($(wc -l <"$csv") - 1)) rows, $bytes bytes; $processors processors"
# The shells that parallel starts have these from the environment.
export program folder schema sql
begun=$(now)
parallel --will-cite --pipepart -a "$csv" --header : --block "$block" \
    '"$program" load /dev/stdin "$folder"/part{#}.daq "$schema"' >"$folder/loaded" || exit 1
parts=$(wc -l <"$folder/loaded")
echo "$parts parts loaded by all processors after $(seconds "$begun")"

# ask OPTION ..: the combined report of all parts, of which each is asked by a process of its own, all at once.
ask() {
    parallel --will-cite -j0 --tag --line-buffer '"$program" query {} "$sql" --policy balanced' ::: "$folder"/part*.daq |
        "$program" combine "$parts" /dev/stdin "$@"
}

# Each block in a line: the round, and where each answer lies.
blocks() {
    awk '/^round / { if (NR > 3) print line; line = $0 } /^[0-9]+ / { line = line "   " $0 } /^end / { print line; print }'
}

printf '\n$ parallel .. daq query {} "%s" --policy balanced ::: part*.daq | daq combine %s /dev/stdin --width %s\n' "$sql" "$parts" "$width"
begun=$(now)
ask --width "$width" | blocks
echo "after $(seconds "$begun")"

printf '\n$ .. | daq combine %s /dev/stdin\n' "$parts"
begun=$(now)
ask | blocks | tail -n 2
echo "after $(seconds "$begun")"

if command -v sqlite3 >/dev/null; then
    fields=$(echo "$schema" | sed 's/?//g; s/:int/ INTEGER/g; s/:dec[0-9]/ REAL/g; s/:date/ TEXT/g; s/:text/ TEXT/g; s/[^,]*:skip,*//g')
    sqlite3 "$folder/t.db" "CREATE TABLE t($fields)" ".mode csv" ".import --skip 1 $csv t" || exit 1
    begun=$(now)
    answer=$(sqlite3 -separator ' ' "$folder/t.db" "$(echo "$sql" | sed "s/DATE '/'/g")") || exit 1
    printf '\nsqlite3, after %s: %s\n' "$(seconds "$begun")" "$answer"
else
    echo 'sqlite3 is not installed'
fi
