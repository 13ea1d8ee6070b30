#!/bin/sh
# Times `daq query` of TPC-H's Q6 and Q1, and of Q1 with a sum of three factors, over the plane file of a table in the shape of lineitem
# (bench/lineitem.c) at scale 1, about 6,000,000 rows, or at that of the first word; by the policy `filter`, and by `balanced` where the
# program knows it. Beside it stand one exact answer of sqlite3 on a database of the same table, one of R's data.table in memory
# (bench/lineitem.R; Debian's r-cran-data.table), and of Q6 the limit that limit6.c shows. What is not installed is left out, with a line
# that says so. All files were just written, so they are in memory; at scale 1 they take 2 GB of the temporary folder.
# Prints for each query the milliseconds until its first block was there, until each interval was within 1 % of its value
# (bench/within.py), and until its end, each the least of five runs; peak kilobytes; and for each of the others its milliseconds and the
# ratios to them. The answers have to be those of sqlite3 and data.table to nine digits, since these add floating numbers, and that of
# limit6 to the last digit.
here=$(CDPATH='' cd -- "$(dirname -- "$0")/.." && pwd) || exit 1
. "$here/bench/common.sh"
cc -O2 -o "$folder/lineitem" "$here/bench/lineitem.c" || exit 1
cc -O3 -march=native -o "$folder/limit6" "$here/bench/limit6.c" || exit 1
schema=$("$folder/lineitem" schema)
"$folder/lineitem" "${1:-1}" >"$csv" || exit 1
"$program" load "$csv" "$planes" "$schema" || exit 1
policies=filter
if "$program" query "$planes" "SELECT COUNT(*) FROM t" --policy balanced >/dev/null 2>&1; then policies="filter balanced"; fi

have_sqlite=no
if command -v sqlite3 >/dev/null; then
    have_sqlite=yes
    fields=$(echo "$schema" | sed 's/:int/ INTEGER/g; s/:dec[0-9]/ REAL/g; s/:date/ TEXT/g; s/:text/ TEXT/g')
    sqlite3 "$database" "CREATE TABLE t($fields)" ".mode csv" ".import --skip 1 $csv t" || exit 1
else
    echo "sqlite3 is not installed"
fi
have_frames=no
if command -v Rscript >/dev/null && Rscript -e 'library(data.table)' >/dev/null 2>&1; then
    have_frames=yes
else
    echo "data.table is not installed"
fi

# The last block of the report: a line for each group, or one, with the keys and the answers.
answers_told() {
    awk '
        /^round / { count = 0 }
        /^group / { gsub(/[\047,]/, ""); lines[++count] = $2 " " $3 " "; next }
        /^[0-9]+ / {
            if (count == 0) lines[++count] = ""
            parts = split($2, part, "/")
            lines[count] = lines[count] (parts == 2 ? sprintf("%.12f", part[1] / part[2]) : $2) " "
        }
        END { for (i = 1; i <= count; i++) print lines[i] }' "$folder/report"
}

# Fails where an answer in the file differs from the one that is told, by more than one part in 10^9.
compare_answers() {
    answers_told | awk -v other="$1" '
        function size(number) { return number < 0 ? -number : number }
        function fail(why) { print "lineitem.sh: " why " in line " NR " of " other | "cat >&2"; failed = 1; exit 1 }
        {
            if ((getline line <other) != 1) fail("too few answers")
            if (split(line, theirs) != NF) fail("other answers")
            for (i = 1; i <= NF; i++) {
                gap = $i - theirs[i]
                if ($i ~ /^-?[0-9.]+$/ ? size(gap) > 1e-9 * size($i) : $i != theirs[i]) fail($i " and " theirs[i])
            }
        }
        END { if (!failed && (getline line <other) == 1) fail("too many answers") }'
}

# A query by one policy: its figures are `first`, `near` and `all`, milliseconds.
measure_ours() {
    "$program" query "$planes" "$2" --policy "$3" >"$folder/report" || exit 1
    "$here/bench/within.py" 1 <"$folder/report" >"$folder/near" || exit 1
    read -r near_planes near_line all_planes <"$folder/near"
    first_line=$(awk '/^round 1 / { print NR - 1; exit }' "$folder/report")
    beginning=$(least "$first_line" "$folder/beginning" "$program" query "$planes" "$2" --policy "$3" --rounds 1) || exit 1
    figures=$(least "$near_line" "$folder/report" "$program" query "$planes" "$2" --policy "$3") || exit 1
    first=${beginning%% *} near=${figures%% *} all=$(echo "$figures" | cut -d ' ' -f 2)
    echo "$1, --policy $3: first block $first ms, 1 % after $near_planes of $all_planes planes and $near ms, all rounds $all ms, ${figures##* } KB"
}

# What another takes, and the ratios.
print_other() {
    echo "$2 $near $all" | awk -v name="$1" '{
        printf "    %s %.1f ms: all rounds %.2f times that, 1 %% after %.2f times that\n", name, $1, $3 / $1, $2 / $1
    }'
}

# A name of bench/lineitem.R, the query, and how it is for sqlite3.
measure() {
    for policy in $policies; do
        measure_ours "$1" "$2" "$policy"
        if [ "$1" = Q6 ]; then
            limit=$(least 1 "$folder/lines" "$folder/limit6" "$planes" 2>/dev/null) || exit 1
            tail -n 2 "$folder/report" | head -n 1 | cmp - "$folder/lines" || exit 1
            print_other limit6 "$(echo "$limit" | cut -d ' ' -f 2)"
        fi
        if [ "$have_sqlite" = yes ]; then
            [ "$policy" != filter ] || sqlite=$(least 1 "$folder/rows" sqlite3 -separator ' ' "$database" "$3") || exit 1
            compare_answers "$folder/rows" || exit 1
            print_other sqlite3 "$(echo "$sqlite" | cut -d ' ' -f 2)"
        fi
        if [ "$have_frames" = yes ]; then
            [ "$policy" != filter ] || frames=$(Rscript "$here/bench/lineitem.R" "$csv" "$1" 2>&1 >"$folder/frames") || exit 1
            compare_answers "$folder/frames" || exit 1
            print_other "data.table (${frames#* } threads)" "${frames%% *}"
        fi
    done
}

# The queries: daq and sqlite3 differ in how a date is written, and in the order of the groups, which sqlite3 is told.
year="shipdate >= DATE '1994-01-01' AND shipdate < DATE '1995-01-01'"
small="discount BETWEEN 0.05 AND 0.07 AND quantity < 24"
shipped="shipdate <= DATE '1998-09-02'"
keys="returnflag, linestatus"
sums="SUM(quantity), SUM(extendedprice), SUM(extendedprice * (1 - discount))"
charge="SUM(extendedprice * (1 - discount) * (1 + tax))"
rest="AVG(quantity), COUNT(*)"
for_sqlite() { echo "$1" | sed "s/DATE '/'/g"; }

echo "$(($(wc -l <"$csv") - 1)) rows, $(wc -c <"$csv") bytes of CSV, $(wc -c <"$planes") of planes"
q6="SELECT SUM(extendedprice * discount) FROM t WHERE $year AND $small"
measure Q6 "$q6" "$(for_sqlite "$q6")"
q1="SELECT $keys, $sums, $rest FROM t WHERE $shipped GROUP BY $keys"
measure Q1 "$q1" "$(for_sqlite "$q1") ORDER BY $keys"
q1="SELECT $keys, $sums, $charge, $rest FROM t WHERE $shipped GROUP BY $keys"
measure Q1-tax "$q1" "$(for_sqlite "$q1") ORDER BY $keys"
