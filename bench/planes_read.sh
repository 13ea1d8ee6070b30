#!/bin/sh
# Counts how many planes `daq query` reads until each interval is within 1 % of its value, by each policy, and by a `--reads` list that
# takes a plane of each column in turn, in the order in which the query names them. The table is one in the shape of TPC-H's lineitem
# (bench/lineitem.c) at scale 0.01, which has 59,839 rows, or at that of the first word. Within 1 % means high - low <= 1 % of the least
# absolute value of the interval (bench/within.py). Prints a table: of all planes of the query's columns so many, and behind that which
# part of the default's planes the policy `balanced` reads; `-` where the program does not know that policy.
here=$(CDPATH='' cd -- "$(dirname -- "$0")/.." && pwd) || exit 1
. "$here/bench/common.sh"
cc -O2 -o "$folder/lineitem" "$here/bench/lineitem.c" || exit 1
columns=quantity,extendedprice,discount,shipdate
"$folder/lineitem" "${1:-0.01}" 1 "$columns" >"$csv" || exit 1
"$program" load "$csv" "$planes" "$("$folder/lineitem" schema "$columns")" || exit 1
"$program" info "$planes" >"$folder/info" || exit 1
if "$program" query "$planes" "SELECT COUNT(*) FROM t" --policy balanced >/dev/null 2>&1; then balanced=known; else balanced=unknown; fi

# The names of these columns, each as often as it has planes: one of each in turn.
in_turn() {
    awk -v names="$1" '
        /^column / { left[$3] = $6 + ($4 ~ /\?$/) }
        END {
            count = split(names, name, ",")
            do {
                taken = 0
                for (i = 1; i <= count; i++) if (left[name[i]]-- > 0) { list = list "," name[i]; taken++ }
            } while (taken)
            print substr(list, 2)
        }' "$folder/info"
}

# The planes that a query reads with these options until it is within 1 %.
count_planes() {
    "$program" query "$planes" "$@" >"$folder/report" || exit 1
    found=$("$here/bench/within.py" 1 <"$folder/report") || exit 1
    echo "${found%% *}"
}

# The row of a query, whose columns are named in the query's order.
print_row() {
    list=$(in_turn "$2")
    all=$(echo "$list" | awk -F, '{ print NF }')
    figures=
    for policy in widest order filter; do
        figures="$figures $(count_planes "$3" --policy "$policy")" || exit 1
    done
    figures="$figures $(count_planes "$3" --reads "$list")" || exit 1
    last=-
    [ "$balanced" = unknown ] || last=$(count_planes "$3" --policy balanced) || exit 1
    echo "$figures $last" | awk -v name="$1" -v all="$all" '{
        share = $5 == "-" ? "-" : sprintf("%.2f", $5 / $1)
        printf "| %s | %s of %d | %s | %s | %s | %s | %s |\n", name, $1, all, $2, $3, $4, $5, share
    }'
}

echo
echo '| Query | `widest` (default) | `order` | `filter` | columns in turn | `balanced` | of the default |'
echo '|---|---|---|---|---|---|---|'
year="shipdate >= DATE '1994-01-01' AND shipdate < DATE '1995-01-01'"
print_row "Q6: sum of a product, three columns in the condition" extendedprice,discount,shipdate,quantity \
    "SELECT SUM(extendedprice * discount) FROM t WHERE $year AND discount BETWEEN 0.05 AND 0.07 AND quantity < 24"
print_row "two sums and a count, one date in the condition" quantity,extendedprice,shipdate \
    "SELECT SUM(quantity), SUM(extendedprice), COUNT(*) FROM t WHERE shipdate <= DATE '1995-06-17'"
print_row "an average under quantity >= 25" extendedprice,quantity \
    "SELECT AVG(extendedprice) FROM t WHERE quantity >= 25"
print_row "sum of price * (1 - discount) since a date" extendedprice,discount,shipdate \
    "SELECT SUM(extendedprice * (1 - discount)) FROM t WHERE shipdate >= DATE '1995-03-15'"
