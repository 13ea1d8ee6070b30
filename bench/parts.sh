#!/bin/sh
# Times a table in 8 parts of 2^22 rows each (or of so many as the word says): loading them, and asking all rounds of all of them, of totals and by groups,
# by all processors and combined, beside one process after the other over the same parts. The parts are the tables that `daq demo 1` to `daq demo 8` make.
# All files were just written, so they are in memory; they take 1.3 GB of the temporary folder. Then `daq combine` alone: how many MB of reports it takes
# in a second, of 8 parts and of 300, with 16 aggregates each, of totals and by groups, and how long a block stands behind the last line that it needs
# (bench/delay.py). Times are the least of three runs. The counts and sums of the last blocks of the parts have to add up to those of the combined one.
here=$(CDPATH='' cd -- "$(dirname -- "$0")/.." && pwd) || exit 1
. "$here/bench/common.sh"
runs=3
rows=${1:-4194304}
processors=$(getconf _NPROCESSORS_ONLN)
totals="SELECT COUNT(*), SUM(b), AVG(b) FROM t WHERE a < 0"
groups="SELECT g, COUNT(*), SUM(b) FROM t GROUP BY g"
export here folder program schema rows processors

# each COMMAND: runs it for each part, whose number stands in $1, on all processors or, where `processors` is 1, in turn.
each() {
    seq 8 | xargs -P "$processors" -I{} sh -c "$1" each {}
}

# milliseconds FILE COMMAND..: until the command ended.
milliseconds() {
    figures=$(least 1 "$@") || exit 1
    echo "$figures" | cut -d ' ' -f 2
}

each '"$here/bench/table.sh" "$1" "$rows" "$folder/$1.csv"' || exit 1
cat >"$folder/load" <<'END'
seq 8 | xargs -P "$1" -I{} "$program" load "$folder/{}.csv" "$folder/{}.daq" "$schema"
END
cat >"$folder/ask" <<'END'
for part in 1 2 3 4 5 6 7 8; do
    "$program" query "$folder/$part.daq" "$sql" --policy balanced >"$folder/report.$part" || exit 1
    echo "$part"
done
END
cat >"$folder/combined" <<'END'
for part in 1 2 3 4 5 6 7 8; do
    "$program" query "$folder/$part.daq" "$sql" --policy balanced | sed -u "s/^/$part\t/" &
done | "$program" combine 8 /dev/stdin
END

echo "8 parts of $rows rows, $(cat "$folder"/?.csv | wc -c) bytes of CSV; $processors processors"
one=$(milliseconds "$folder/loaded" sh "$folder/load" 1) || exit 1
all=$(milliseconds "$folder/loaded" sh "$folder/load" "$processors") || exit 1
echo "$one $all" | awk '{ printf "load: in turn %.0f ms, by all processors %.0f ms, %.2f times faster\n", $1, $2, $1 / $2 }'
# The number and the sum of each key of the last block of each report, where the report ends.
last_blocks() {
    awk '
        /^round / { split("", count); split("", sum); key = "all" }
        /^group / { key = $2 }
        /^1 / { count[key] = $2 }
        /^2 / { sum[key] = $2 }
        /^end / { for (key in count) print key, count[key], sum[key] }' "$@"
}

# Adds these up, key by key.
added() {
    awk '{ count[$1] += $2; sum[$1] += $3 } END { for (key in count) printf "%s %d %.2f\n", key, count[key], sum[key] }' | sort
}

for kind in totals groups; do
    [ $kind = totals ] && sql=$totals || sql=$groups
    export sql
    one=$(milliseconds "$folder/asked" sh "$folder/ask") || exit 1
    figures=$(least 5 "$folder/report" sh "$folder/combined") || exit 1
    echo "$kind $one $figures" | awk '{
        printf "all rounds, %s: in turn %.0f ms, by all processors and combined %.0f ms (first block %.1f ms), %.2f times faster\n", $1, $2, $4, $3, $2 / $4
    }'
    last_blocks "$folder/report" | added >"$folder/told" || exit 1
    last_blocks "$folder"/report.[1-8] | added | cmp -s - "$folder/told" || { echo 'parts.sh: other answers' >&2; exit 1; }
done

# reports KIND PARTS ROUNDS: reports of so many parts, whose lines come round by round; a block has 16 sums, by groups 4 of each of 4 keys.
reports() {
    awk -v kind="$1" -v parts="$2" -v rounds="$3" '
        function sums(p, r, from, to, i) {
            for (i = from; i <= to; i++) print "part" p "\t" i " [" 1000000 + r + i ", " 900000000 - r - p "]"
        }
        BEGIN {
            items = "SUM(c1)"
            for (i = 2; i <= (kind == "groups" ? 4 : 16); i++) items = items ", SUM(c" i ")"
            for (p = 1; p <= parts; p++) print "part" p "\tquery SELECT " items " FROM t" (kind == "groups" ? " GROUP BY k" : "")
            for (r = 0; r <= rounds; r++)
                for (p = 1; p <= parts; p++) {
                    print "part" p "\tround " r (r ? " c1 " r "/" rounds : "")
                    if (kind == "totals") sums(p, r, 1, 16)
                    else for (key = 1; key <= 4; key++) {
                        print "part" p "\tgroup " key " present"
                        sums(p, r, 1, 4)
                    }
                }
            for (p = 1; p <= parts; p++) print "part" p "\tend rounds"
        }'
}

for parts in 8 300; do
    for kind in totals groups; do
        reports $kind "$parts" $((120000 / parts)) >"$folder/reports"
        bytes=$(wc -c <"$folder/reports")
        figures=$(least 1 "$folder/report" "$program" combine "$parts" "$folder/reports") || exit 1
        echo "$figures" | awk -v kind=$kind -v parts="$parts" -v bytes="$bytes" '{
            printf "combine, %s of %d parts, %.1f MB of reports: %.0f ms, %.0f MB a second, %d KB\n", kind, parts, bytes / 1e6, $2, bytes / 1e3 / $2, $3
        }'
    done
    "$here/bench/delay.py" "$program" "$parts" || exit 1
done
