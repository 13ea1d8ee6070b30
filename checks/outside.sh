#!/bin/sh
# Tries a built program from outside: what it writes, the line of each refusal and the status that it ends with.
# checks/outside.sh PROGRAM prints a line for each check, and ends with 0 only where all hold.

program=$1
[ -x "$program" ] || { echo "usage: checks/outside.sh PROGRAM" >&2; exit 2; }
here=$(CDPATH='' cd -- "$(dirname -- "$0")/.." && pwd) || exit 1
work=$(mktemp -d) || exit 1
trap 'rm -rf "$work"' EXIT
failed=0
sum='SELECT SUM(price) FROM t'
prices=$here/examples/p.csv

# Whether the last run ended with this status, wrote these bytes, and wrote this line to standard error (none, where it is empty).
holds() {
    name=$1 status=$2 out=$3 line=$4
    printf '%s' "$out" >"$work/want.out"
    if [ -n "$line" ]; then printf '%s\n' "$line"; fi >"$work/want.err"
    if [ "$ended" -eq "$status" ] && cmp -s "$work/want.out" "$work/out" && cmp -s "$work/want.err" "$work/err"; then
        echo "ok: $name"
    else
        echo "FAILED: $name: ended with $ended, wanted $status; standard error: $(cat "$work/err")"
        failed=1
    fi
}

# Runs the program with these words.
run() {
    "$program" "$@" >"$work/out" 2>"$work/err" </dev/null
    ended=$?
}

# Checks that the words are refused: a name, a status and a line, then the words.
refused() {
    name=$1 status=$2 line=$3
    shift 3
    run "$@"
    holds "$name" "$status" '' "$line"
}

report="query $sum
round 0
1 [12, 48]
round 1 price 1/4
1 [20, 42]
round 2 price 2/4
1 [24, 34]
round 3 price 3/4
1 [28, 32]
round 4 price 4/4
1 29
end narrow
"

run ask "$prices" price:int "$sum"
holds 'a report' 0 "$report" ''

# ---- words

refused 'no words' 2 'daq: usage: word 1'
refused 'another command' 2 'daq: usage: word 1' sum "$prices" price:int "$sum"
refused 'too few words' 2 'daq: usage: word 4' ask "$prices" price:int
refused 'too many words' 2 'daq: usage: word 5' ask "$prices" price:int "$sum" more
refused 'a word that is no text' 2 'daq: usage: word 1' ask "$(printf '\377')" price:int "$sum"

# ---- the program itself

run --version
version="$(head -n 1 "$here/CHANGELOG.md")"
holds 'the version' 0 "daq ${version#\# }
" ''
cp "$work/out" "$work/version"
run -V
holds 'the version by its letter' 0 "$(cat "$work/version")
" ''
run help
if [ "$ended" -eq 0 ] && [ ! -s "$work/err" ] && grep -q '^  daq load CSV FILE SCHEMA ' "$work/out"; then
    echo 'ok: the help'
else
    echo 'FAILED: the help'
    failed=1
fi
cp "$work/out" "$work/help"
for word in --help -h; do
    run "$word"
    if [ "$ended" -eq 0 ] && cmp -s "$work/help" "$work/out"; then echo "ok: $word"; else echo "FAILED: $word"; failed=1; fi
done
refused 'help with a word' 2 'daq: usage: word 2' help query
refused 'an option before a command' 2 'daq: usage: word 1' --list --help

# ---- query

refused 'no query' 3 'daq: query refused: syntax at 17' ask "$prices" price:int 'SELECT SUM(price FROM t'
refused 'an unknown column' 3 'daq: query refused: unknown column at 11' ask "$prices" price:int 'SELECT SUM(cost) FROM t'
refused 'a column that is not grouped' 3 'daq: query refused: not grouped at 7' ask "$prices" price:int 'SELECT price FROM t'

# ---- table

# The header is the first record.
printf 'price\n5\nx\n' >"$work/bad.csv"
refused 'no schema' 4 'daq: table refused: schema item at 0' ask "$prices" price "$sum"
refused 'no value of the kind' 4 'daq: table refused: record 3 column 1 is no value of its kind' ask "$work/bad.csv" price:int "$sum"
refused 'another header' 4 'daq: table refused: header differs at column 1' ask "$prices" cost:int "$sum"

# ---- plane files

shop=$here/examples/shop.csv
schema=price:int,qty:int,city:text
planes=$work/shop.daq
run load "$shop" "$planes" "$schema"
holds 'a file is made' 0 'loaded 4 rows, 3 columns, 8 planes, 195 bytes
' ''
run query "$planes" "$sum"
holds 'a report of a file' 0 "$report" ''
run info "$planes"
holds 'the head of a file' 0 "version 2 rows 4 columns 3
column 1 price int width 4 from 3 to 12
column 2 qty int width 2 from 1 to 4
column 3 city text width 2 from 'Bern' to 'Rome'
" ''
run upgrade "$planes" "$work/again.daq"
holds 'a file is made anew' 0 'upgraded 4 rows, 3 columns, 8 planes, 195 bytes
' ''
cmp -s "$planes" "$work/again.daq" || { echo 'FAILED: the file that is made anew differs'; failed=1; }

refused 'a missing plane file' 6 'daq: read fault' query "$work/missing.daq" "$sum"
refused 'a CSV as a plane file' 5 'daq: file refused: not a plane file' info "$shop"
head -c 194 "$planes" >"$work/short.daq"
refused 'a shorter file' 5 'daq: file refused: size 194, not 195' query "$work/short.daq" "$sum"

# ---- sessions

run session "$planes" "$here/examples/shop.sql"
holds 'a session' 0 "queries 3
1 SELECT SUM(price) FROM t
2 SELECT COUNT(*) FROM t WHERE price < 7
3 SELECT MIN(qty) FROM t
at 0 query 1
round 0
1 [12, 48]
at 0 query 2
round 0
1 [0, 4]
at 0 query 3
round 0
1 [1, 4]
at 1 query 1
round 1 price 1/4
1 [20, 42]
at 1 query 2
round 1 price 1/4
1 [0, 3]
at 2 query 1
round 2 price 2/4
1 [24, 34]
at 2 query 2
round 2 price 2/4
1 2
at 3 query 1
round 3 price 3/4
1 [28, 32]
at 4 query 3
round 1 qty 1/2
1 [1, 2]
at 5 query 1
round 4 price 4/4
1 29
at 6 query 3
round 2 qty 2/2
1 1
end narrow
" ''

# Checks that a session over a script of these bytes, as printf writes them, is refused: a name, a line, and the bytes.
no_session() {
    printf '%b' "$3" >"$work/script"
    refused "$1" 3 "daq: query refused: $2" session "$planes" "$work/script"
}

echo "$sum" >"$work/one"
no_session 'an unknown column in a session' 'line 2: unknown column at 11' 'SELECT SUM(price) FROM t\nSELECT SUM(cost) FROM t\n'
no_session 'no query in a line' 'line 3: syntax at 17' '\r\n\nSELECT SUM(price FROM t'
no_session 'an empty script' 'no query in the script' ''
no_session 'a script that is no text' 'script is no text at 2' 'a\n\0377'
awk 'BEGIN { for (i = 0; i < 17; i++) print "SELECT COUNT(*) FROM t" }' >"$work/many"
refused 'too many queries' 3 'daq: query refused: 17 queries' session "$planes" "$work/many"
head -c 131073 /dev/zero >"$work/long"
refused 'a long script' 3 'daq: query refused: script longer than 131072 bytes' session "$planes" "$work/long"
refused 'a missing script' 6 'daq: read fault' session "$planes" "$work/missing.sql"
refused 'a session by a list of reads' 2 'daq: usage: word 4' session "$planes" "$work/many" --reads price

# ---- parts

# The report of a part, each line behind its tag: a tag, and a CSV as printf writes it.
part() {
    printf '%b' "$2" >"$work/$1.csv"
    "$program" ask "$work/$1.csv" price:int "$sum" </dev/null | awk -v tag="$1" '{ print tag "\t" $0 }'
}

opening="query $sum
parts 2
"
combined="${opening}round 0
1 [16, 42]
round 1
1 [28, 39]
round 2
1 [28, 33]
round 3
1 [28, 30]
round 4
1 29
end narrow
"
{ part a 'price\n5\n9\n' && part b 'price\n12\n3\n'; } >"$work/reports"
run combine 2 "$work/reports"
holds 'parts in a file' 0 "$combined" ''
{ sleep 0.1 && cat "$work/reports"; } | "$program" combine 2 /dev/stdin >"$work/out" 2>"$work/err"
ended=$?
holds 'parts through a pipe' 0 "$combined" ''
# What comes behind the end is not read: the pipe closes, which ends whoever writes it.
{ cat "$work/reports"; yes; } 2>/dev/null | "$program" combine 2 /dev/stdin --rounds 0 >"$work/out" 2>"$work/err"
ended=$?
holds 'a pipe without end' 0 "${opening}round 0
1 [16, 42]
end rounds
" ''
head -n 3 "$work/reports" >"$work/cut"
run combine 2 "$work/cut"
holds 'a part that ends early' 9 "$opening" 'daq: report refused: part a ends early'
head -n 10 "$work/reports" >"$work/first"
run combine 2 "$work/first"
holds 'too few parts' 9 "$opening" 'daq: report refused: 1 parts, not 2'
refused 'a line without a tab' 9 'daq: report refused: line 1: no tab' combine 2 "$prices"
refused 'no number of parts' 2 'daq: usage: word 2' combine 0 "$work/reports"
refused 'a policy for parts' 2 'daq: usage: word 4' combine 2 "$work/reports" --policy order
refused 'reports that are missing' 6 'daq: read fault' combine 2 "$work/missing"

# The second plane of the price gives its third row a value past the top.
{ head -c 139 "$planes"; printf '\006'; tail -c 55 "$planes"; } >"$work/damaged.daq"
run query "$work/damaged.daq" "$sum"
holds 'a damaged plane' 5 "query $sum
round 0
1 [12, 48]
round 1 price 1/4
1 [20, 42]
" 'daq: file refused: column 1 plane 2 row 3 passes its top'
run session "$work/damaged.daq" "$work/one"
holds 'a damaged plane in a session' 5 "queries 1
1 $sum
at 0 query 1
round 0
1 [12, 48]
at 1 query 1
round 1 price 1/4
1 [20, 42]
" 'daq: file refused: column 1 plane 2 row 3 passes its top'

# A refused table leaves an old file as it was.
cp "$planes" "$work/kept.daq"
refused 'a table that is not written' 4 'daq: table refused: record 3 column 1 is no value of its kind' load "$work/bad.csv" "$work/kept.daq" price:int
cmp -s "$planes" "$work/kept.daq" || { echo 'FAILED: a refused table wrote a file'; failed=1; }
cp "$shop" "$work/shop.csv"
refused 'the file that is read' 7 'daq: write fault' load "$work/shop.csv" "$work/shop.csv" "$schema"
cmp -s "$shop" "$work/shop.csv" || { echo 'FAILED: the file that is read was written'; failed=1; }
refused 'a file in no folder' 7 'daq: write fault' load "$shop" "$work/missing/shop.daq" "$schema"

# With standard output closed the file that is opened must not take its place.
"$program" load "$shop" "$work/closed.daq" "$schema" >&- 2>"$work/err" </dev/null
ended=$?
: >"$work/out"
holds 'a file with standard output closed' 7 '' 'daq: write fault'
[ ! -e "$work/closed.daq" ] || { echo 'FAILED: a file was made with standard output closed'; failed=1; }

# ---- devices

refused 'a missing file' 6 'daq: read fault' ask "$work/missing.csv" price:int "$sum"
refused 'a directory' 6 'daq: read fault' ask "$work" price:int "$sum"

"$program" ask "$prices" price:int "$sum" >&- 2>"$work/err" </dev/null
ended=$?
: >"$work/out"
holds 'a closed standard output' 7 '' 'daq: write fault'

"$program" ask "$prices" price:int 2>&- >"$work/out" </dev/null
ended=$?
: >"$work/err"
holds 'a closed standard error' 7 '' ''

if [ -e /dev/full ]; then
    "$program" ask "$prices" price:int "$sum" >/dev/full 2>"$work/err" </dev/null
    ended=$?
    holds 'a full standard output' 7 '' 'daq: write fault'
    "$program" ask "$prices" price:int >"$work/out" 2>/dev/full </dev/null
    ended=$?
    : >"$work/err"
    holds 'a full standard error' 7 '' ''
fi

# ---- memory: 40 million bytes in 32 million

{ echo price; yes 1 | head -n 20000000; } >"$work/long.csv"
(ulimit -v 32768 && exec "$program" ask "$work/long.csv" price:int "$sum") >"$work/out" 2>"$work/err" </dev/null
ended=$?
holds 'no memory' 8 '' 'daq: no memory'

exit "$failed"
