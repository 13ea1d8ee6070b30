#!/bin/sh
# Shows which bytes of a plane file `daq query --rounds 3` reads, over the table that `daq demo 1` makes of 2^20 rows (or of so many as the first word says):
# no more than those of its head and of three planes. Prints the bytes of these and those that the system handed over for the file, by strace, and ends with
# 0 only where these are not more.
here=$(CDPATH='' cd -- "$(dirname -- "$0")/.." && pwd) || exit 1
folder=$(mktemp -d) || exit 1
trap 'rm -rf "$folder"' EXIT
rows=${1:-1048576}
"$here/daq" ask "$here/examples/p.csv" price:int "SELECT SUM(price) FROM t" >/dev/null || exit 1
program=$here/crates/daq/out/daq
planes=$folder/t.daq
awk -v seed=1 -v rows="$rows" -f "$here/bench/table.awk" >"$folder/t.csv" || exit 1
"$program" load "$folder/t.csv" "$planes" a:int,b:dec2,d:date,g:text >/dev/null || exit 1

# A number of eight bytes at a place of the file.
number_at() {
    od -A n -t u8 -j "$1" -N 8 "$planes" | tr -d ' '
}

strace -o "$folder/calls" -P "$planes" "$program" query "$planes" "SELECT COUNT(*), SUM(b), MAX(d) FROM t WHERE a < 0" --rounds 3 >/dev/null || exit 1
if grep -q '^mmap' "$folder/calls"; then
    echo "the file is mapped, so no call tells which bytes are read" >&2
    exit 1
fi
head=$((32 + $(number_at 24)))
plane=$((($(number_at 16) + 63) / 64 * 8))
read=$(awk '/^p?read(64|v|v2)?\(/ { sum += $NF; calls++ } END { print sum + 0, "in", calls + 0 }' "$folder/calls")
echo "the head of $head bytes and 3 planes of $plane: $((head + 3 * plane)) of the file's $(wc -c <"$planes"); read: $read calls"
[ "${read%% *}" -gt 0 ] && [ "${read%% *}" -le $((head + 3 * plane)) ]
