#!/bin/sh
# Writes the CSV of the table that `daq demo SEED` makes of so many rows: table.sh SEED ROWS PATH. Where the variable TABLES names a folder,
# the table is made once, kept there for later runs, and PATH leads to it.
here=$(CDPATH='' cd -- "$(dirname -- "$0")" && pwd) || exit 1
made=$3
if [ -n "$TABLES" ]; then
    kept=$TABLES/demo$1-$2.csv
    ln -sf "$kept" "$3" || exit 1
    [ ! -f "$kept" ] || exit 0
    made=$kept.part.$$
fi
awk -v seed="$1" -v rows="$2" -f "$here/table.awk" >"$made" || exit 1
[ -z "$TABLES" ] || mv "$made" "$kept"
