#!/bin/sh
# Times planes of 2^24 rows (or so many as the first word says) of 32 binary digits, in the program `plane_bench`: the highest plane cut from the
# cells, the next plane cut and taken into what is known of the column, and the same with a filter of one comparison that follows. Then it times how
# the numbers of all rows are read from the column, in blocks of 64 rows, after 8 of its planes, after 20 and after all.
# Prints seconds of one plane, by the clock and by the processor's time, as the difference between runs of more and of fewer planes; nanoseconds of
# one row's number, as the difference between runs that read and that do not; and the peak memory of the last run.
here=$(CDPATH='' cd -- "$(dirname -- "$0")/.." && pwd) || exit 1
program=$here/crates/plane_bench/out/plane_bench
rows=${1:-16777216}
(cd "$here/crates/plane_bench" && rt run -- cut 1 1) >/dev/null 2>&1 || { echo "plane_bench cannot be built" >&2; exit 1; }

# Wall seconds, processor seconds and peak kilobytes of so many planes.
run() {
    /usr/bin/time -f '%e %U %M' "$program" "$1" "$rows" "$2" 2>&1 >/dev/null
}

# Seconds of one plane, out of runs of few planes and of many.
measure() {
    few=$(run "$1" "$2") && many=$(run "$1" "$3") || exit 1
    echo "$few $many" | awk -v n="$(($3 - $2))" '{ printf "%.4f %.4f %d\n", ($4 - $1) / n, ($5 - $2) / n, $6 }'
}

# Nanoseconds of one row's number after so many planes, out of a run that reads them all 16 times and of one that does not.
measure_read() {
    without=$(run take "$1") && with=$(run sum "$1") || exit 1
    echo "$without $with" | awk -v n="$((rows * 16))" '{ printf "%.2f %.2f %d\n", ($4 - $1) * 1e9 / n, ($5 - $2) * 1e9 / n, $6 }'
}

cut=$(measure cut 1 31) || exit 1
take=$(measure take 1 17) || exit 1
follow=$(measure follow 1 17) || exit 1
few=$(measure_read 8) || exit 1
some=$(measure_read 20) || exit 1
all=$(measure_read 32) || exit 1
echo "$cut" | awk '{ print "transpose: " $1 " s, processor " $2 " s, memory " $3 " KB" }'
echo "$take" | awk '{ print "transpose and take: " $1 " s, processor " $2 " s, memory " $3 " KB" }'
echo "$take $follow" | awk '{ printf "refresh: %.4f s, processor %.4f s, memory %d KB\n", $4 - $1, $5 - $2, $6 }'
echo "$few" | awk '{ print "numbers of 8 planes: " $1 " ns a row, processor " $2 " ns, memory " $3 " KB" }'
echo "$some" | awk '{ print "numbers of 20 planes: " $1 " ns a row, processor " $2 " ns, memory " $3 " KB" }'
echo "$all" | awk '{ print "numbers of 32 planes: " $1 " ns a row, processor " $2 " ns, memory " $3 " KB" }'
