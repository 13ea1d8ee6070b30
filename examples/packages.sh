#!/bin/sh
# Three questions to the packages of a Debian system.
. "$(dirname -- "$0")/asking.sh"

load 'package:text,section:text,priority:text,kib:int,source:text?'

ask 'What do all packages take, to 100 MB? After 12 of 19 planes the sum is known to three percent.' \
    'SELECT SUM(kib) FROM t' --width 100000
to_the_end

ask 'And the packages of three languages, to 5 MB? The sections are read first.' \
    "SELECT section, COUNT(*), SUM(kib) FROM t WHERE section IN ('java', 'perl', 'python') GROUP BY section" \
    --policy filter --width 5000
to_the_end --policy filter

ask 'Which five are the largest? Four planes tell which they are, long before their sizes are known.' \
    'SELECT * FROM t ORDER BY kib DESC LIMIT 5'
draw
