#!/bin/sh
# Three questions to the changes of the clocks of the world.
. "$(dirname -- "$0")/asking.sh"

load 'area:text,city:text,day:date,ahead:int,step:int'

ask 'How often did clocks change in Europe from 2010 to 2019? Nine of 18 planes tell that it was 461 to 657 times.' \
    "SELECT COUNT(*) FROM t WHERE area = 'Europe' AND day BETWEEN DATE '2010-01-01' AND DATE '2019-12-31'" \
    --reads area,area,area,area,day,day,day,day,day
to_the_end

ask 'When did clocks last change in each part of the world, to the month?' \
    'SELECT area, MAX(day) FROM t GROUP BY area' --policy filter --width 31
to_the_end --policy filter

ask 'Where were clocks put forward the furthest? One plane tells which two they are: islands that left out a day.' \
    'SELECT * FROM t ORDER BY step DESC LIMIT 2'
sed -n '5977p; 7385p' "$folder/clocks.csv"
