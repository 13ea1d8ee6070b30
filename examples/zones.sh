#!/bin/sh
# Three questions to the time zones of the world.
. "$(dirname -- "$0")/asking.sh"

load 'country:text,area:text,zone:text,latitude:dec4,longitude:dec4,part:text?'

ask 'How far east do the zones of America lie on average, to a degree? That is 10000 units of the last digit.' \
    "SELECT AVG(longitude) FROM t WHERE area = 'America'" --policy filter --width 10000
to_the_end --policy filter

ask 'How many zones has each part of the world, and how many of them are for a part of a country? Four planes tell the first.' \
    'SELECT area, COUNT(*), COUNT(part) FROM t GROUP BY area' --policy filter --rounds 4
to_the_end --policy filter
draw --policy filter --rounds 4

ask 'Which three of Europe lie furthest north?' \
    "SELECT * FROM t WHERE area = 'Europe' ORDER BY latitude DESC LIMIT 3" --policy filter
sed -n '47p; 148p; 274p' "$folder/zones.csv"
