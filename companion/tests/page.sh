#!/bin/sh
# Tries the page in a browser without a screen: page.sh PROGRAM [PICTURE] loads a table, asks it on the page, and keeps what the browser shows
# as PICTURE, which is docs/page.png where none is named. It needs chromium, and ends with 0 where the page showed the last block.
here=$(CDPATH='' cd -- "$(dirname -- "$0")/../.." && pwd) || exit 1
program=${1:?usage: page.sh PROGRAM [PICTURE]}
picture=${2:-$here/docs/page.png}
folder=$(mktemp -d) || exit 1
trap 'kill "$server" 2>/dev/null; rm -rf "$folder"' EXIT
"$program" load "$here/examples/zones.csv" "$folder/zones.daq" "$("$here/companion/daq-view" schema "$here/examples/zones.csv")" || exit 1
: >"$folder/url"
"$here/companion/daq-view" page "$folder/zones.daq" --program "$program" >"$folder/url" &
server=$!
while ! grep -q http "$folder/url"; do
    kill -0 "$server" || exit 1
    sleep 0.1
done
read -r url _ <"$folder/url"
question='policy=filter&within=25&sql=SELECT+area,+COUNT(*),+AVG(latitude)+FROM+t+GROUP+BY+area'
browse() {
    chromium --headless --no-sandbox --disable-gpu --hide-scrollbars --window-size=1000,900 --virtual-time-budget=20000 "$@" 2>/dev/null
}
browse "--screenshot=$picture" "$url?$question" || exit 1
browse --dump-dom "$url?$question" | grep -q 'narrow enough' || exit 1
echo "ok: $picture"
