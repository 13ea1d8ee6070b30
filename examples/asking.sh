# What the examples share: a table is loaded, and each question is asked until a person has seen enough, and then to its end.
# A script that takes this in is called as NAME.sh [PROGRAM], and asks the table NAME.csv. Without PROGRAM it is daq at the top.

folder=$(CDPATH='' cd -- "$(dirname -- "$0")" && pwd) || exit 1
name=$(basename -- "$0" .sh)
program=${1:-$folder/../daq}
planes=$(mktemp) || exit 1
trap 'rm -f "$planes"' EXIT

# load SCHEMA
load() {
    echo "\$ daq load $name.csv $name.daq $1"
    "$program" load "$folder/$name.csv" "$planes" "$1" || exit 1
}

# ask QUESTION SQL [OPTION ..]: the options say when it is enough.
ask() {
    question=$1 sql=$2
    shift 2
    printf '\n# %s\n$ daq query %s.daq "%s"%s\n' "$question" "$name" "$sql" "${*:+ $*}"
    "$program" query "$planes" "$sql" "$@" || exit 1
}

# to_the_end [OPTION ..]: the last block of the same question, once no option ends it.
to_the_end() {
    printf '\n# To the end:\n'
    "$program" query "$planes" "$sql" "$@" | awk '/^round / { block = "" } { block = block $0 "\n" } END { printf "%s", block }'
}

# draw [OPTION ..]: the picture of the same question.
draw() {
    printf '\n# As a picture:\n'
    "$program" query "$planes" "$sql" "$@" | "$folder/../companion/daq-view" picture --text
}
