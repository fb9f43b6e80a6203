#!/usr/bin/env bash
# Times a filter and a group by over a table of four parts of some 50 MB each, and over one of 32
# parts that a list file names, which have the same rows, on one, two and four threads, and prints
# the fastest of five runs of each. It is no test. The data is made once, in bench/data/, which
# isn't committed.
set -euo pipefail
here=$(cd "$(dirname "${BASH_SOURCE[0]}")" && pwd)
rows=${ROWS:-1600000}
data=$here/data
mkdir -p "$data"
parts=
for part in 0 1 2 3; do
    file=$data/part${part}_$rows.csv
    [ -s "$file" ] || awk -v n="$rows" -v p="$part" 'BEGIN {
        for (i = 0; i < n; i++)
            printf "%d,%d,%s,name_%d,%d\n", i * 7919 % 1000, (i * 31 + p) % 1000003,
                substr("uvwxyz", i * 7 % 6 + 1, 1), i * 7919 % 50000, i % 1000 - 500
    }' >"$file"
    parts=$parts${parts:++}$file
    [ -s "$file.7" ] || split -n l/8 -a 1 --numeric-suffixes=0 "$file" "$file."
done
for part in "$data"/part?_"$rows".csv.?; do echo "$part"; done >"$data/parts_$rows"
"$here/../qrun" --prove # builds what is missing

# the fastest of five runs, in seconds
fastest() {
    local best=999999 seconds
    for _ in 1 2 3 4 5; do
        /usr/bin/time -f %e -o "$data/time" "$here/../qrun" "$@" >/dev/null
        seconds=$(cat "$data/time")
        if awk "BEGIN { exit !($seconds < $best) }"; then best=$seconds; fi
    done
    echo "$best"
}

for table in "$parts" "@$data/parts_$rows"; do
    [ "$table" = "$parts" ] && echo "four parts" || echo "a list of 32 parts"
    for query in "SELECT k FROM t WHERE v > 1000" "SELECT k, count(), sum(v) FROM t GROUP BY k"; do
        one=
        for threads in 1 2 4; do
            seconds=$(fastest --threads "$threads" --query "$query" \
                --tables "t=$table:k Int64,m Int64,s String,n String,v Int64")
            one=${one:-$seconds}
            awk -v q="$query" -v t="$threads" -v s="$seconds" -v o="$one" \
                'BEGIN { printf "%-44s %d threads %6.2f s, %.2f times as fast\n", q, t, s, o / s }'
        done
    done
done
