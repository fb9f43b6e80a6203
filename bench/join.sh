#!/usr/bin/env bash
# Times joins of five million rows with 1,000 and 100,000 rows: with one match a row, with three,
# and with none, beside the same over Nullable columns and reading alone, in one lane and in four,
# and beside sqlite3 where it is installed. Then a join of 3,000 by 3,000 equal keys, nine million
# rows, with its memory. It is no test. The data is made once, in bench/data/, which isn't
# committed.
set -euo pipefail
here=$(cd "$(dirname "${BASH_SOURCE[0]}")" && pwd)
rows=${ROWS:-5000000}
data=$here/data
mkdir -p "$data"
left=$data/left_$rows.csv
[ -s "$left" ] || awk -v n="$rows" 'BEGIN {
    for (i = 0; i < n; i++) printf "%d,%d,%d\n", i * 7919 % 1000, i * 31 % 100000, i % 1000
}' >"$left"
for keys in 1000 100000; do
    for matches in 1 3; do
        file=$data/right_${keys}_$matches.csv
        [ -s "$file" ] || awk -v n="$keys" -v m="$matches" 'BEGIN {
            for (i = 0; i < n * m; i++) printf "%d,%d\n", i % n, i
        }' >"$file"
    done
done
equal=$data/equal_3000.csv
[ -s "$equal" ] || awk 'BEGIN { for (i = 0; i < 3000; i++) print "7," i }' >"$equal"
"$here/../qrun" --prove # builds what is missing

file=$left
. "$here/measure.sh"
table="l=$left:k Int64,m Int64,a Int64"
for lanes in 1 4; do
    measure "rows, $lanes" "$here/../qrun" --threads "$lanes" --tables "$table" \
        --query "SELECT k FROM l WHERE a > 1000"
done
for keys in 1000 100000; do
    on=$([ "$keys" = 1000 ] && echo k || echo m)
    for matches in 1 3; do
        tables="$table;r=$data/right_${keys}_$matches.csv:j Int64,b Int64"
        query="SELECT count(), sum(b) FROM l JOIN r ON $on = j"
        for lanes in 1 4; do
            measure "$keys keys, $matches a row, $lanes" "$here/../qrun" --threads "$lanes" \
                --query "$query" --tables "$tables"
        done
        measure "$keys keys, $matches a row, Nullable" "$here/../qrun" --query "$query" \
            --tables "$(sed 's/Int64/Nullable(&)/g' <<<"$tables")"
        if command -v sqlite3 >/dev/null; then
            measure "sqlite3 $keys keys, $matches" sqlite3 -csv :memory: \
                'CREATE TABLE l(k INTEGER, m INTEGER, a INTEGER)' \
                'CREATE TABLE r(j INTEGER, b INTEGER)' ".import $left l" \
                ".import $data/right_${keys}_$matches.csv r" "${query/count()/count(*)}"
        fi
    done
done
measure "equal keys" "$here/../qrun" --query "SELECT count() FROM l JOIN r ON l.k = r.k" \
    --tables "l=$equal:k Int64,a Int64;r=$equal:k Int64,b Int64"
