#!/usr/bin/env bash
# Times groups over five million rows: by 1,000 numbers, by a million numbers, by a text of few and
# of 50,000 values, by two columns and without keys, in one lane and in four, beside the same over
# Nullable columns and the rows alone, and beside sqlite3 where it is installed. It is no test. The
# data is made once, in bench/data/, which isn't committed.
set -euo pipefail
here=$(cd "$(dirname "${BASH_SOURCE[0]}")" && pwd)
rows=${ROWS:-5000000}
data=$here/data
file=$data/keys_$rows.csv
mkdir -p "$data"
[ -s "$file" ] || awk -v n="$rows" 'BEGIN {
    for (i = 0; i < n; i++)
        printf "%d,%d,%s,name_%d,%d\n", i * 7919 % 1000, i * 31 % 1000003,
            substr("uvwxyz", i * 7 % 6 + 1, 1), i * 7919 % 50000, i % 1000 - 500
}' >"$file"
"$here/../qrun" --prove # builds what is missing

. "$here/measure.sh"
tables="t=$file:k Int64,m Int64,s String,n String,v Int64"
nullable=$(sed -E 's/(Int64|String)/Nullable(\1)/g' <<<"$tables")
for keys in k m s n 'k, s' ''; do
    query="SELECT ${keys:+$keys, }count(), sum(v), max(v) FROM t ${keys:+GROUP BY $keys}"
    for lanes in 1 4; do
        measure "${keys:-no keys}, $lanes" "$here/../qrun" --threads "$lanes" --query "$query" \
            --tables "$tables"
    done
    measure "${keys:-no keys}, Nullable" "$here/../qrun" --query "$query" --tables "$nullable"
    if command -v sqlite3 >/dev/null; then
        measure "sqlite3 ${keys:-no keys}" sqlite3 -csv :memory: \
            'CREATE TABLE t(k INTEGER, m INTEGER, s TEXT, n TEXT, v INTEGER)' \
            ".import $file t" "$query"
    fi
done
# a million groups of which none is written, and reading alone: no row passes
for lanes in 1 4; do
    measure "m, none, $lanes" "$here/../qrun" --threads "$lanes" --tables "$tables" \
        --query "SELECT m, count(), sum(v), max(v) FROM t GROUP BY m HAVING count() > 1000"
    measure "rows, $lanes" "$here/../qrun" --threads "$lanes" \
        --query "SELECT k FROM t WHERE v > 1000" --tables "$tables"
done
