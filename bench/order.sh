#!/usr/bin/env bash
# Times ORDER BY over five million rows: by two numbers, by a text and then a number, and both with
# LIMIT, in one lane and in four, beside the same over Nullable columns and the rows without an
# order, and beside sqlite3 where it is installed. It is no test. The data is made once, in
# bench/data/, which isn't committed.
set -euo pipefail
here=$(cd "$(dirname "${BASH_SOURCE[0]}")" && pwd)
rows=${ROWS:-5000000}
data=$here/data
file=$data/numbers_$rows.csv
mkdir -p "$data"
. "$here/numbers.sh"
[ -s "$file" ] || numbers "$rows" >"$file"
"$here/../qrun" --prove # builds what is missing

. "$here/measure.sh"
tables="t=$file:a Int64,b Int64,c Int64,d String"
nullable=$(sed -E 's/(Int64|String)/Nullable(\1)/g' <<<"$tables")
for order in '' 'ORDER BY b, a' 'ORDER BY d, a' \
    'ORDER BY b, a LIMIT 10' 'ORDER BY d, a LIMIT 10'; do
    for lanes in 1 4; do
        measure "${order:-no order}, $lanes" "$here/../qrun" --threads "$lanes" \
            --query "SELECT a, b, d FROM t $order" --tables "$tables"
    done
    measure "${order:-no order}, Nullable" "$here/../qrun" --query "SELECT a, b, d FROM t $order" \
        --tables "$nullable"
    if command -v sqlite3 >/dev/null; then
        measure "sqlite3 ${order:-no order}" sqlite3 -csv :memory: \
            'CREATE TABLE t(a INTEGER, b INTEGER, c INTEGER, d TEXT)' ".import $file t" \
            "SELECT a, b, d FROM t $order"
    fi
done
