#!/usr/bin/env bash
# Times the projection of 2 of 5 columns of a file of some 200 MB, beside sqlite3 and mlr where they
# are installed, and prints a table. It is no test. The data is made once, in bench/data/, which
# isn't committed.
set -euo pipefail
here=$(cd "$(dirname "${BASH_SOURCE[0]}")" && pwd)
rows=${ROWS:-5000000}
data=$here/data
file=$data/sales_$rows.csv
mkdir -p "$data"
if [ ! -s "$file" ]; then
    awk -v n="$rows" 'BEGIN {
        srand(7)
        for (i = 0; i < n; i++)
            printf "%d,shop %d,%d,%d,2024-%02d-%02d\n", i * 7919 % 1000003 - 500000, i % 997,
                rand() * 100000, i * 31 % 1000007, i % 12 + 1, i % 28 + 1
    }' >"$file"
fi
"$here/../qrun" --prove # builds what is missing

. "$here/measure.sh"
tables="t=$file:id Int64,shop String,quantity UInt64,price Int64,day String"
measure qrun "$here/../qrun" --query 'SELECT shop, price FROM t' --tables "$tables"
if command -v sqlite3 >/dev/null; then
    measure 'sqlite3 (import, select)' sqlite3 -csv :memory: \
        'CREATE TABLE t(id INTEGER, shop TEXT, quantity INTEGER, price INTEGER, day TEXT)' \
        ".import $file t" 'SELECT shop, price FROM t'
fi
if command -v mlr >/dev/null; then
    measure 'mlr cut' mlr --csv --implicit-csv-header --headerless-csv-output cut -f 2,4 "$file"
fi
