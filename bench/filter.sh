#!/usr/bin/env bash
# Times `SELECT a * b + 1 FROM t WHERE c > 50 AND d = 'x'` over a file of some 200 MB, of whose rows
# a quarter pass, beside the same over Nullable columns and the projection of all columns, and
# beside sqlite3 and mlr where they are installed, and prints a table. It is no test. The data is
# made once, in bench/data/, which isn't committed.
set -euo pipefail
here=$(cd "$(dirname "${BASH_SOURCE[0]}")" && pwd)
rows=${ROWS:-8000000}
data=$here/data
file=$data/numbers_$rows.csv
mkdir -p "$data"
. "$here/numbers.sh"
[ -s "$file" ] || numbers "$rows" >"$file"
"$here/../qrun" --prove # builds what is missing

. "$here/measure.sh"
tables="t=$file:a Int64,b Int64,c Int64,d String"
query="SELECT a * b + 1 FROM t WHERE c > 50 AND d = 'x'"
measure 'qrun' "$here/../qrun" --query "$query" --tables "$tables"
nullable="t=$file:a Nullable(Int64),b Nullable(Int64),c Nullable(Int64),d Nullable(String)"
measure 'qrun (Nullable columns)' "$here/../qrun" --query "$query" --tables "$nullable"
measure 'qrun (all columns)' "$here/../qrun" --query 'SELECT a, b, c, d FROM t' --tables "$tables"
if command -v sqlite3 >/dev/null; then
    measure 'sqlite3 (import, select)' sqlite3 -csv :memory: \
        'CREATE TABLE t(a INTEGER, b INTEGER, c INTEGER, d TEXT)' ".import $file t" "$query"
fi
if command -v mlr >/dev/null; then
    measure 'mlr filter, put' mlr --csv --implicit-csv-header --headerless-csv-output \
        filter '$3 > 50 && $4 == "x"' then put '$5 = $1 * $2 + 1' then cut -f 5 "$file"
fi
