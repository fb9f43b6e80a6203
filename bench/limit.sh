#!/usr/bin/env bash
# Times the first five rows of a file of some 200 MB, beside all of its rows and beside `head` and
# mlr: the file is fetched whole, and no chunk is made past the fifth row. It is no test. The data
# is made once, in bench/data/, which isn't committed.
set -euo pipefail
here=$(cd "$(dirname "${BASH_SOURCE[0]}")" && pwd)
rows=${ROWS:-8000000}
data=$here/data
file=$data/numbers_$rows.csv
mkdir -p "$data"
. "$here/numbers.sh"
[ -s "$file" ] || numbers "$rows" >"$file"
"$here/../qrun" --prove # builds what is missing

. "$here/measure.sh"
tables="t=$file:a Int64,b Int64,c Int64,d String"
measure 'qrun LIMIT 5' "$here/../qrun" --query 'SELECT a, d FROM t LIMIT 5' --tables "$tables"
measure 'qrun (all rows)' "$here/../qrun" --query 'SELECT a, d FROM t' --tables "$tables"
measure 'head -n 5' head -n 5 "$file"
if command -v mlr >/dev/null; then
    measure 'mlr head' mlr --csv --implicit-csv-header --headerless-csv-output head -n 5 "$file"
fi
