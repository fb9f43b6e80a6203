#!/usr/bin/env bash
# Times a CSV source that the executor drives into a collector over a file of some 200 MB, beside a
# plain loop from the records of the `csv` crate to typed columns, and prints a table; and, where
# valgrind is installed, how many allocations each makes over 100,000 and 200,000 rows. It is no
# test. The program (source.rattle) is proved and built in a temporary copy of the crates. The data
# is made once, in bench/data/, which isn't committed.
set -euo pipefail
here=$(cd "$(dirname "${BASH_SOURCE[0]}")" && pwd)
rows=${ROWS:-8000000}
data=$here/data
file=$data/numbers_$rows.csv
mkdir -p "$data"
. "$here/numbers.sh"
[ -s "$file" ] || numbers "$rows" >"$file"
copy=$(mktemp -d)
trap 'rm -rf "$copy"' EXIT
cp "$here/../HANDLES" "$here/../crates.txt" "$copy"
cp -r "$here/../crates" "$copy"
echo 'source_bench: chunk_data query_model port_word proc_api exec_graph exec_laws pipeline_exec' \
    'flow_procs outside_io csv_rows csv_procs csv' >>"$copy/crates.txt"
crate=$copy/crates/source_bench
mkdir -p "$crate/src"
cp "$here/source.rattle" "$crate/src/main.rt"
numbers 1 >"$copy/small.csv"
if ! (cd "$crate" && rt run -- plain "$copy/small.csv") >"$copy/log" 2>&1; then
    cat "$copy/log" >&2
    exit 1
fi
program=$crate/out/source_bench

. "$here/measure.sh"
measure 'csv source, collected' "$program" source "$file"
measure 'plain loop' "$program" plain "$file"
if command -v valgrind >/dev/null; then
    for n in 100000 200000; do
        numbers "$n" >"$copy/small.csv"
        for way in source plain; do
            valgrind "$program" "$way" "$copy/small.csv" 2>&1 |
                awk -v n="$n" -v way="$way" '/total heap usage/ {
                    print way " over " n " rows: " $5 " allocations"
                }'
        done
    done
fi
