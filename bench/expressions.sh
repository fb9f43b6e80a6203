#!/usr/bin/env bash
# Times `quantity * price` and `price > 50 AND quantity < 3` over chunks of Int64 columns, beside
# plain loops over slices that make the same vectors, and over Nullable columns of which each tenth
# value is NULL, beside the plain columns, and prints a table. It is no test. The program
# (expressions.rattle) is proved and built in a temporary copy of the crates.
set -euo pipefail
here=$(cd "$(dirname "${BASH_SOURCE[0]}")" && pwd)
copy=$(mktemp -d)
trap 'rm -rf "$copy"' EXIT
cp "$here/../HANDLES" "$here/../crates.txt" "$copy"
mkdir "$copy/crates"
for crate in chunk_data query_model expr_eval; do
    cp -r "$here/../crates/$crate" "$copy/crates"
done
grep -E '^(chunk_data|query_model|expr_eval):' "$here/../crates.txt" >"$copy/crates.txt"
echo 'expr_bench: chunk_data query_model expr_eval' >>"$copy/crates.txt"
crate=$copy/crates/expr_bench
mkdir -p "$crate/src"
cp "$here/expressions.rattle" "$crate/src/main.rt"
(cd "$crate" && rt run -- eval 10 10) >"$copy/log" 2>&1 || { cat "$copy/log" >&2; exit 1; }
program=$crate/out/expr_bench

# KIND ROWS: the least processor time of five runs over some 10^9 rows, in seconds
seconds() {
    local best=999999 user system
    for _ in 1 2 3 4 5; do
        /usr/bin/time -f '%U %S' -o "$copy/time" \
            "$program" "$1" "$2" $((1000000000 / $2)) >/dev/null
        read -r user system <"$copy/time"
        best=$(awk -v a="$best" -v u="$user" -v s="$system" 'BEGIN { print u + s < a ? u + s : a }')
    done
    echo "$best"
}

for rows in 8192 65536; do
    for pair in 'eval product' 'mask condition' 'null_eval eval' 'null_mask mask'; do
        read -r call plain <<<"$pair"
        awk -v call="$call" -v rows="$rows" -v plain="$plain" \
            -v a="$(seconds "$call" "$rows")" -v b="$(seconds "$plain" "$rows")" 'BEGIN {
            printf "%-9s over %5d rows: %5.2f G rows/s, %-9s %5.2f G rows/s, " \
                "%.2f times its time\n", call, rows, 1 / a, plain, 1 / b, a / b
        }'
    done
done
