#!/usr/bin/env bash
# Times a chain of 250 resizes between a source of numbers and a collector, by one worker and by
# four, with chunks of one row and of 8,192 rows, beside the same source and collector without
# resizes. It is no test. The program (chain.rattle) is proved and built in a temporary copy of the
# crates, with an invariant that the tests of workers have.
set -euo pipefail
here=$(cd "$(dirname "${BASH_SOURCE[0]}")" && pwd)
copy=$(mktemp -d)
trap 'rm -rf "$copy"' EXIT
cp "$here/../HANDLES" "$here/../crates.txt" "$copy"
cp -r "$here/../crates" "$copy"
echo 'chain_bench may_wait=4: chunk_data query_model port_word core_laws exec_core atomic_table' \
    'exec_table proc_api exec_laws graph_checks node_ports task_queue node_cells crossbeam_queue' \
    'crossbeam_utils exec_graph pipeline_exec node_workers node_ends expr_eval proc_shell' \
    flow_procs >>"$copy/crates.txt"
crate=$copy/crates/chain_bench
mkdir -p "$crate/src" "$crate/proofs/chain_of"
cp "$here/chain.rattle" "$crate/src/main.rt"
sed 's/exec_tests.proofs.chains/chain_bench.proofs/' \
    "$copy/crates/exec_tests/proofs/chains/chain_of/Invariants.antt" \
    >"$crate/proofs/chain_of/Invariants.antt"
(cd "$crate" && rt run -- 1 1 1 1) >"$copy/log" 2>&1 || { cat "$copy/log" >&2; exit 1; }
program=$crate/out/chain_bench

# the fastest of five runs, in seconds
fastest() {
    local best=999999 seconds
    for _ in 1 2 3 4 5; do
        seconds=$( { /usr/bin/time -f %e "$program" "$@"; } 2>&1)
        if awk "BEGIN { exit !($seconds < $best) }"; then best=$seconds; fi
    done
    echo "$best"
}

for shape in '20000 1' '2000 8192'; do
    read -r chunks rows <<<"$shape"
    for workers in 1 4; do
        long=$(fastest $workers 250 "$chunks" "$rows")
        short=$(fastest $workers 0 "$chunks" "$rows")
        awk -v w="$workers" -v l="$long" -v s="$short" -v c="$chunks" -v r="$rows" 'BEGIN {
            printf "%d workers, %d chunks of %d rows: %.2f s, ", w, c, r, l
            printf "without resizes %.2f s, ", s
            printf "%.2f us a node and chunk\n", (l - s) * 1e6 / (250 * c)
        }'
    done
done
