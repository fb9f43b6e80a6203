# Sourced by the scripts beside it, which set `rows`, `data` (a folder for what is written) and
# `file`.
bytes=$(stat -c %s "$file")

# NAME COMMAND..: runs the command three times, and prints the fastest, with the largest memory of
# it.
measure() {
    local name=$1 best=999999 memory=0
    shift
    for _ in 1 2 3; do
        /usr/bin/time -f '%e %M' -o "$data/time" "$@" >"$data/out"
        read -r seconds kilobytes <"$data/time"
        if awk "BEGIN { exit !($seconds < $best) }"; then best=$seconds memory=$kilobytes; fi
    done
    awk -v name="$name" -v s="$best" -v k="$memory" -v b="$bytes" -v n="$rows" 'BEGIN {
        printf "%-24s %8.2f s %9.2f M rows/s %8.0f MB/s %8.2f x the file\n",
            name, s, n / s / 1e6, b / s / 1e6, k * 1024 / b
    }'
}

echo "$rows rows, $((bytes / 1000000)) MB"
