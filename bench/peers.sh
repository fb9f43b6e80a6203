#!/usr/bin/env bash
# Times sixteen queries over five million rows, six of them over Nullable columns too, and five over
# four files, beside ClickHouse and sqlite3 where they are installed, and prints a table: seconds,
# the fastest of RUNS runs of each (3 if left out; sqlite3 once), on one thread and on four. It is
# no test. ClickHouse runs as a server of its own, which reads the same files by `file()`; sqlite3
# imports and selects. The data is made once, in bench/data/, which isn't committed.
set -euo pipefail
here=$(cd "$(dirname "${BASH_SOURCE[0]}")" && pwd)
rows=${ROWS:-5000000}
runs=${RUNS:-3}
data=$here/data
mkdir -p "$data"
wide=$data/wide_$rows.csv
left=$data/left_$rows.csv
[ -s "$wide" ] || awk -v n="$rows" 'BEGIN {
    for (i = 0; i < n; i++)
        printf "%d,%d,%s,name_%d,%d,%d\n", i * 7919 % 1000, i * 31 % 1000003,
            substr("uvwxyz", i * 7 % 6 + 1, 1), i * 7919 % 50000, i % 1000 - 500,
            i * 48271 % 2147483647
}' >"$wide"
[ -s "$left" ] || awk -v n="$rows" 'BEGIN {
    for (i = 0; i < n; i++) printf "%d,%d,%d\n", i * 7919 % 1000, i * 31 % 100000, i % 1000
}' >"$left"
for matches in 1 3; do
    right=$data/right_1000_$matches.csv
    [ -s "$right" ] || awk -v m="$matches" 'BEGIN {
        for (i = 0; i < 1000 * m; i++) printf "%d,%d\n", i % 1000, i
    }' >"$right"
done
parts=
for part in 0 1 2 3; do
    file=$data/wide_${rows}_$part.csv
    [ -s "$file" ] || awk -v p="$part" 'NR % 4 == p' "$wide" >"$file"
    parts=$parts${parts:++}$file
done
"$here/../qrun" --prove # builds what is missing
program=$here/../crates/qrun/out/qrun

# A server of ClickHouse over the data's folder, on ports of its own.
server=
if command -v clickhouse-server >/dev/null; then
    room=$(mktemp -d)
    cat >"$room/config.xml" <<END
<yandex>
  <logger><level>warning</level><log>$room/log</log><errorlog>$room/errors</errorlog></logger>
  <listen_host>127.0.0.1</listen_host>
  <tcp_port>19000</tcp_port>
  <http_port>18123</http_port>
  <path>$room/data/</path>
  <tmp_path>$room/tmp/</tmp_path>
  <user_files_path>$data/</user_files_path>
  <users_config>$room/users.xml</users_config>
  <default_profile>default</default_profile>
  <default_database>default</default_database>
  <mark_cache_size>5368709120</mark_cache_size>
</yandex>
END
    cat >"$room/users.xml" <<END
<yandex>
  <profiles><default><max_memory_usage>20000000000</max_memory_usage></default></profiles>
  <users><default><password></password><networks><ip>127.0.0.1</ip></networks>
    <profile>default</profile><quota>default</quota></default></users>
  <quotas><default></default></quotas>
</yandex>
END
    clickhouse-server --config-file="$room/config.xml" >"$room/out" 2>&1 &
    server=$!
    trap 'kill "$server" 2>/dev/null; wait "$server" 2>/dev/null; rm -rf "$room"' EXIT
    for _ in $(seq 100); do
        clickhouse-client --port 19000 --query 'SELECT 1' >/dev/null 2>&1 && break
        sleep 0.1
    done
fi

# What a query may read, by name: in qrun's words, with its declarations; in ClickHouse's; and what
# sqlite3 imports, a table and a file each.
wide_columns='k Int64,m Int64,s String,n String,v Int64,w Int64'
left_columns='k Int64,m Int64,a Int64'
right_columns='j Int64,b Int64'
csv() {
    echo "file('${1##*/}', 'CSV', '$2')"
}
declare -A from tables theirs imports
from[wide]=t
tables[wide]="t=$wide:$wide_columns"
theirs[wide]=$(csv "$wide" "$wide_columns")
imports[wide]="t $wide"
from[left]=l
tables[left]="l=$left:$left_columns"
theirs[left]=$(csv "$left" "$left_columns")
imports[left]="l $left"
four=
for part in 0 1 2 3; do
    four="$four${four:+ UNION ALL }SELECT * FROM $(csv "wide_${rows}_$part.csv" "$wide_columns")"
done
from[four]=t
tables[four]="t=$parts:$wide_columns"
theirs[four]="($four)"
for matches in 1 3; do
    right=$data/right_1000_$matches.csv
    other="ALL INNER JOIN (SELECT j AS k, b FROM $(csv "$right" "$right_columns")) USING k"
    from[join$matches]='l JOIN r ON k = j'
    tables[join$matches]="l=$left:$left_columns;r=$right:$right_columns"
    theirs[join$matches]="${theirs[left]} $other"
    imports[join$matches]="l $left r $right"
    from[four_join$matches]='t JOIN r ON k = j'
    tables[four_join$matches]="t=$parts:$wide_columns;r=$right:$right_columns"
    theirs[four_join$matches]="${theirs[four]} $other"
done
# The same files in columns that may have NULL, though no field is one.
nullable() {
    from[null_$1]=${from[$1]}
    tables[null_$1]=$(sed -E 's/ (Int64|String)/ Nullable(\1)/g' <<<"${tables[$1]}")
    theirs[null_$1]=$(sed -E 's/ (Int64|String)/ Nullable(\1)/g' <<<"${theirs[$1]}")
}
for name in wide left join1; do
    nullable "$name"
done
from[numbers]='numbers(100000000)'
tables[numbers]=${tables[left]}
theirs[numbers]='(SELECT number FROM system.numbers_mt LIMIT 100000000)'

# The fastest of so many runs of a command, in seconds; a dash where it fails.
fastest() {
    local count=$1 best=- seconds
    shift
    for _ in $(seq "$count"); do
        if ! /usr/bin/time -f %e -o "$data/time" "$@" >/dev/null 2>"$data/errors"; then
            echo -
            return
        fi
        seconds=$(tail -n 1 "$data/time")
        if [ "$best" = - ] || awk "BEGIN { exit !($seconds < $best) }"; then best=$seconds; fi
    done
    echo "$best"
}

# How many times as fast the first is as the second.
ratio() {
    awk -v a="$1" -v b="$2" 'BEGIN { if (a > 0 && b > 0) printf "%.2f", b / a; else print "-" }'
}

# sqlite3's time for a query, with that of its imports.
sqlite_time() {
    local query=$1 words=()
    # shellcheck disable=SC2086
    set -- $2
    while [ $# -gt 0 ]; do
        words+=(".import $2 $1")
        shift 2
    done
    fastest 1 sqlite3 -csv :memory: \
        'CREATE TABLE t(k INTEGER, m INTEGER, s TEXT, n TEXT, v INTEGER, w INTEGER)' \
        'CREATE TABLE l(k INTEGER, m INTEGER, a INTEGER)' \
        'CREATE TABLE r(j INTEGER, b INTEGER)' "${words[@]}" "${query//count()/count(*)}"
}

# One line of the table: its name, the items, what is read, and the rest of the query.
line() {
    local name=$1 ours="SELECT $2 FROM ${from[$3]}${4:+ $4}" one four peer=- peer_four=- old=-
    local peers="SELECT $2 FROM ${theirs[$3]}${4:+ $4} FORMAT CSV"
    one=$(fastest "$runs" "$program" --threads 1 --query "$ours" --tables "${tables[$3]}")
    four=$(fastest "$runs" "$program" --threads 4 --query "$ours" --tables "${tables[$3]}")
    if [ -n "$server" ]; then
        peer=$(fastest "$runs" clickhouse-client --port 19000 --max_threads 1 --query "$peers")
        peer_four=$(fastest "$runs" clickhouse-client --port 19000 --max_threads 4 \
            --query "$peers")
    fi
    if [ -n "${imports[$3]:-}" ] && [ -z "${NO_SQLITE:-}" ] && command -v sqlite3 >/dev/null; then
        old=$(sqlite_time "$ours" "${imports[$3]}")
    fi
    printf '| %s | %s | %s | %s | %s | %s | %s | %s |\n' "$name" "$one" "$four" "$peer" \
        "$peer_four" "$(ratio "$one" "$peer")" "$(ratio "$four" "$peer_four")" "$old"
}

cat <<'END'
| Query | qrun, 1 thread | 4 | ClickHouse, 1 | 4 | times as fast, 1 | 4 | sqlite3 |
|---|---|---|---|---|---|---|---|
END
calls='count(), sum(v), max(v)'
line 'a filter' 'k, w' wide 'WHERE v > 400'
line 'a filter by a text' 'k, n' wide "WHERE s = 'x'"
line 'arithmetic, all rows out' 'k + v * 2 AS x, w - m AS y' wide
line 'sum, min and max' 'sum(w), min(v), max(m)' wide
line 'groups of 1,000 numbers' "k, $calls" wide 'GROUP BY k'
line 'groups of a million numbers' "m, $calls" wide 'GROUP BY m'
line 'groups of 6 texts' "s, $calls" wide 'GROUP BY s'
line 'groups of 50,000 texts' "n, $calls" wide 'GROUP BY n'
line 'ORDER BY two numbers' 'k, m, a' left 'ORDER BY m, a'
line 'ORDER BY texts and a number, all columns' 'k, m, s, n, v, w' wide 'ORDER BY n, s, w'
line 'ORDER BY three keys, LIMIT 10' 'k, m, s, n' wide 'ORDER BY s, k, m LIMIT 10'
line 'JOIN, one match a row' 'count(), sum(b)' join1
line 'JOIN, three matches a row' 'count(), sum(b)' join3
line 'LIMIT 5' 'k, n' wide 'LIMIT 5'
line 'numbers(100000000)' 'count(), sum(number), max(number)' numbers
line 'count() alone' 'count()' wide
line 'Nullable: a filter' 'k, w' null_wide 'WHERE v > 400'
line 'Nullable: arithmetic, all rows out' 'k + v * 2 AS x, w - m AS y' null_wide
line 'Nullable: sum, min and max' 'sum(w), min(v), max(m)' null_wide
line 'Nullable: groups of 1,000 numbers' "k, $calls" null_wide 'GROUP BY k'
line 'Nullable: ORDER BY two numbers' 'k, m, a' null_left 'ORDER BY m, a'
line 'Nullable: JOIN, one match a row' 'count(), sum(b)' null_join1
line 'four files: a filter' 'k, w' four 'WHERE v > 400'
line 'four files: sum, min and max' 'sum(w), min(v), max(m)' four
line 'four files: groups of a million' "m, $calls" four 'GROUP BY m'
line 'four files: groups of 50,000 texts' "n, $calls" four 'GROUP BY n'
line 'four files: JOIN' 'count(), sum(b)' four_join1
