# Sourced by scripts beside it. numbers ROWS: prints so many records of three numbers and a letter,
# of which a quarter have a third number above 50 and the letter x.
numbers() {
    awk -v n="$1" 'BEGIN {
        srand(7)
        for (i = 0; i < n; i++)
            printf "%d,%d,%d,%s\n", i * 7919 % 1000000007 - 500000000, i * 31 % 1000003,
                rand() * 100, rand() < 0.5 ? "x" : "y"
    }'
}
