#!/bin/sh
# Measures how fast the program scans, groups, sorts and joins. Each query runs behind the statements that fill its
# tables, and the time of these alone is taken away.
# The argument is the number of rows that are scanned, grouped and sorted; 500000 without it.
top=$(cd "$(dirname "$0")/.." && pwd) || exit 1
rows=${1:-500000}
work=$(mktemp -d) || exit 1
trap 'rm -r "$work"' EXIT

# One INSERT of rows (number, number modulo 1000).
awk -v n="$rows" 'BEGIN {
    print "CREATE TABLE t (k INT, g INT);"
    printf "INSERT INTO t VALUES (0, 0)"
    for (i = 1; i < n; i++) printf ",\n(%d,%d)", i, i % 1000
    print ";"
}' >"$work/rows.sql"

# Two tables of 1000 equal rows, which a join makes 1000000 rows of.
awk 'BEGIN {
    for (t = 0; t < 2; t++) {
        printf "CREATE TABLE %s (x INT); INSERT INTO %s VALUES (1)", t ? "b" : "a", t ? "b" : "a"
        for (i = 1; i < 1000; i++) printf ", (1)"
        print ";"
    }
}' >"$work/join.sql"

# The seconds that a script takes.
seconds() {
    start=$(date +%s.%N)
    "$top/bin/lake" run <"$1" >/dev/null || exit 1
    end=$(date +%s.%N)
    echo "$start $end" | awk '{ print $2 - $1 }'
}

# A query behind a script, five times, and how many rows it goes through.
measure() {
    cat "$work/$2.sql" >"$work/query.sql"
    for _ in 1 2 3 4 5; do echo "$4"; done >>"$work/query.sql"
    base=$(seconds "$work/$2.sql")
    whole=$(seconds "$work/query.sql")
    echo "$1 $3 $base $whole" | awk '{ t = ($4 - $3) / 5; printf "%-6s %8d rows in %.3f s: %d rows/s\n", $1, $2, t, $2 / t }'
}

"$top/bin/lake" check </dev/null >/dev/null || exit 1
measure scan rows "$rows" 'SELECT COUNT(*) FROM t WHERE g < 0;'
measure group rows "$rows" 'SELECT g, COUNT(*), SUM(k) FROM t GROUP BY g LIMIT 1;'
measure sort rows "$rows" 'SELECT g, k FROM t ORDER BY g DESC LIMIT 1;'
measure join join 1000000 'SELECT a.x FROM a JOIN b ON a.x = b.x LIMIT 1;'
