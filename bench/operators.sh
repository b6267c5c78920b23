#!/bin/sh
# Measures the operators by `crates/bench`, and beside them the same algorithms in plain Rust (operators/main.rs)
# where rustc is there. Both programs run five times, in turn, and the middle one of the times of each is taken.
# The arguments are the number of rows that are joined with as many, and of those that are grouped and put in order;
# 100000 and 1000000 without them.
export LC_ALL=C
top=$(cd "$(dirname "$0")/.." && pwd) || exit 1
joined=${1:-100000}
others=${2:-1000000}
work=$(mktemp -d) || exit 1
trap 'rm -r "$work"' EXIT

# The middle one of five times of each operator: a line with its name and its milliseconds.
middle() {
    sort -t : -k 1,1 -k 2,2n "$1" | awk -F ': | ms' '{ n[$1]++; if (n[$1] == 3) print $1 ":" $2 }'
}

(cd "$top/crates/bench" && rt run -- all >"$work/built" 2>&1) || { cat "$work/built" >&2; exit 1; }
if command -v rustc >/dev/null; then
    rustc --edition 2021 -O "$top/bench/operators/main.rs" -o "$work/plain" || exit 1
fi
for _ in 1 2 3 4 5; do
    "$top/crates/bench/out/bench" operators "$joined" "$others" 2>>"$work/proved_times" >/dev/null || exit 1
    [ ! -x "$work/plain" ] || "$work/plain" "$joined" "$others" 2>>"$work/plain_times" >/dev/null || exit 1
done
middle "$work/proved_times" >"$work/proved_middle"
if [ -x "$work/plain" ]; then
    middle "$work/plain_times" >"$work/plain_middle"
    join -t : "$work/proved_middle" "$work/plain_middle" |
        awk -F : '{ printf "%-18s %6d ms, in plain Rust %6d ms: %.1f times\n", $1, $2, $3, $2 / ($3 > 0 ? $3 : 1) }'
else
    awk -F : '{ printf "%-18s %6d ms\n", $1, $2 }' "$work/proved_middle"
fi
