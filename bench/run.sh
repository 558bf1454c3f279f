#!/bin/bash
# Counts the instructions that whload, a plain Rust twin and sqlite3's .import take to load one CSV file.
# Usage: bench/run.sh PROGRAM, where PROGRAM is a built whload. See README.md.
set -eu
cd "$(dirname "$0")"
program=$(readlink -f "$1")
work=$(mktemp -d)
trap 'rm -rf "$work"' EXIT

mkdir "$work/whload" "$work/twin"
awk 'BEGIN {
    srand(1)
    for (c = 1; c <= 64; c++) printf "%sc%d", (c > 1 ? "," : ""), c
    print ""
    for (r = 1; r <= 1000; r++) {
        for (c = 1; c <= 64; c++) printf "%s%d", (c > 1 ? "," : ""), (rand() - 0.5) * 2000000000
        print ""
    }
}' > "$work/whload/nums.csv"
kinds=$(head -1 "$work/whload/nums.csv" | sed 's/[^,]*/int/g')
columns=$(head -1 "$work/whload/nums.csv" | sed 's/[^,]*/"& int"/g; s/,/, /g')
cat > "$work/whload/flow.toml" <<EOF
table = { input = "nums" }
source = [ { name = "nums", file = "nums.csv", columns = [$columns], promise = "seq" } ]
EOF
cp "$work/whload/"* "$work/twin/"
(cd twin && CARGO_TARGET_DIR="$work/target" cargo build --quiet --release --offline)

instructions() {
    valgrind --tool=callgrind --callgrind-out-file=/dev/null "$@" 2>&1 >/dev/null |
        awk '/Collected/ { print $4 }'
}

bytes=$(stat -c %s "$work/whload/nums.csv")
whload=$(instructions "$program" load "$work/whload")
twin=$(instructions "$work/target/release/twin" load "$work/twin" nums.csv "$kinds")
sqlite=$(instructions sqlite3 "$work/sqlite.db" -cmd ".mode csv" ".import $work/twin/nums.csv nums")
cmp "$work/whload/table.whl" "$work/twin/table.whl"
awk -v b="$bytes" -v w="$whload" -v t="$twin" -v s="$sqlite" 'BEGIN {
    printf "input %d bytes\n", b
    printf "whload %.1f instructions a byte\n", w / b
    printf "twin   %.1f, ratio %.2f\n", t / b, w / t
    printf "sqlite %.1f, ratio %.2f\n", s / b, w / s
}'
