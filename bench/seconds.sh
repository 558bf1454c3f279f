#!/bin/bash
# Times loads of about 100 MB: by whload, with its syncs and without, stopped at half and gone on with, and by a
# plain Rust twin and sqlite3's .import. Usage: bench/seconds.sh PROGRAM, where PROGRAM is a built whload.
# See README.md.
set -eu
cd "$(dirname "$0")"
program=$(readlink -f "$1")
work=$(mktemp -d)
trap 'rm -rf "$work"' EXIT

mkdir "$work/whole" "$work/twin" "$work/unsynced" "$work/stopped"
awk 'BEGIN {
    srand(1)
    print "a,b,c,d,e,f,g,h"
    for (r = 1; r <= 1150000; r++) {
        for (c = 1; c <= 8; c++) printf "%s%d", (c > 1 ? "," : ""), (rand() - 0.5) * 2000000000
        print ""
    }
}' > "$work/whole/nums.csv"
cat > "$work/whole/flow.toml" <<'END'
table = { input = "nums" }
source = [ { name = "nums", file = "nums.csv", columns = ["a int", "b int", "c int", "d int", "e int", "f int", "g int", "h int"], promise = "seq" } ]
END
for folder in twin unsynced stopped; do cp "$work/whole/"* "$work/$folder/"; done
(cd twin && CARGO_TARGET_DIR="$work/target" cargo build --quiet --release --offline)
echo 'int fsync(int f) { return 0; } int fdatasync(int f) { return 0; }' > "$work/no_sync.c"
cc -shared -fPIC -o "$work/no_sync.so" "$work/no_sync.c"
sync

seconds() {
    local began ended
    began=$(date +%s.%N)
    "$@" > /dev/null
    ended=$(date +%s.%N)
    awk -v b="$began" -v e="$ended" 'BEGIN { printf "%.2f", e - b }'
}

size() { stat -c %s "$1" 2> /dev/null || echo 0; }

stopped_at_half() {
    "$program" load "$work/stopped" > /dev/null &
    until [ "$(size "$work/stopped/table.whl")" -gt "$half" ]; do sleep 0.005; done
    kill -9 $!
    wait $! 2> /dev/null || true
}

sqlite_import() {
    rm -f "$work/sqlite.db"
    sqlite3 "$work/sqlite.db" -cmd ".mode csv" ".import $work/twin/nums.csv nums"
}

unsynced() { env LD_PRELOAD="$work/no_sync.so" "$@"; }

twin="$work/target/release/twin"
kinds=int,int,int,int,int,int,int,int
for round in 1 2 3; do
    rm -f "$work"/*/table.whl
    whole=$(seconds "$program" load "$work/whole")
    half=$(($(size "$work/whole/table.whl") / 2))
    stopped=$(seconds stopped_at_half)
    resumed=$(seconds "$program" load "$work/stopped")
    plain=$(seconds "$twin" load "$work/twin" nums.csv "$kinds")
    imported=$(seconds sqlite_import)
    for folder in stopped twin; do cmp "$work/whole/table.whl" "$work/$folder/table.whl"; done
    rm "$work/twin/table.whl"
    free=$(seconds unsynced "$program" load "$work/unsynced")
    plain_free=$(seconds unsynced "$twin" load "$work/twin" nums.csv "$kinds")
    echo "$whole $free $stopped $resumed $plain $plain_free $imported"
done > "$work/rounds"

# The least of each over the rounds.
awk -v bytes="$(size "$work/whole/nums.csv")" '
    { for (i = 1; i <= NF; i++) if (NR == 1 || $i < least[i]) least[i] = $i }
    END {
        printf "input %d bytes\n", bytes
        printf "whload %.2f s, without syncs %.2f s\n", least[1], least[2]
        printf "stopped at half %.2f s, and gone on with %.2f s: ratio to whole %.2f\n", least[3], least[4], (least[3] + least[4]) / least[1]
        printf "twin %.2f s, ratio %.2f; without syncs %.2f s, ratio %.2f\n", least[5], least[1] / least[5], least[6], least[2] / least[6]
        printf "sqlite %.2f s, ratio %.2f\n", least[7], least[1] / least[7]
    }' "$work/rounds"
