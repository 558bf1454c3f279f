#!/bin/bash
# Measures a load and a dump of mixed columns: ints, texts with quotes, decimals and empty fields, as ratios to a plain
# Rust twin and to sqlite3. Usage: bench/mixed.sh PROGRAM [BYTES], where PROGRAM is a built whload; of about a
# million bytes the instructions are counted, and of BYTES, 100,000,000 where they aren't given, the seconds and the
# memory. See README.md.
set -eu
cd "$(dirname "$0")"
program=$(readlink -f "$1")
most=${2:-100000000}
work=$(mktemp -d)
trap 'rm -rf "$work"' EXIT
names=no,buyer,amount,paid,note
kinds=int,text,dec2,dec2?,text?
mkdir "$work/few" "$work/many"

# About so many bytes of orders.
orders() {
    awk -v most="$1" 'BEGIN {
        srand(1)
        print "no,buyer,amount,paid,note"
        split("plain note|\"said \"\"yes\"\", then left\"||\"a, b and c\"|gift", notes, "|")
        for (r = 1; bytes < most; r++) {
            line = sprintf("%d,Customer %d,%.2f,%s,%s", r, rand() * 100000, rand() * 10000,
                rand() < 0.3 ? "" : sprintf("%.2f", rand() * 100), notes[int(rand() * 5) + 1])
            print line
            bytes += length(line) + 1
        }
    }'
}

for folder in few many; do
    cat > "$work/$folder/flow.toml" <<'END'
table = { input = "orders" }
source = [ { name = "orders", file = "orders.csv", columns = ["no int", "buyer text", "amount dec2", "paid dec2?", "note text?"], promise = "seq" } ]
END
done
orders 1000000 > "$work/few/orders.csv"
orders "$most" > "$work/many/orders.csv"
(cd twin && CARGO_TARGET_DIR="$work/target" cargo build --quiet --release --offline)
twin="$work/target/release/twin"

instructions() {
    valgrind --tool=callgrind --callgrind-out-file=/dev/null "$@" 2>&1 > /dev/null |
        awk '/Collected/ { print $4 }'
}

# Processor seconds and the most memory in MB of a command, whose output goes to a file.
spent() {
    local to=$1
    shift
    /usr/bin/time -f '%U %S %M' -o "$work/time" "$@" > "$to"
    awk '{ printf "%.2f %.0f", $1 + $2, $3 / 1024 }' "$work/time"
}



few="$work/few"
load=$(instructions "$program" load "$few")
mv "$few/table.whl" "$few/whload.whl"
twin_load=$(instructions "$twin" load "$few" orders.csv "$kinds")
cmp "$few/table.whl" "$few/whload.whl"
dump=$(instructions "$program" dump "$few")
twin_dump=$(instructions "$twin" dump "$few" "$names" "$kinds")
sqlite=$(instructions sqlite3 "$work/few.db" -cmd ".mode csv" ".import $few/orders.csv orders")
bytes=$(stat -c %s "$few/orders.csv")
echo "instructions a byte, of $bytes bytes:"
awk -v b="$bytes" -v l="$load" -v t="$twin_load" -v s="$sqlite" -v d="$dump" -v u="$twin_dump" 'BEGIN {
    printf "load %.1f, twin %.1f, ratio %.2f; sqlite3 %.1f, ratio %.2f\n", l / b, t / b, l / t, s / b, l / s
    printf "dump %.1f, twin %.1f, ratio %.2f\n", d / b, u / b, d / u
}'

many="$work/many"
for round in 1 2 3; do
    rm -f "$many"/*.whl "$work"/*.db
    load=$(spent /dev/null "$program" load "$many")
    dump=$(spent "$work/dump" "$program" dump "$many")
    mv "$many/table.whl" "$work/whload.whl"
    twin_load=$(spent /dev/null "$twin" load "$many" orders.csv "$kinds")
    cmp "$many/table.whl" "$work/whload.whl"
    twin_dump=$(spent "$work/twin_dump" "$twin" dump "$many" "$names" "$kinds")
    cmp "$work/dump" "$work/twin_dump"
    imported=$(spent /dev/null sqlite3 "$work/many.db" -cmd ".mode csv" ".import $many/orders.csv orders")
    exported=$(spent /dev/null sqlite3 "$work/many.db" -cmd ".mode csv" "select * from orders")
    echo "$load $twin_load $imported $dump $twin_dump $exported"
done > "$work/rounds"
echo "processor seconds and megabytes of memory, of $(stat -c %s "$many/orders.csv") bytes, the least of three rounds:"
awk '
    { for (i = 1; i <= NF; i++) if (NR == 1 || $i < least[i]) least[i] = $i }
    END {
        printf "load %.2f s, %d MB; twin %.2f s, %d MB, ratio %.2f; sqlite3 .import %.2f s, %d MB, ratio %.2f\n",
            least[1], least[2], least[3], least[4], least[1] / least[3], least[5], least[6], least[1] / least[5]
        printf "dump %.2f s, %d MB; twin %.2f s, %d MB, ratio %.2f; sqlite3 select %.2f s, %d MB, ratio %.2f\n",
            least[7], least[8], least[9], least[10], least[7] / least[9], least[11], least[12], least[7] / least[11]
    }' "$work/rounds"
