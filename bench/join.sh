#!/bin/bash
# Measures the load of a join as ratios to a plain Rust twin and to sqlite3: 1,000,000 orders with 50 and with 100,000
# customers. Usage: bench/join.sh PROGRAM, where PROGRAM is a built whload. Processor seconds and the most memory, the least
# of three rounds. See README.md.
set -eu
program=$(readlink -f "$1")
cd "$(dirname "$0")"
work=$(mktemp -d)
trap 'rm -rf "$work"' EXIT
(cd twin && CARGO_TARGET_DIR="$work/target" cargo build --quiet --release --offline)
twin="$work/target/release/twin"

# Processor seconds and the most memory in MB of a command.
spent() {
    /usr/bin/time -f '%U %S %M' -o "$work/time" "$@" > /dev/null
    awk '{ printf "%.2f %.0f", $1 + $2, $3 / 1024 }' "$work/time"
}

for customers in 50 100000; do
    folder="$work/$customers"
    mkdir "$folder"
    cat > "$folder/flow.toml" <<'END'
table = { input = "bought" }
source = [
  { name = "orders", file = "orders.csv", columns = ["no int", "customer_no int", "amount dec2"], promise = "seq" },
  { name = "customers", file = "customers.csv", columns = ["customer_no int", "name text", "region text?"], promise = "seq" },
]
node = [ { name = "bought", kind = "join", left = "orders", right = "customers", on = ["customer_no"] } ]
END
    awk -v most="$customers" 'BEGIN {
        srand(1)
        print "no,customer_no,amount"
        for (r = 1; r <= 1000000; r++) printf "%d,%d,%.2f\n", r, int(rand() * most), rand() * 1000
    }' > "$folder/orders.csv"
    awk -v most="$customers" 'BEGIN {
        print "customer_no,name,region"
        for (c = 0; c < most; c++) printf "%d,Customer %d,%s\n", c * 7919 % most, c, c % 9 ? "region " c % 9 : ""
    }' > "$folder/customers.csv"
    cat > "$work/join.sql" <<END
.mode csv
create table orders (no integer, customer_no integer, amount text);
create table customers (customer_no integer, name text, region text);
begin;
.import --skip 1 $folder/orders.csv orders
.import --skip 1 $folder/customers.csv customers
create table bought as select no, customer_no, amount, name, region from orders join customers using (customer_no);
commit;
END
    for round in 1 2 3; do
        rm -f "$folder"/*.whl "$work"/*.db
        load=$(spent "$program" load "$folder")
        mv "$folder/table.whl" "$work/whload.whl"
        twins=$(spent "$twin" join "$folder" orders.csv int,int,dec2 customers.csv int,text,text?)
        cmp "$folder/table.whl" "$work/whload.whl"
        sqlite=$(spent sqlite3 "$work/join.db" -cmd ".read $work/join.sql" .quit)
        echo "$load $twins $sqlite"
    done > "$work/rounds"
    awk -v customers="$customers" '
        { for (i = 1; i <= NF; i++) if (NR == 1 || $i < least[i]) least[i] = $i }
        END {
            printf "%d customers: join %.2f s, %d MB; twin %.2f s, %d MB, ratio %.2f; sqlite3 %.2f s, %d MB, ratio %.2f\n",
                customers, least[1], least[2], least[3], least[4], least[1] / least[3],
                least[5], least[6], least[1] / least[5]
        }' "$work/rounds"
done
