#!/bin/bash
# Measures loads of aggregates, distinct rows and sorts as ratios to a plain Rust twin and to sqlite3: 1,000,000 rows, of
# 1,000 and of 500,000 groups. Usage: bench/groups.sh PROGRAM, where PROGRAM is a built whload. Processor seconds and the most
# memory, the least of three rounds. See README.md.
set -eu
program=$(readlink -f "$1")
cd "$(dirname "$0")"
work=$(mktemp -d)
trap 'rm -rf "$work"' EXIT
(cd twin && CARGO_TARGET_DIR="$work/target" cargo build --quiet --release --offline)
twin="$work/target/release/twin"

# Processor seconds and the most memory in MB of a command.
spent() {
    /usr/bin/time -f '%U %S %M' -o "$work/time" "$@" > /dev/null
    awk '{ printf "%.2f %.0f", $1 + $2, $3 / 1024 }' "$work/time"
}

# A load of a node of this kind, with its keys, over rows of so many groups, and the same in SQL.
measure() {
    local kind=$1 keys=$2 groups=$3 query=$4 folder="$work/$1-$3"
    mkdir "$folder"
    cat > "$folder/flow.toml" <<END
table = { input = "made" }
source = [ { name = "rows", file = "rows.csv", columns = ["g int", "n int"], promise = "seq" } ]
node = [ { name = "made", kind = "$kind", input = "rows"$keys } ]
END
    # The second column of rows of one group is one of two.
    awk -v most="$groups" 'BEGIN {
        srand(1)
        print "g,n"
        for (r = 1; r <= 1000000; r++) { g = int(rand() * most); printf "%d,%d\n", g, g % 7 + int(rand() * 2) }
    }' > "$folder/rows.csv"
    cat > "$work/made.sql" <<END
.mode csv
create table rows (g integer, n integer);
begin;
.import --skip 1 $folder/rows.csv rows
create table made as $query;
commit;
END
    for round in 1 2 3; do
        rm -f "$folder"/*.whl "$work"/*.db
        load=$(spent "$program" load "$folder")
        mv "$folder/table.whl" "$work/whload.whl"
        twins=$(spent "$twin" "$([ "$kind" = aggregate ] && echo group || echo "$kind")" "$folder" rows.csv int,int)
        cmp "$folder/table.whl" "$work/whload.whl"
        sqlite=$(spent sqlite3 "$work/made.db" -cmd ".read $work/made.sql" .quit)
        echo "$load $twins $sqlite"
    done > "$work/rounds"
    awk -v what="$kind of $groups groups" '
        { for (i = 1; i <= NF; i++) if (NR == 1 || $i < least[i]) least[i] = $i }
        END {
            printf "%s: %.2f s, %d MB; twin %.2f s, %d MB, ratio %.2f; sqlite3 %.2f s, %d MB, ratio %.2f\n",
                what, least[1], least[2], least[3], least[4], least[1] / least[3],
                least[5], least[6], least[1] / least[5]
        }' "$work/rounds"
}

makes=', by = ["g"], make = ["c = count", "s = sum n"], order = "first"'
for groups in 1000 500000; do
    measure aggregate "$makes" "$groups" "select g, count(*) as c, sum(n) as s from rows group by g"
    measure distinct "" "$groups" "select distinct g, n from rows"
done
measure sort ', by = ["g"]' 500000 "select g, n from rows order by g, n"
