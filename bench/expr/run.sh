#!/bin/bash
# Counts the instructions that `truth` of expr_lang takes for a row, beside plain Rust. Usage: bench/expr/run.sh
# It copies the crates to a temporary folder, proves and builds the program of measure.txt there, and takes the
# difference of a run over 101,000 rows and one over 1,000. See README.md.
set -eu
cd "$(dirname "$0")"
crates=$(readlink -f ../../crates)
work=$(mktemp -d)
trap 'rm -rf "$work"' EXIT

mkdir -p "$work/crates/expr_cost/src"
for crate in tuple_schema expr_grammar expr_lang; do
    cp -r "$crates/$crate" "$work/crates/"
done
cp measure.txt "$work/crates/expr_cost/src/main.rt"
cat > "$work/crates.txt" <<'END'
tuple_schema: thiserror
expr_grammar: tuple_schema sqlite_items thiserror
expr_lang: expr_grammar tuple_schema sqlite_items
expr_cost: expr_lang expr_grammar tuple_schema
END
(cd "$work" && rt all check >&2)
(cd "$work/crates/expr_cost" && echo 1 | rt run >&2)
(cd twin && CARGO_TARGET_DIR="$work/target" cargo build --quiet --release --offline)

instructions() {
    valgrind --tool=callgrind --callgrind-out-file=/dev/null "$@" 2>&1 >/dev/null | awk '/Collected/ { print $4 }'
}

whload() {
    echo "$1" | instructions "$work/crates/expr_cost/out/expr_cost"
}

twin() {
    instructions "$work/target/release/twin" "$1" "$2"
}

ours=$((($(whload 101) - $(whload 1)) / 100000))
echo "whload  $ours instructions a row"
for form in named placed closure; do
    theirs=$((($(twin $form 101) - $(twin $form 1)) / 100000))
    echo "$form $theirs $ours" | awk '{ printf "%-7s %d, whload'"'"'s ratio to it %.2f\n", $1, $2, $3 / $2 }'
done
