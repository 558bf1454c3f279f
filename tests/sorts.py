#!/usr/bin/env python3
"""What sorts, distinct rows and unions are to do, run over the proved program.

The expected rows are written here, from docs/FORMATS.md, or computed in Python from the rows of the sources.
"""
import random
import sys

from flows import A, B, csv_of, distinct, expect_cause, expect_dump, flow_of, join, load_and_dump, project
from flows import select, sort, union
from harness import expect, run_parts

# What `A` is sorted by, and what is told of the node x, or nothing where the flow is right.
BYS = [
    (["n"], None), (["t", "d", "m", "n"], None), (["n", "n"], None), (["k"], "unknown column k"),
    (["n", "j", "k"], "unknown column j"), (["n", "n", "k"], "unknown column k"),
]

# The columns of the further inputs of a union with a, which has the columns `n int` and `t text?`.
UNIONS = [
    ([["n int", "t text?"]], None), ([["k int", "u text"]], None), ([["k int?", "u text"]], None),
    ([["t int", "n text"], ["x int", "y text?"]], None),
    ([["n int"]], "kinds differ"), ([["n int", "t text", "u int"]], "kinds differ"),
    ([["t text", "n int"]], "kinds differ"), ([["n dec1", "t text"]], "kinds differ"),
    ([["n int", "t int"]], "kinds differ"), ([["n int", "t text"], ["n int", "t int"]], "kinds differ"),
    ([["n int", "t int"], ["n int", "t text"]], "kinds differ"), ([["n int", "t dec6"], ["n int"]], "kinds differ"),
]

# Flows of several nodes, with the fault that comes first.
ORDERS = [
    ("x", [A], [sort("y", taken="s"), select("k = 1", name="s")], "s: unknown column k"),
    ("x", [A, B], [union("a", "b", "c")], "x: no input c"),
    ("x", [A, B], [union("a", "b", "a")], "a: is used twice"),
    ("x", [A, B], [union("a", "b")], "x: kinds differ"),
    ("x", [A, B], [union("s", "r"), project("k as n", taken="b", name="r"), project("t", name="s")], None),
    ("x", [A, B], [union("s", "r"), project("j", taken="b", name="r"), project("k", name="s")],
     "s: unknown column k"),
    ("x", [A, B], [union("r", "s"), project("j", taken="b", name="r"), project("k", name="s")],
     "r: unknown column j"),
    ("x", [A, B], [sort("n")], "b: is not reached from the table"),
    ("x", [("a", "n int", "n int")], [distinct()], "a: column n comes twice"),
    ("y", [A], [select("k = 1", taken="x", name="y"), distinct()], "y: unknown column k"),
    ("y", [("a", "n dec1", "m dec2")], [sort("m", taken="x", name="y"), sort("n")], None),
    ("y", [("a", "n dec1"), ("b", "m dec1")], [sort("m", taken="x", name="y"), union("a", "b")],
     "y: unknown column m"),
    ("x", [("a", "n int"), ("b", "n int", "m int"), ("c", "k int", "n int")],
     [union("y", "c"), join("n", name="y")], None),
]


def causes():
    for by, cause in BYS:
        expect_cause([A], [sort(*by)], "x", cause and "x: " + cause)
    expect_cause([A], [distinct()], "x", None)
    for rest, cause in UNIONS:
        sources = [("a", "n int", "t text?")] + [(f"b{i}", *columns) for i, columns in enumerate(rest)]
        expect_cause(sources, [union(*(name for name, *_ in sources))], "x", cause and "x: " + cause)
    for root, sources, nodes, cause in ORDERS:
        expect_cause(sources, nodes, root, cause)


PAIRS = [("a", "n int?", "t text")]
ORDERED = [("orders", "order_no int", "amt dec2")]

# Sources, nodes with the root named x, the files, and the dump.
MEANINGS = [
    (PAIRS, [sort("t")], ["n,t\n2,b\n,b\n1,a\n-1,b\n"], "n,t\n1,a\n,b\n-1,b\n2,b\n"),
    (PAIRS, [sort("n")], ["n,t\n2,b\n,b\n1,z\n,a\n2,a\n"], "n,t\n,a\n,b\n1,z\n2,a\n2,b\n"),
    (PAIRS, [sort("n", "n")], ["n,t\n2,b\n2,a\n"], "n,t\n2,a\n2,b\n"),
    (PAIRS, [sort("t", "n")], ["n,t\n10,b\n9,b\n9,B\n-9,b\n"], "n,t\n9,B\n-9,b\n9,b\n10,b\n"),
    (PAIRS, [sort("t")], ["n,t\n1,\u00e9\n2,z\n3,Z\n4,\n5,za\n"], "n,t\n4,\n3,Z\n2,z\n5,za\n1,\u00e9\n"),
    (PAIRS, [sort("n")], ["n,t\n"], "n,t\n"),
    (PAIRS, [sort("n")], ["n,t\n1,a\n1,a\n1,a\n"], "n,t\n1,a\n1,a\n1,a\n"),
    (ORDERED, [sort("amt", taken="orders")], ["order_no,amt\n3,10.00\n1,-2.50\n2,10\n"],
     "order_no,amt\n1,-2.50\n2,10.00\n3,10.00\n"),
    (ORDERED, [sort("order_no", taken="orders")],
     ["order_no,amt\n9223372036854775807,0\n-9223372036854775808,1\n0,2\n"],
     "order_no,amt\n-9223372036854775808,1.00\n0,2.00\n9223372036854775807,0.00\n"),
    (PAIRS, [distinct()], ["n,t\n2,b\n1,a\n2,b\n,a\n,a\n1,b\n1,a\n"], "n,t\n2,b\n1,a\n,a\n1,b\n"),
    (PAIRS, [distinct()], ["n,t\n"], "n,t\n"),
    (ORDERED, [distinct(taken="orders")], ["order_no,amt\n1,2.5\n1,2.50\n1,2.05\n"],
     "order_no,amt\n1,2.50\n1,2.05\n"),
    ([("a", "n int"), ("b", "m int?"), ("c", "k int")], [union("b", "a", "c")],
     ["n\n1\n2\n", "m\n3\n\n\"\"\n", "k\n1\n"], "m\n3\n\"\"\n1\n2\n1\n"),
    ([("a", "n int"), ("b", "m int?")], [union("a", "b")], ["n\n1\n2\n", "m\n\"\"\n3\n"], "n\n1\n2\n\"\"\n3\n"),
    ([("a", "n int", "t text"), ("b", "t int", "n text")], [union("a", "b")], ["n,t\n1,x\n", "t,n\n2,y\n"],
     "n,t\n1,x\n2,y\n"),
    ([("a", "n int"), ("b", "n int")], [union("a", "b")], ["n\n", "n\n"], "n\n"),
    ([("a", "n int"), ("b", "n int")], [distinct(taken="y"), union("b", "a", name="y")],
     ["n\n1\n2\n1\n", "n\n2\n3\n"], "n\n2\n3\n1\n"),
    ([("a", "n int"), ("b", "n int")], [sort("n", taken="y"), union("b", "a", name="y")],
     ["n\n1\n2\n1\n", "n\n2\n0\n"], "n\n0\n1\n1\n2\n2\n"),
    ([("a", "n int?"), ("b", "n int")], [select("n is null", taken="y"), union("b", "a", name="y")],
     ["n\n1\n\"\"\n", "n\n2\n"], "n\n\"\"\n"),
]


def meanings():
    for sources, nodes, texts, wanted in MEANINGS:
        expect_dump(sources, nodes, texts, wanted)


def many_inputs():
    """A union of sixteen sources, the most that there may be."""
    sources = [(f"s{i}", "n int") for i in range(16)]
    names = [name for name, _ in reversed(sources)]
    expect_dump(sources, [union(*names)], [f"n\n{i}\n{i}\n" for i in range(16)],
                "n\n" + "".join(f"{i}\n{i}\n" for i in reversed(range(16))))


def rank(column, field):
    """Where a field stands in the order of values: Null first."""
    return () if field == "" else (field.encode() if column == "text" else int(field),)


def random_rows():
    """Sorts and distinct rows of random rows with repeats and empty fields, against the same in Python."""
    chance = random.Random(2)
    kinds = ["int", "text", "int"]
    for count in (1, 7, 300, 5000):
        rows = [[chance.choice(["", "1", "-2", "30", "4"]), chance.choice(["", "a", "ab", "B", "\u00fc"]),
                 chance.choice(["7", "8", "-9"])] for _ in range(count)]
        files = {"a.csv": csv_of("n,t,m", rows).encode()}
        sources = [("a", "n int?", "t text?", "m int")]
        for by in (["n"], ["t"], ["m", "t"], ["t", "m", "n"]):
            places = ["ntm".index(column) for column in by]
            places += [place for place in range(3) if place not in places]
            wanted = sorted(rows, key=lambda row: [rank(kinds[place], row[place]) for place in places])
            _, dumped = load_and_dump(flow_of("x", sources, [sort(*by)]), files, "--batch", "97")
            expect(f"{count} rows by {by}", dumped, (0, csv_of("n,t,m", wanted).encode(), b""))
        wanted = [list(row) for row in dict.fromkeys(map(tuple, rows))]
        _, dumped = load_and_dump(flow_of("x", sources, [distinct()]), files)
        expect(f"{count} rows, distinct", dumped, (0, csv_of("n,t,m", wanted).encode(), b""))


def large_lists():
    """200,000 rows, which comparing each with each other would not end in time."""
    count = 200_000
    text = "a,b\n" + "".join(f"{i * 7919 % count},{i % 3}\n" for i in range(count))
    sources = [("l", "a int", "b int")]
    _, dumped = load_and_dump(flow_of("x", sources, [sort("a", taken="l")]), {"l.csv": text.encode()},
                              "--batch", "4096")
    of = {i * 7919 % count: i % 3 for i in range(count)}
    wanted = "a,b\n" + "".join(f"{a},{of[a]}\n" for a in range(count))
    expect("a large sort", dumped == (0, wanted.encode(), b""), True)
    _, dumped = load_and_dump(flow_of("x", sources, [distinct(taken="l")]), {"l.csv": (text + text[4:]).encode()},
                              "--batch", "4096")
    expect("many distinct rows", dumped == (0, text.encode(), b""), True)


if __name__ == "__main__":
    sys.exit(run_parts("sorts", [causes, meanings, many_inputs, random_rows, large_lists]))
