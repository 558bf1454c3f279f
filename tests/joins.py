#!/usr/bin/env python3
"""What joins and lookups are to do, run over the proved program.

The expected rows are written here, from docs/FORMATS.md, or computed in Python from the rows of the sources.
"""
import random
import sys

from flows import A, B, assign, csv_of, expect_cause, expect_dump, flow_of, join, load_and_dump, lookup, select
from harness import expect, expect_refusal, run_parts

# What `A` and `B` are joined on, likewise.
ONS = [
    (["n"], "column d comes twice"), (["n", "d"], None), (["d", "n"], None), (["n", "d", "t = k"], None),
    (["n = n", "d = d"], None), (["m = n", "d"], None), (["m = n"], "column d comes twice"),
    (["k"], "unknown column k"), (["t"], "unknown column t"), (["n = j"], "unknown column j"),
    (["k = j"], "unknown column k"), (["n", "t = j", "k"], "unknown column j"), (["n = k"], "kinds differ"),
    (["d = e"], "kinds differ"), (["n = d"], "kinds differ"), (["n = k", "j"], "unknown column j"),
    (["n = k", "n = k"], "kinds differ"), (["n", "n"], "column n comes twice"),
    (["n", "n = k"], "kinds differ"), (["n", "m = n", "d"], "column n comes twice"),
    (["n", "d", "t = k", "d = e"], "kinds differ"), (["d", "d", "n"], "column d comes twice"),
]

# Wide inputs of a join: so many columns each, and what is told.
WIDTHS = [(32, 33, None), (33, 33, "more than 64 columns"), (64, 1, None), (64, 2, "more than 64 columns")]

# Flows of several nodes, with the fault that comes first.
ORDERS = [
    ("x", [A, B], [join("y = n", "d", left="s"), select("k = 1", name="s")], "s: unknown column k"),
    ("x", [A, B], [join("n", "d", left="s", right="r"), select("k = 1", "b", "r"), select("k = 1", "a", "s")],
     "s: unknown column k"),
    ("x", [A, B], [join("n", "d", right="r"), select("j = 1", "b", "r")], "r: unknown column j"),
    ("x", [A, B], [join("n", left="a", right="a")], "a: is used twice"),
    ("x", [A, B], [assign("y = k", taken="a")], "b: is not reached from the table"),
    ("x", [A, B], [join("n", right="c")], "x: no input c"),
    ("x", [("a", "n int", "n int"), B], [join("k", "n")], "a: column n comes twice"),
    ("x", [A, ("b", "k int", "k int")], [join("k")], "b: column k comes twice"),
    ("z", [A, B], [select("j = 1", "x", "z"), join("n", "d")], "z: unknown column j"),
    ("z", [A, B], [select("k = 'x'", "x", "z"), join("n", "d")], None),
    ("z", [A, B], [select("e is null", "x", "z"), lookup("n", "d")], None),
    ("z", [A, B], [assign("e = e + 1", "n = k", taken="x", name="z"), lookup("n", "d")], None),
    ("z", [A], [assign("y = x + 1", taken="x", name="z"), assign("x = n")], None),
    ("z", [A], [assign("y = x + 1", taken="x", name="z"), assign("x = t")], "z: expression has the wrong kinds"),
    ("x", [A, B, ("c", "n int")], [join("n", left="y", right="c"), join("n", "d", name="y")], None),
    ("x", [A, B, ("c", "n int", "k int")], [join("n", left="y", right="c"), join("n", "d", name="y")],
     "x: column k comes twice"),
]


def causes():
    for on, cause in ONS:
        for kind in (join, lookup):
            expect_cause([A, B], [kind(*on)], "x", cause and "x: " + cause)
    for left, right, cause in WIDTHS:
        wide = [("a", "j int", *(f"a{i} int" for i in range(left - 1))),
                ("b", "j int", *(f"b{i} int" for i in range(right - 1)))]
        for kind in (join, lookup):
            expect_cause(wide, [kind("j")], "x", cause and "x: " + cause)
    for root, sources, nodes, cause in ORDERS:
        expect_cause(sources, nodes, root, cause)


# Two sources of one region column, of which each file has a row without one.
REGIONS = [("orders", "order_no int", "region text?"), ("reps", "rep_no int", "region text?")]

# Orders with what each comes to, who bought, and where.
SALES = ([("orders", "order_no int", "customer_no int", "quantity int", "price dec2", "discount dec2?"),
          ("customers", "customer_no int", "customer text", "region text?"),
          ("regions", "region text", "region_name text")],
         [assign("net = scale(price * quantity * (1 - coalesce(discount, 0.00)), 2)", taken="orders", name="priced"),
          join("customer_no", left="priced", right="customers", name="bought"),
          lookup("region", left="bought", right="regions", name="placed"),
          {"name": "x", "kind": "project", "input": "placed",
           "columns": ["order_no", "customer", "region_name as region", "net"]}],
         ["order_no,customer_no,quantity,price,discount\n1001,7,3,19.90,\n1002,8,1,250.00,0.10\n1003,7,2,4.95,0.05\n"
          "1004,12,1,80.00,\n1005,9,10,0.33,0.50\n1006,10,1,5.00,0.00\n",
          "customer_no,customer,region\n7,Okafor,n\n8,\"Hansen, Ida\",s\n9,Novak,\n10,Karlsen,x\n",
          "region,region_name\nn,North\ns,South\n"],
         "order_no,customer,region,net\n1001,Okafor,North,59.70\n1002,\"Hansen, Ida\",South,225.00\n"
         "1003,Okafor,North,9.41\n1005,Novak,,1.65\n1006,Karlsen,,5.00\n")

# Sources, nodes with the root named x, the files, and the dump.
MEANINGS = [
    SALES,
    (REGIONS, [join("region", left="orders", right="reps")],
     ["order_no,region\n1,n\n2,s\n", "rep_no,region\n7,n\n8,n\n"], "order_no,region,rep_no\n1,n,7\n1,n,8\n"),
    (REGIONS, [lookup("region", left="orders", right="reps")],
     ["order_no,region\n1,n\n2,s\n", "rep_no,region\n7,n\n8,n\n"], "order_no,region,rep_no\n1,n,7\n1,n,8\n2,s,\n"),
    (REGIONS, [join("region", left="orders", right="reps")], ["order_no,region\n1,\n", "rep_no,region\n7,\n"],
     "order_no,region,rep_no\n"),
    (REGIONS, [lookup("region", left="orders", right="reps")], ["order_no,region\n1,\n", "rep_no,region\n7,\n"],
     "order_no,region,rep_no\n1,,\n"),
    (REGIONS, [lookup("region", left="orders", right="reps")], ["order_no,region\n1,n\n", "rep_no,region\n"],
     "order_no,region,rep_no\n1,n,\n"),
]


def meanings():
    for sources, nodes, texts, wanted in MEANINGS:
        expect_dump(sources, nodes, texts, wanted)


def joined(lefts, rights, is_lookup):
    """The rows of a join, or a lookup, of lists of rows on their first two columns."""
    for left in lefts:
        found = [left + right[2:] for right in rights if "" not in left[:2] and left[:2] == right[:2]]
        if not found and is_lookup:
            found = [left + [""]]
        yield from found


def joins():
    """Joins of random rows with repeats and empty fields, against the same in Python."""
    chance = random.Random(1)
    for rows in (0, 1, 5, 40, 300):
        for kind in (join, lookup):
            lefts = [[chance.choice(["", "1", "-2", "30"]), chance.choice(["", "a", "b"]), str(i)]
                     for i in range(rows)]
            rights = [[chance.choice(["", "1", "-2", "4"]), chance.choice(["", "a", "b"]), f"r{i}"]
                      for i in range(rows)]
            flow = flow_of("x", [("l", "a int?", "b text?", "c int"), ("r", "a int?", "b text?", "d text")],
                           [kind("a", "b", left="l", right="r")])
            files = {"l.csv": csv_of("a,b,c", lefts).encode(), "r.csv": csv_of("a,b,d", rights).encode()}
            path, dumped = load_and_dump(flow, files, "--batch", "7")
            wanted = csv_of("a,b,c,d", joined(lefts, rights, kind is lookup))
            expect(f"{rows} rows joined", dumped, (0, wanted.encode(), b""))


def large_join():
    """100,000 rows by 100,000, which a join in their product would not end in time."""
    count = 100_000
    flow = flow_of("x", [("l", "a int", "b int"), ("r", "a int", "c int")], [join("a", left="l", right="r")])
    left = "a,b\n" + "".join(f"{i * 7 % count},{i}\n" for i in range(count))
    right = "a,c\n" + "".join(f"{i * 3 % count},{i}\n" for i in range(count))
    path, dumped = load_and_dump(flow, {"l.csv": left.encode(), "r.csv": right.encode()}, "--batch", "4096")
    of = {i * 3 % count: i for i in range(count)}
    wanted = "a,b,c\n" + "".join(f"{i * 7 % count},{i},{of[i * 7 % count]}\n" for i in range(count))
    expect("a large join", dumped == (0, wanted.encode(), b""), True)


def several_sources():
    """Sources are read in the order of the file, and the first one with a fault is told."""
    sources = [("r", "a int", "c int"), ("l", "a int", "b int")]
    flow = flow_of("x", sources, [join("a", left="l", right="r")])
    good = {"flow.toml": flow, "l.csv": b"a,b\n1,2\n", "r.csv": b"a,c\n1,3\n"}
    for files, line in [
            ({"l.csv": b"a,b\n1,x\n"}, "source l row 1 column 2: not a number"),
            ({"l.csv": b"a,b\n1,x\n", "r.csv": b"a,c\nx,3\n"}, "source r row 1 column 1: not a number"),
            ({"l.csv": b"a\n", "r.csv": b"a,c\n1\n"}, "source r: row 1 has another number of fields")]:
        expect_refusal(f"the files {files}", good | files, 4, line)
    del good["l.csv"]
    expect_refusal("no file of the second source", good, 4, "source l: file is missing")


if __name__ == "__main__":
    sys.exit(run_parts("joins", [causes, meanings, joins, large_join, several_sources]))
