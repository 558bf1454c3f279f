#!/usr/bin/env python3
"""What aggregates are to do, run over the proved program.

The expected rows are written here, from docs/FORMATS.md, or computed in Python from the rows of the sources.
"""
import random
import sys

from flows import A, B, aggregate, csv_of, expect_cause, expect_dump, flow_of, load_and_dump, project, select, sort, union
from harness import expect, run_parts

# By which columns of `A`, `n int`, `m int?`, `d dec2` and `t text`, rows are grouped, what is made, and what is told of
# the node x, or nothing where the flow is right.
MAKES = [
    (["t"], ["c = count"], None), (["t", "n"], ["c = count", "e = count m", "s = sum d", "l = min t"], None),
    (["m"], ["l = min m", "g = max d", "k = max t"], None), (["t"], ["n = sum n", "m = min n"], None),
    (["t"], ["s = sum n", "r = sum m", "q = sum d"], None),
    (["k"], ["c = count"], "unknown column k"), (["n", "k", "j"], ["c = sum j"], "unknown column k"),
    (["n"], ["c = count k"], "unknown column k"), (["n"], ["c = min n", "e = max j", "f = sum k"], "unknown column j"),
    (["n"], ["s = sum t"], "kinds differ"), (["n"], ["s = sum t", "r = sum k"], "unknown column k"),
    (["n"], ["n = sum t"], "kinds differ"), (["n", "n"], ["s = sum t"], "kinds differ"),
    (["n"], ["n = count"], "column n comes twice"), (["n", "n"], ["c = count"], "column n comes twice"),
    (["n"], ["c = count", "c = sum n"], "column c comes twice"),
    (["n", "t"], ["c = count", "t = count", "c = count", "n = count"], "column t comes twice"),
    (["n"], [f"c{i} = count" for i in range(63)], None),
    (["n"], [f"c{i} = count" for i in range(64)], "more than 64 columns"),
    (["n"], [f"c{i} = count" for i in range(63)] + ["c0 = count"], "column c0 comes twice"),
]

# Flows of several nodes, with the fault that comes first.
ORDERS = [
    ("x", [A], [aggregate(["t"], "c = count", taken="s"), select("k = 1", name="s")], "s: unknown column k"),
    ("x", [A], [aggregate(["c"], "t = max t", taken="s"), aggregate(["t"], "c = count", name="s")], None),
    ("x", [A], [aggregate(["t"], "s = max n", taken="s"), aggregate(["t"], "c = count", name="s")],
     "x: unknown column n"),
    ("y", [A], [sort("c", taken="x", name="y"), aggregate(["t"], "c = count")], None),
    ("y", [A], [select("c is null", taken="x", name="y"), aggregate(["t"], "c = sum n")], None),
    ("y", [A, B], [union("x", "p", name="y"), aggregate(["n"], "c = count"),
                   project("n", "n as c", taken="b", name="p")], None),
    ("y", [A, B], [union("x", "p", name="y"), aggregate(["n"], "c = max t"),
                   project("n", "n as c", taken="b", name="p")], "y: kinds differ"),
]


def causes():
    for by, makes, cause in MAKES:
        for order in ("first", "key"):
            expect_cause([A], [aggregate(by, *makes, order=order)], "x", cause and "x: " + cause)
    for root, sources, nodes, cause in ORDERS:
        expect_cause(sources, nodes, root, cause)


SALES = [("sales", "region text", "amt int")]
PAIRS = [("a", "g text?", "n int?")]
DECIMALS = [("a", "g int", "d dec2?")]
MOST, LEAST = 2**63 - 1, -(2**63)


def sales(makes, order):
    return [aggregate(["region"], *makes, taken="sales", order=order)]


# Sources, nodes with the root named x, the files, and the dump.
MEANINGS = [
    (SALES, sales(["total = sum amt"], "first"), ["region,amt\ns,1\nn,5\ns,2\n"], "region,total\ns,3\nn,5\n"),
    (SALES, sales(["total = sum amt"], "key"), ["region,amt\ns,1\nn,5\ns,2\n"], "region,total\nn,5\ns,3\n"),
    (SALES, sales(["c = count"], "first"), ["region,amt\n"], "region,c\n"),
    (SALES, sales(["c = count"], "key"), ["region,amt\n"], "region,c\n"),
    (SALES, sales(["c = count", "s = sum amt", "l = min amt", "g = max amt"], "first"),
     ["region,amt\nn,3\nn,-4\nn,0\n"], "region,c,s,l,g\nn,3,-1,-4,3\n"),
    # Nulls are one group, and first of those in order; they are counted only as rows.
    (PAIRS, [aggregate(["g"], "c = count", "d = count n", "s = sum n", "l = min n", "h = max n")],
     ["g,n\nb,\n,1\na,2\n,\nb,\n"], "g,c,d,s,l,h\nb,2,0,,,\n,2,1,1,1,1\na,1,1,2,2,2\n"),
    (PAIRS, [aggregate(["g"], "c = count", order="key")], ["g,n\nb,\n,1\na,2\n,\nB,\n"],
     "g,c\n,2\nB,1\na,1\nb,1\n"),
    (PAIRS, [aggregate(["n"], "c = count", order="key")], ["g,n\na,10\na,9\na,\na,-9\na,9\n"],
     "n,c\n,1\n-9,1\n9,2\n10,1\n"),
    (PAIRS, [aggregate(["g", "n"], "c = count", order="key")], ["g,n\nb,1\na,2\nb,\na,1\nb,1\n"],
     "g,n,c\na,1,1\na,2,1\nb,,1\nb,1,2\n"),
    (PAIRS, [aggregate(["n", "g"], "c = count")], ["g,n\nb,1\na,2\nb,1\n"], "n,g,c\n1,b,2\n2,a,1\n"),
    (PAIRS, [aggregate(["n"], "l = min g", "h = max g")], ["g,n\nb,1\n,1\nab,1\n\u00fc,1\n,2\n"],
     "n,l,h\n1,ab,\u00fc\n2,,\n"),
    (DECIMALS, [aggregate(["g"], "s = sum d", "l = min d", "h = max d")],
     ["g,d\n1,0.10\n1,-2\n2,\n1,1.95\n"], "g,s,l,h\n1,0.05,-2.00,1.95\n2,,,\n"),
    # A sum is exact, whatever its parts come to, and Null where it is no number of 64 bits.
    (SALES, sales(["s = sum amt"], "first"),
     [f"region,amt\nn,{MOST}\nn,1\nn,-1\ns,{MOST}\ns,1\nw,{LEAST}\nw,-1\nw,1\ne,{LEAST}\ne,-1\no,{LEAST}\no,{MOST}\n"],
     f"region,s\nn,{MOST}\ns,\nw,{LEAST}\ne,\no,-1\n"),
    (DECIMALS, [aggregate(["g"], "s = sum d")],
     ["g,d\n1,92233720368547758.07\n1,0.01\n1,-0.02\n2,92233720368547758.07\n2,0.01\n"],
     "g,s\n1,92233720368547758.06\n2,\n"),
    # The least and the greatest of numbers at their limits.
    (SALES, sales(["l = min amt", "h = max amt"], "first"), [f"region,amt\nn,{MOST}\nn,{LEAST}\nn,0\n"],
     f"region,l,h\nn,{LEAST},{MOST}\n"),
    # Groups of groups.
    (SALES, [aggregate(["c"], "n = count", taken="y", order="key"),
             aggregate(["region"], "c = count", taken="sales", name="y")],
     ["region,amt\ns,1\nn,5\ns,2\nw,1\n"], "c,n\n1,2\n2,1\n"),
    (SALES, [select("s > 2", taken="y"), aggregate(["region"], "s = sum amt", taken="sales", name="y")],
     ["region,amt\ns,1\nn,5\ns,1\n"], "region,s\nn,5\n"),
]


def meanings():
    for sources, nodes, texts, wanted in MEANINGS:
        expect_dump(sources, nodes, texts, wanted)


def rank(field):
    return () if field == "" else (field.encode(),)


def made(rows):
    """Of rows of a group: their count, and of those with a value its count, sum, least and greatest."""
    given = [int(n) for _, _, n in rows if n != ""]
    of = [str(sum(given)), str(min(given)), str(max(given))] if given else ["", "", ""]
    return [str(len(rows)), str(len(given))] + of


def random_rows():
    """Groups of random rows with repeats and empty fields, against the same in Python."""
    chance = random.Random(3)
    makes = ["c = count", "e = count n", "s = sum n", "l = min n", "h = max n"]
    for count in (1, 8, 300, 5000):
        rows = [[chance.choice(["", "a", "ab", "B", "\u00fc"]), chance.choice(["x", "y"]),
                 chance.choice(["", "1", "-2", "30", "4", str(MOST // 10000)])] for _ in range(count)]
        files = {"a.csv": csv_of("g,k,n", rows).encode()}
        groups = {}
        for row in rows:
            groups.setdefault((row[1], row[0]), []).append(row)
        for order in ("first", "key"):
            keys = list(groups) if order == "first" else sorted(groups, key=lambda key: [rank(part) for part in key])
            wanted = [list(key) + made(groups[key]) for key in keys]
            flow = flow_of("x", [("a", "g text?", "k text", "n int?")], [aggregate(["k", "g"], *makes, order=order)])
            _, dumped = load_and_dump(flow, files, "--batch", "3")
            expect(f"{count} rows, {order}", dumped, (0, csv_of("k,g,c,e,s,l,h", wanted).encode(), b""))


def large_lists():
    """200,000 rows of 1,000 groups and of 100,000 groups."""
    count = 200_000
    for groups in (1000, 100_000):
        text = "g,n\n" + "".join(f"{i * 7919 % groups},{i}\n" for i in range(count))
        of = {}
        for i in range(count):
            of.setdefault(i * 7919 % groups, []).append(i)
        for order in ("first", "key"):
            flow = flow_of("x", [("l", "g int", "n int")],
                           [aggregate(["g"], "c = count", "s = sum n", taken="l", order=order)])
            _, dumped = load_and_dump(flow, {"l.csv": text.encode()}, "--batch", "4096")
            keys = list(of) if order == "first" else sorted(of)
            wanted = "g,c,s\n" + "".join(f"{g},{len(of[g])},{sum(of[g])}\n" for g in keys)
            expect(f"{groups} groups, {order}", dumped == (0, wanted.encode(), b""), True)


if __name__ == "__main__":
    sys.exit(run_parts("groups", [causes, meanings, random_rows, large_lists]))
