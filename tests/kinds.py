#!/usr/bin/env python3
"""Runs the proved program over flows of each kind: what is wrong with a flow is told, and what a flow means is dumped.

The expected rows are written here, from docs/FORMATS.md, or computed in Python from the rows of the sources.
"""
import os
import sys

from flows import A, B, assign, expect_cause, expect_dump, select
from harness import TOP, expect, folder, run, run_parts

# Texts of a selection over `A`, and what is told of the node x, or nothing where the flow is right.
WHERES = [
    ("n = 1", None), ("n=1", None), (" n = 1 ", None), ("not n > 1", None), ("m is null", None), ("t = 'x'", None),
    ("d >= 10.00 and not d is null", None), ("n = 1 or n = 2 and t < 'b'", None), ("(n = 1)", None),
    ("scale(d, 0) = 10", None), ("n / 0 = 1", None), ("coalesce(m, n) > 0", None), ("if(n = 1, t, 'y') = t", None),
    ("length(t) = 3", None), ("abs(n) <= 9223372036854775807", None), ("-n < 5", None), ("t || 'x' <> t", None),
    ("n = d", None), ("d < 1.005", None),
    (" ", "expression is wrong at 1"), ("n", "expression has the wrong kinds"),
    ("'x'", "expression has the wrong kinds"),
    ("n =", "expression is wrong at 3"), ("n >=", "expression is wrong at 4"), ("n == 1", "expression is wrong at 3"),
    ("n != 1", "expression is wrong at 2"), ("n = 1 1", "expression is wrong at 6"),
    ("(n = 1", "expression is wrong at 6"), ("N = 1", "expression is wrong at 0"),
    ("n = 'x", "expression is wrong at 6"), ("null = 1", "expression is wrong at 4"),
    ("n is 1", "expression is wrong at 5"), ("scale(d, 7) = 1", "expression is wrong at 9"),
    ("n = 9223372036854775808", "expression is wrong at 4"), ("n = 1;", "expression is wrong at 5"),
    ("(" * 64 + "n = 1" + ")" * 64, None), ("(" * 65 + "n = 1" + ")" * 65, "expression is wrong at 64"),
    ("k = 1", "unknown column k"), ("n = k or j = 1", "unknown column k"), ("k + 'x' = 1", "unknown column k"),
    ("n = 'x'", "expression has the wrong kinds"), ("n and n", "expression has the wrong kinds"),
    ("n + t = 1", "expression has the wrong kinds"), ("n || t = 'x'", "expression has the wrong kinds"),
    ("not n", "expression has the wrong kinds"), ("length(n) = 1", "expression has the wrong kinds"),
    ("coalesce(n, d) = 1", "expression has the wrong kinds"), ("(n = 1) = (n = 2)", "expression has the wrong kinds"),
    ("d * 1.000000 > 1", "expression has the wrong kinds"), ("n = 1 is null", "expression is wrong at 6"),
]

# Texts of a map over `A`, likewise.
SETS = [
    (["m = n + 1"], None), (["x = n", "y = x"], "unknown column x"), (["n = n", "m = m"], None),
    (["n = 'x'"], None), (["x = d * d"], None), (["x = if(n = 1, n, m)"], None), (["x =  n"], None),
    (["x = n = 1"], "expression has the wrong kinds"), (["x = not n = 1"], "expression has the wrong kinds"),
    (["x = "], "expression is wrong at 0"), (["x = n +"], "expression is wrong at 3"),
    (["x = 1", "y = k"], "unknown column k"), (["x = k", "y = "], "unknown column k"),
    (["x = n + t", "y = k"], "expression has the wrong kinds"), (["x = 1", "x = 2"], "column x comes twice"),
    (["n = 1", "m = 2", "n = 3"], "column n comes twice"), (["x = 1", "x = n +"], "expression is wrong at 3"),
    (["x = 1", "x = 2", "y = k"], "unknown column k"),
    ([f"x{i} = n" for i in range(60)], None), ([f"x{i} = n" for i in range(61)], "more than 64 columns"),
    ([f"x{i} = n" for i in range(60)] + ["n = 1"], None),
    ([f"x{i % 60} = n" for i in range(61)], "column x0 comes twice"),
]

# Flows of several nodes, with the fault that comes first.
ORDERS = [
    ("z", [A], [select("j = 1", "x", "z"), assign("k = n")], "z: unknown column j"),
    ("z", [A], [select("k = 'x'", "x", "z"), assign("k = t")], None),
    ("z", [A], [select("k = 1", "x", "z"), assign("k = t")], "z: expression has the wrong kinds"),
    ("z", [A], [select("k = 1", "x", "z"), assign("k = j")], "x: unknown column j"),
    ("z", [A], [assign("y = x + 1", taken="x", name="z"), assign("x = n")], None),
    ("z", [A], [assign("y = x + 1", taken="x", name="z"), assign("x = t")], "z: expression has the wrong kinds"),
    ("x", [("a", "n int", "n int")], [assign("k = j")], "a: column n comes twice"),
    ("x", [A, B], [assign("y = k", taken="a")], "b: is not reached from the table"),
]


def causes():
    for text, cause in WHERES:
        expect_cause([A], [select(text)], "x", cause and "x: " + cause)
    for texts, cause in SETS:
        expect_cause([A], [assign(*texts)], "x", cause and "x: " + cause)
    for root, sources, nodes, cause in ORDERS:
        expect_cause(sources, nodes, root, cause)


ORDERS_FLOW = [("orders", "order_no int", "amt dec2")]

O3 = "order_no,amt\n1,9.99\n2,10.00\n3,250.50\n"

# Sources, nodes with the root first, the files, and the dump.
MEANINGS = [
    (ORDERS_FLOW, [select("amt >= 10.00", "orders")], [O3], "order_no,amt\n2,10.00\n3,250.50\n"),
    (ORDERS_FLOW, [select("amt >= 10.00 and not amt is null", "orders")], [O3], "order_no,amt\n2,10.00\n3,250.50\n"),
    (ORDERS_FLOW, [select("scale(amt, 0) = 10", "orders")], [O3], "order_no,amt\n1,9.99\n2,10.00\n"),
    (ORDERS_FLOW, [select("amt / 0 = 1", "orders")], [O3], "order_no,amt\n"),
    ([("nums", "n int")], [assign("m = n + 1", taken="nums")], ["n\n9223372036854775807\n"],
     "n,m\n9223372036854775807,\n"),
    ([("nums", "n int", "m int")], [assign("n = m", "m = n", taken="nums")], ["n,m\n1,2\n3,4\n"], "n,m\n2,1\n4,3\n"),
    ([("nums", "n int", "m int")], [assign("x = n + m", "n = 'a' || 'b'", "y = -m", taken="nums")], ["n,m\n1,2\n"],
     "n,m,x,y\nab,2,3,-2\n"),
    ([("items", "price dec2", "count int?")], [assign("net = scale(price * count * 0.9, 2)", taken="items")],
     ["price,count\n10.00,3\n0.05,1\n1.00,\n"], "price,count,net\n10.00,3,27.00\n0.05,1,0.05\n1.00,,\n"),
    ([("items", "t text")], [assign("t = if(length(t) > 1, t, coalesce(t, ''))", "l = length(t)", taken="items")],
     ["t\nab\n\"\"\n"], "t,l\nab,2\n,0\n"),
]


def meanings():
    for sources, nodes, texts, wanted in MEANINGS:
        expect_dump(sources, nodes, texts, wanted)


def the_example():
    """The flow that README shows."""
    with open(os.path.join(TOP, "README.md"), encoding="utf8") as file:
        shown = file.read().split("whload dump sales\n```\n\n```text\n")[1].split("```")[0].encode()
    path = os.path.join(TOP, "examples", "sales")
    files = {}
    for name in os.listdir(path):
        with open(os.path.join(path, name), "rb") as file:
            files[name] = file.read()
    path = folder(files)
    _, report, _ = run("load", path)
    expect("the load and the dump of sales", report + run("dump", path)[1], shown)


if __name__ == "__main__":
    sys.exit(run_parts("kinds", [causes, meanings, the_example]))
