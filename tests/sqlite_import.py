#!/usr/bin/env python3
"""Loads and dumps a source, lets sqlite3 import the source and the dump, and compares what it holds of each.

sqlite3 takes each field as a text, so the source has its numbers in the form that a dump prints.
"""
import os
import random
import subprocess
import sys

from harness import expect, folder, run, run_parts

FLOW = b"""table = { input = "orders" }
source = [ { name = "orders", file = "orders.csv", columns = ["no int", "buyer text", "amount dec2", "paid dec2?", "note text?"], promise = "seq" } ]
"""

NOTES = ["", "plain", '"said ""yes"", then left"', '"a, b and c"', '"two\nlines"', "\u00e9t\u00e9", " spaced ",
         '"CR\rLF\r\n"']


def source(rows):
    chosen = random.Random(1)
    lines = ["no,buyer,amount,paid,note\n"]
    for no in range(rows):
        cents = chosen.randrange(-10**6, 10**6)
        sign, size = "-" if cents < 0 else "", abs(cents)
        paid = "" if chosen.random() < 0.3 else f"{chosen.randrange(1000)}.50"
        fields = [str(no), f"Customer {chosen.randrange(999)}", f"{sign}{size // 100}.{size % 100:02}", paid]
        lines.append(",".join(fields + [chosen.choice(NOTES)]) + "\n")
    return "".join(lines).encode()


def imports():
    path = folder({"flow.toml": FLOW, "orders.csv": source(20_000)})
    expect("the load", run("load", path), (0, b"complete\nbefore 0\nadded 20000\n", b""))
    status, dump, notes = run("dump", path)
    expect("the dump", (status, notes), (0, b""))
    with open(os.path.join(path, "dump.csv"), "wb") as file:
        file.write(dump)
    script = ".mode csv\n.import orders.csv source\n.import dump.csv dump\n.mode list\n" + "".join(
        f"select count(*) from (select rowid, * from {one} except select rowid, * from {other});\n"
        for one, other in [("source", "dump"), ("dump", "source")]) + "select count(*) from dump;\n"
    done = subprocess.run(["sqlite3", ":memory:"], input=script.encode(), capture_output=True, timeout=60, cwd=path)
    expect("what sqlite3 holds of the source and of the dump", (done.stdout, done.stderr), (b"0\n0\n20000\n", b""))


if __name__ == "__main__":
    sys.exit(run_parts("sqlite3", [imports]))
