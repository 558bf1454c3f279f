#!/usr/bin/env python3
"""Kills loads of the proved program with SIGKILL, again and again, and compares what stands at the end.

Usage: kill_and_resume.py [KILLS [SEED [NAME...]]]. A table of a few hundred thousand rows is loaded in blocks of 100
rows, of each flow that is named: selection, map and join where none is. Each load is killed at a random moment, until so
many were killed; the last load completes. Then the rows are those of a load that nobody killed, their number is the one that awk counts in
the sources, another load adds nothing, and a changed flow file is refused and leaves the table as it is.
"""
import os
import random
import shutil
import struct
import subprocess
import sys
import tempfile
import time

TOP = os.path.dirname(os.path.dirname(os.path.abspath(__file__)))
PROGRAM = os.environ.get("WHLOAD", os.path.join(TOP, "crates", "whload", "out", "whload"))

SELECTION = b"""table = { input = "large" }
source = [ { name = "readings", file = "readings.csv", columns = ["meter_no int", "hour int", "watt_hours int"], promise = "seq" } ]
node = [ { name = "some", kind = "select", input = "readings", where = "watt_hours >= 250 and not hour is null" }, { name = "large", kind = "project", input = "some", columns = ["hour", "watt_hours", "meter_no as meter"] } ]
"""

MAP = b"""table = { input = "priced" }
source = [ { name = "readings", file = "readings.csv", columns = ["meter_no int", "hour int", "watt_hours int"], promise = "seq" } ]
node = [ { name = "priced", kind = "map", input = "readings", set = ["cost = scale(watt_hours * 0.31, 2)", "meter_no = -meter_no"] } ]
"""

JOIN = b"""table = { input = "placed" }
source = [
  { name = "readings", file = "readings.csv", columns = ["meter_no int", "hour int", "watt_hours int"], promise = "seq" },
  { name = "meters", file = "meters.csv", columns = ["meter int", "place text?"], promise = "seq" },
]
node = [
  { name = "priced", kind = "map", input = "readings", set = ["cost = scale(watt_hours * 0.31, 2)"] },
  { name = "placed", kind = "join", left = "priced", right = "meters", on = ["meter_no = meter"] },
]
"""


def make_readings(path):
    """Rows with numbers of many lengths, three quarters of which are selected."""
    with open(os.path.join(path, "readings.csv"), "w") as file:
        file.write("meter_no,hour,watt_hours\n")
        for i in range(400_000):
            file.write("%d,%d,%d\n" % (i % 977 - 488, i, i * 7919 % 1000))


def make_meters(path):
    """Meters of which a third stands twice and a third isn't there."""
    make_readings(path)
    with open(os.path.join(path, "meters.csv"), "w") as file:
        file.write("meter,place\n")
        for i in range(977 * 2):
            if i % 3 != 0:
                file.write("%d,%s\n" % (i % 977 - 488, "place %d" % i if i % 5 else ""))


# The flow, what makes its sources, and the line by which awk counts the rows.
LOADS = {
    "selection": (SELECTION, make_readings,
                  ["awk", "-F,", "NR > 1 && $3 >= 250 { n++ } END { print n + 0 }", "readings.csv"]),
    "map": (MAP, make_readings, ["awk", "NR > 1 { n++ } END { print n + 0 }", "readings.csv"]),
    "join": (JOIN, make_meters,
             ["awk", "-F,", "FNR > 1 && NR == FNR { n[$1]++ } FNR > 1 && NR > FNR { all += n[$1] } "
              "END { print all + 0 }", "meters.csv", "readings.csv"]),
}


def fail(why):
    print("kill_and_resume:", why)
    sys.exit(1)


def start(folder):
    return subprocess.Popen([PROGRAM, "load", folder, "--batch", "100"], stdin=subprocess.DEVNULL,
                            stdout=subprocess.PIPE, stderr=subprocess.PIPE)


def load(folder):
    done = start(folder)
    out, notes = done.communicate(timeout=300)
    return done.returncode, out, notes


def table_of(folder):
    with open(os.path.join(folder, "table.whl"), "rb") as file:
        return file.read()


def rows_of(table):
    """The bytes of the rows of the open blocks, how many rows they are, and whether the table is ended."""
    text, = struct.unpack_from(">I", table, 12)
    at, rows, count = 16 + text, [], 0
    while table[at] == 1:
        kind, more, size = struct.unpack_from(">BII", table, at + 1)
        if kind == 1:
            return b"".join(rows), count, True
        rows.append(table[at + 10:at + 10 + size])
        count += more
        at += 10 + size
    return b"".join(rows), count, False


def committed(folder):
    try:
        table = table_of(folder)
    except FileNotFoundError:
        return 0
    if len(table) < 17 or table[0] != 1:
        return 0
    return rows_of(table)[1]


def kill_and_resume(name, flow, make, counting, kills, moments):
    top = tempfile.mkdtemp(prefix="whload kill ")
    try:
        whole, killed = os.path.join(top, "whole"), os.path.join(top, "killed")
        os.mkdir(whole)
        make(whole)
        with open(os.path.join(whole, "flow.toml"), "wb") as file:
            file.write(flow)
        shutil.copytree(whole, killed)

        begun = time.monotonic()
        status, out, notes = load(whole)
        took = time.monotonic() - begun
        if status != 0:
            fail("a load that nobody kills says %r" % notes)
        rows, count, ended = rows_of(table_of(whole))
        counted = int(subprocess.check_output(counting, cwd=whole))
        if not ended or count != counted:
            fail("%d rows stand where awk counts %d" % (count, counted))

        grew = kill_often(killed, kills, moments, took)
        status, out, notes = load(killed)
        if status != 0:
            fail("the load after %d kills says %r" % (kills, notes))
        again, total, ended = rows_of(table_of(killed))
        if not ended or again != rows:
            fail("the rows after %d kills are others" % kills)
        print("the last load says:", out.decode().replace("\n", ", ").rstrip(", "))
        expect_no_more(killed, count)
        print("kill_and_resume: %s, %d kills, of which %d had committed more, %d rows" % (name, kills, grew, count))
    finally:
        shutil.rmtree(top)


def kill_often(killed, kills, moments, took):
    """Kills so many loads, and returns how many of them had committed more than the one before."""
    done, before, grew = 0, 0, 0
    while done < kills:
        # A load that is killed at once adds nothing, and one that is killed late may have nothing left to add. Where one of
        # all rows ends before it is killed, they take less time than was thought.
        begun = time.monotonic()
        child = start(killed)
        try:
            child.wait(timeout=moments.random() * took * 0.9)
            if before == 0:
                took = time.monotonic() - begun
        except subprocess.TimeoutExpired:
            child.kill()
        child.communicate()
        if child.returncode == 0:
            os.unlink(os.path.join(killed, "table.whl"))
            before = 0
            continue
        done += 1
        now = committed(killed)
        if now < before:
            fail("kill %d took back %d rows" % (done, before - now))
        if now > before:
            grew += 1
        before = now
    return grew


def expect_no_more(folder, count):
    """Another load adds nothing, and one of a changed flow file is refused."""
    status, out, notes = load(folder)
    if status != 0 or out != b"complete\nbefore %d\nadded 0\n" % count:
        fail("a load over an ended table says %r" % out)
    table = table_of(folder)
    with open(os.path.join(folder, "flow.toml"), "ab") as file:
        file.write(b" ")
    status, out, notes = load(folder)
    if status != 7 or notes != b"whload: table.whl was made by another workflow\n" or table_of(folder) != table:
        fail("a changed flow file gives %d and %r" % (status, notes))


def main():
    kills = int(sys.argv[1]) if len(sys.argv) > 1 else 100
    seed = int(sys.argv[2]) if len(sys.argv) > 2 else 1
    if not os.access(PROGRAM, os.X_OK):
        fail("there is no " + PROGRAM)
    moments = random.Random(seed)
    for name in sys.argv[3:] or ["selection", "map", "join"]:
        kill_and_resume(name, *LOADS[name], kills, moments)


main()
