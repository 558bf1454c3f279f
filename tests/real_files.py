#!/usr/bin/env python3
"""Runs the proved program that the gate left over real files, and compares every byte.

Here are whole loads, tables that stand already, words, and devices; flow_texts.py and csv_texts.py have the texts of
flows and of sources.
"""
import csv
import os
import subprocess
import sys

from harness import (PROGRAM, REPORT, TOP, expect, expect_load, expect_refusal, folder, head_bytes, run, run_parts,
                     table_bytes, table_of)

FLOW = b"""table = { input = "nums" }
source = [ { name = "nums", file = "nums.csv", columns = ["a int", "b int"], promise = "seq" } ]
"""

THREE = b"a,b\n1,10\n2,20\n3,30\n"

ROWS = [(1, 10), (2, 20), (3, 30)]

# The block of those rows, the block of the last two, and the block of their second columns.
THREE_ROWS = ("0100000000030000003601000000000000000101000000000000000a010000000000000002010000000000000014"
              "01000000000000000301000000000000001e")
TWO_ROWS = "0100000000020000002401000000000000000201000000000000001401000000000000000301000000000000001e"
THREE_NUMBERS = "0100000000030000001b01000000000000000a01000000000000001401000000000000001e"

# The end block, and the closed gate behind it.
END = "0101000000000000000000"


def shell(line, path):
    """Runs a line of bash in which $W is the program and $D the folder."""
    done = subprocess.run(["bash", "-c", line], stdin=subprocess.DEVNULL, capture_output=True,
                          timeout=60, env={**os.environ, "W": PROGRAM, "D": path})
    return done.returncode, done.stdout, done.stderr


def nums(text):
    return {"flow.toml": FLOW, "nums.csv": text}


def example_files(example, source):
    """The files of an example, and the records of its source behind the header, as Python's csv reads them."""
    path = os.path.join(TOP, "examples", example)
    files = {}
    for name in ("flow.toml", source):
        with open(os.path.join(path, name), "rb") as file:
            files[name] = file.read()
    return files, list(csv.reader(files[source].decode().splitlines(keepends=True)))[1:]


def readings(example):
    files, records = example_files(example, "readings.csv")
    return files, [tuple(int(field) for field in record) for record in records]


def cents(field):
    """The units of a field with two digits behind its point, and Null of an empty one."""
    return int(field.replace(".", "")) if field else None


def the_examples():
    files, rows = readings("meters")
    loaded = expect_load("the example", files, rows)
    before = table_of(loaded)
    expect("a second load", run("load", loaded), (0, b"complete\nbefore %d\nadded 0\n" % len(rows), b""))
    expect("a second load changes nothing", table_of(loaded), before)

    files, rows = readings("high_use")
    high = [(used, meter, hour) for meter, day, hour, used in rows if used >= 500]
    expect_load("a selection and a projection", files, high)

    files, records = example_files("orders", "orders.csv")
    orders = [(int(no), buyer, cents(amount), cents(paid), note or None)
              for no, buyer, _, amount, paid, note in records]
    expect_load("texts, decimals and empty fields", files, orders)


def blocks():
    """Tables of three rows, from the first gate on."""
    node = b'node = [ { name = "some", kind = "%s", input = "nums", %s } ]\n'
    taken = FLOW.replace(b'input = "nums"', b'input = "some"')
    for what, flow, count, rows in [
            ("three rows", FLOW, 3, THREE_ROWS),
            ("a selection", taken + node % (b"select", b'where = "b >= 20"'), 2, TWO_ROWS),
            ("a projection", taken + node % (b"project", b'columns = ["b as x"]'), 3, THREE_NUMBERS)]:
        path = folder({"flow.toml": flow, "nums.csv": THREE})
        expect(what, run("load", path), (0, REPORT % count, b""))
        expect(what + ": the table", table_of(path).hex(), head_bytes(flow).hex() + rows + END)

    for count in (1, 4096):
        path = folder(nums(THREE))
        expect(f"blocks of {count} rows", run("load", path, "--batch", str(count)), (0, REPORT % 3, b""))
        expect(f"blocks of {count} rows: the table", table_of(path), table_bytes(FLOW, ROWS, count))
    many = [(i, i * i) for i in range(2500)]
    text = b"a,b\n" + b"".join(b"%d,%d\n" % row for row in many)
    expect_load("2,500 rows", nums(text), many)
    for count in (1000, 1001):
        text = b"a,b\n" + b"".join(b"%d,%d\n" % row for row in many[:count])
        expect_load(f"{count} rows", nums(text), many[:count])


# The gates of a table of one row in each block: of the head, of each block, of the end, and behind it.
WHOLE = table_bytes(FLOW, ROWS, 1)
GATES = [0] + [len(head_bytes(FLOW)) + 28 * i for i in range(4)] + [len(WHOLE) - 1]

GONE_ON = b"complete\nbefore %d\nadded %d\nedge nums passed %d dropped %d\n"

MADE_ANEW = (0, REPORT % 3, b"")

ENDED = (0, b"complete\nbefore 3\nadded 0\n", b"")


def gone_on(before):
    """What is said where so many rows stand in a table that isn't ended."""
    if before == 0:
        return MADE_ANEW
    added = 3 - before
    return 0, GONE_ON % (before, added, added, before), b""


def wrong_at(place):
    return 7, b"", b"whload: table.whl is not a table at %d\n" % place


def expect_over(what, table, told):
    """A load over this table, in blocks of one row: a refusal leaves it, and else all rows stand in it."""
    path = folder(dict(nums(THREE), **{"table.whl": table}))
    expect(what, run("load", path, "--batch", "1"), told)
    if told[0] == 7 or told == ENDED:
        expect(what + ": the table", table_of(path), table)
    else:
        expect(what + ": the table", table_of(path)[:len(WHOLE)], WHOLE)


def with_byte(at, byte):
    return WHOLE[:at] + bytes([byte]) + WHOLE[at + 1:]


def standing_tables():
    first, second = GATES[1], GATES[2]
    # A table of which one block is committed, with what a stopped load left behind the gate.
    expect_over("a load that goes on", WHOLE[:second] + b"\x00" + b"\x01" * 50, gone_on(1))
    expect_over("a gate alone", b"\x01", MADE_ANEW)
    expect_over("a file of another kind", b"some other file, longer than a head", MADE_ANEW)
    expect_over("a short file of another kind", b"\x01WHTABLF.......", MADE_ANEW)
    expect_over("a changed flow", table_bytes(FLOW + b" ", ROWS),
                (7, b"", b"whload: table.whl was made by another workflow\n"))
    expect_over("a changed byte of the flow", with_byte(16, ord("T")),
                (7, b"", b"whload: table.whl was made by another workflow\n"))

    # Places in the head, and in the first block: of its kind, its rows, its length, and its row.
    for at, byte, place in [
            (1, ord("w"), 1), (7, ord("F"), 1), (8, 1, 8), (11, 2, 8), (12, 1, 12), (15, 255, 12),
            (first + 1, 2, first), (first + 5, 0, first), (first + 4, 17, first), (first + 7, 255, first),
            (first + 10, 2, first + 10), (first + 19, 2, first + 10), (first + 5, 2, second),
            (second + 1, 1, second), (GATES[4] + 5, 1, GATES[4]), (GATES[4] + 9, 1, GATES[4])]:
        expect_over(f"the byte {byte} at {at}", with_byte(at, byte), wrong_at(place))
    expect_over("a length past the end", with_byte(first + 8, 255), wrong_at(first))
    expect_over("a block of no rows", WHOLE[:second] + b"\x01\x00" + bytes(8) + b"\x00", wrong_at(second))


def gates_and_fronts():
    # A gate is open at 1 alone.
    for gate, told in zip(GATES, [MADE_ANEW] + [gone_on(count) for count in range(4)] + [ENDED]):
        for byte in (0, 2, 9, 129, 255):
            expect_over(f"the gate {byte} at {gate}", with_byte(gate, byte), told)
    expect_over("a gate behind the end", with_byte(GATES[-1], 1), wrong_at(GATES[-1]))
    # A front ends before its last gate, or right behind an open one.
    for size in range(len(WHOLE)):
        if size < 17:
            told = MADE_ANEW
        elif size <= GATES[1]:
            told = wrong_at(12)
        else:
            told = wrong_at(max(gate for gate in GATES if gate < size))
        expect_over(f"a front of {size} bytes", WHOLE[:size], told)


def sources():
    expect_refusal("no source file", {"flow.toml": FLOW}, 4, "source nums: file is missing")
    expect_refusal("no flow", {"nums.csv": THREE}, 3, "flow.toml is missing")
    # The source is named, and not the node above it.
    node = b'node = [ { name = "big", kind = "select", input = "nums", where = "b >= 20" } ]\n'
    flow = FLOW.replace(b'input = "nums"', b'input = "big"') + node
    for text, note in [
            (b"a,b\n1,10\n2,x\n", " row 2 column 2: not a number"),
            (b"a,b\n1\n", ": row 1 has another number of fields"),
            (b"a,c\n1,10\n", ": header differs at column 2")]:
        expect_refusal("a faulty source below a node", {"flow.toml": flow, "nums.csv": text}, 4, "source nums" + note)
    expect_refusal("no source below a node", {"flow.toml": flow}, 4, "source nums: file is missing")
    longest = FLOW + b"#" * (65536 - len(FLOW))
    expect_load("a flow of 65,536 bytes", {"flow.toml": longest, "nums.csv": THREE}, ROWS)


def words():
    usage = (b"whload: usage: whload load DIR [--batch N], explain DIR, check DIR, dump DIR, "
             b"pack DIR SOURCE, drill N\n")
    for words in ([], ["load"], ["load", ".", "more"], ["Load", "."], ["--help"],
                  ["load", ".", "--batch"], ["load", ".", "--batch", "0"], ["load", ".", "--batch", "4097"],
                  ["load", ".", "--batch", "007"], ["load", ".", "--batch", "+7"], ["load", ".", "--batch", ""],
                  ["load", ".", "--size", "7"]):
        expect(f"the words {words}", run(*words), (2, b"", usage))
    expect("a word that isn't UTF-8", run("load", os.fsencode("\udcff")), (2, b"", usage))


def devices():
    plain = nums(b"a,b\n1,10\n2,20\n")
    want = table_bytes(FLOW, [(1, 10), (2, 20)])

    path = folder({"flow.toml": FLOW})
    os.symlink("nums.csv", os.path.join(path, "nums.csv"))
    expect("a file that can't be opened", run("load", path),
           (5, b"", b"whload: a source file failed\n"))
    expect("a file that can't be opened: no table", table_of(path), None)
    # What isn't a plain file is refused and not opened: a pipe would wait for its writer.
    for what, make in [("a folder", os.mkdir), ("a pipe", os.mkfifo)]:
        path = folder({"flow.toml": FLOW})
        make(os.path.join(path, "nums.csv"))
        expect(f"{what} in the source's place", run("load", path),
               (5, b"", b"whload: a source file failed\n"))
        expect(f"{what} in the source's place: no table", table_of(path), None)
        path = folder(plain)
        make(os.path.join(path, "table.whl"))
        expect(f"{what} in the table's place", run("load", path),
               (5, b"", b"whload: the table file failed\n"))

    path = folder(plain)
    expect("a full output", shell('"$W" load "$D" > /dev/full', path),
           (5, b"", b"whload: the output failed\n"))
    expect("a full output: the table is ended", table_of(path), want)
    path = folder({})
    expect("a full output for notes", shell('"$W" load "$D" 2> /dev/full', path), (3, b"", b""))

    for what, line in [("output", '"$W" load "$D" >&-'), ("notes", '"$W" load "$D" 2>&-'),
                       ("all three", '"$W" load "$D" <&- >&- 2>&-'),
                       ("input and output", '"$W" load "$D" <&- >&-')]:
        path = folder(plain)
        status, _, _ = shell(line, path)
        expect(f"closed: {what}", (status in (0, 5), table_of(path)), (True, want))
        with open(os.path.join(path, "nums.csv"), "rb") as file:
            expect(f"closed: {what}: the source", file.read(), plain["nums.csv"])
        # A refusal has its line for standard error alone.
        path = folder(nums(b"a,b\nx,1\n"))
        status, _, _ = shell(line, path)
        expect(f"closed: {what}: a refusal", (status, table_of(path)), (4, None))

    path = folder(plain)
    done = subprocess.run([PROGRAM, "load", "."], cwd=path, capture_output=True, timeout=60)
    expect("a folder by `.`", (done.returncode, table_of(path)), (0, want))


if __name__ == "__main__":
    sys.exit(run_parts("real files", [the_examples, blocks, standing_tables, gates_and_fronts, sources, words,
                                      devices]))
