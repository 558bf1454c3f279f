#!/usr/bin/env python3
"""Runs `whload dump` of the proved program over real files, and compares what it prints with the rows as text.

The expected texts are written here, from docs/FORMATS.md, or by Python's csv, which quotes as the real csv crate does.
"""
import csv
import io
import os
import shutil
import subprocess
import sys

from harness import PROGRAM, TOP, expect, folder, head_bytes, run, run_parts, table_bytes, table_of


def flow_of(columns, more=""):
    return f"table={{input='t'}}\nsource=[{{name='t',file='t.csv',promise='seq',columns=[{columns}]{more}}}]\n".encode()


ORDERS = flow_of("'order_no int','amt dec2'")

TWO = b"order_no,amt\n2,10.00\n3,250.50\n"

MARKED = flow_of("'n int?','t text?'")

LIMITS = b"n,d\n9223372036854775807,92233720368547758.07\n-9223372036854775808,-92233720368547758.08\n"

# The flow of a source, its file, and the dump of its table.
DUMPS = [
    (ORDERS, b"order_no,amt\n2,10.00\n3,250.50\n", TWO),
    (ORDERS, b"order_no,amt\n", b"order_no,amt\n"),
    (ORDERS, b"order_no,amt\r\n2,10\r\n3,+250.5\r\n", TWO),
    (MARKED, b'\xef\xbb\xbfn,t\r\n,"a ""b"", c"\r\n7,\r\n', b'n,t\n,"a ""b"", c"\n7,\n'),
    (flow_of("'n int?','t text?'", ",header='any'"), b'N,My Text\r\n,"a ""b"", c"\r\n7,\r\n',
     b'n,t\n,"a ""b"", c"\n7,\n'),
    (flow_of("'t text'"), b't\n""\nx\n', b't\n""\nx\n'),
    (flow_of("'t text?'"), b't\n""\nx\n', b't\n""\nx\n'),
    (flow_of("'n int?'"), b'n\n""\n-0\n', b'n\n""\n0\n'),
    (flow_of("'t text'"), b't\n"a\nb"\n"a\rb"\n"c\r\n"\n" d "\ne;f\n"g\tg"\n',
     b't\n"a\nb"\n"a\rb"\n"c\r\n"\n d \ne;f\ng\tg\n'),
    (flow_of("'t text'"), b"t\na\"b\n'\n#x\n\\\n\xc3\xa9\n\x00\n", b"t\n\"a\"\"b\"\n'\n#x\n\\\n\xc3\xa9\n\x00\n"),
    (flow_of("'d dec1','e dec6?'"), b"d,e\n.5,1\n-.5,\n3.,-0.000001\n-0,0\n",
     b"d,e\n0.5,1.000000\n-0.5,\n3.0,-0.000001\n0.0,0.000000\n"),
    (flow_of("'n int','d dec2'"), LIMITS, LIMITS),
]


def loaded(flow, text, *batch):
    path = folder({"flow.toml": flow, "t.csv": text})
    expect(f"a load of {text!r:.80}", run("load", path, *batch)[0], 0)
    return path


def texts():
    for flow, text, wanted in DUMPS:
        path = loaded(flow, text)
        before = table_of(path)
        os.remove(os.path.join(path, "t.csv"))
        expect(f"the dump of {text!r:.80}", run("dump", path), (0, wanted, b""))
        expect(f"the dump of {text!r:.80} changes nothing", table_of(path), before)


def loaded_example(name):
    path = folder({})
    shutil.copytree(os.path.join(TOP, "examples", name), path, dirs_exist_ok=True)
    expect(f"a load of {name}", run("load", path)[0], 0)
    return path


def csv_text(records):
    out = io.StringIO()
    csv.writer(out, lineterminator="\n").writerows(records)
    return out.getvalue().encode()


def examples():
    """What README shows, and the other examples as Python's csv prints their rows."""
    with open(os.path.join(TOP, "README.md"), encoding="utf8") as file:
        shown = file.read().split("whload dump my-load\n```\n\n```text\n")[1].split("```")[0]
    expect("the dump of orders", run("dump", loaded_example("orders")), (0, shown.encode(), b""))
    meters = loaded_example("meters")
    with open(os.path.join(meters, "readings.csv"), "rb") as file:
        readings = file.read()
    expect("the dump of meters", run("dump", meters), (0, readings, b""))
    rows = list(csv.reader(io.StringIO(readings.decode(), newline="")))[1:]
    high = [["used", "meter_no", "hour"]] + [[used, no, hour] for no, _, hour, used in rows if int(used) >= 500]
    expect("the dump of high_use", run("dump", loaded_example("high_use")), (0, csv_text(high), b""))


def many_blocks():
    text = "n,t\n" + "".join(f"{i},row {i % 7}\n" for i in range(20_000))
    path = loaded(flow_of("'n int','t text'"), text.encode(), "--batch", "37")
    expect("a dump of many blocks", run("dump", path), (0, text.encode(), b""))
    wide = "t\n" + "".join("x" * 4096 + "\n" for i in range(1500))
    path = loaded(flow_of("'t text'"), wide.encode(), "--batch", "4096")
    expect("a dump of long texts in large blocks", run("dump", path), (0, wide.encode(), b""))


def put_table(path, image):
    with open(os.path.join(path, "table.whl"), "wb") as file:
        file.write(image)


def expect_dump(what, image, wanted):
    path = folder({"flow.toml": ORDERS})
    put_table(path, image)
    expect(what, run("dump", path), wanted)
    expect(what + ": the file", table_of(path), image)


def refused(status, text):
    return status, b"", b"whload: " + text.encode() + b"\n"


def tables():
    rows = [(2, 1000), (3, 25050)]
    whole = table_bytes(ORDERS, rows, 1)
    head = len(head_bytes(ORDERS))
    second = head + 28
    expect_dump("an ended table", whole, (0, TWO, b""))
    expect_dump("a table of one block, with what a stopped load left", whole[:second] + b"\0" + whole[second + 1:],
                (0, b"order_no,amt\n2,10.00\n", b""))
    expect_dump("the same, where the gate is neither open nor 0", whole[:second] + b"\xff" + whole[second + 1:],
                (0, b"order_no,amt\n2,10.00\n", b""))
    expect_dump("a table without rows", head_bytes(ORDERS) + b"\0", (0, b"order_no,amt\n", b""))
    expect_dump("no byte", b"", refused(7, "table.whl is not made"))
    expect_dump("one byte", b"\x01", refused(7, "table.whl is not made"))
    expect_dump("a closed made gate", b"\0" + whole[1:], refused(7, "table.whl is not made"))
    expect_dump("another name", b"\x01WHTABLF" + whole[8:], refused(7, "table.whl is not a table at 1"))
    expect_dump("another version", whole[:11] + b"\x02" + whole[12:], refused(7, "table.whl is not a table at 8"))
    expect_dump("a wrong block", whole[:second + 1] + b"\x02" + whole[second + 2:],
                refused(7, f"table.whl is not a table at {second}"))
    expect_dump("a wrong row in the last block", whole[:second + 10] + b"\x02" + whole[second + 11:],
                refused(7, f"table.whl is not a table at {second + 10}"))
    expect_dump("another workflow", table_bytes(ORDERS + b" ", rows),
                refused(7, "table.whl was made by another workflow"))
    expect_dump("a block of no rows", whole[:-11] + b"\x01\x00" + bytes(8),
                refused(7, f"table.whl is not a table at {len(whole) - 11}"))

    path = folder({"flow.toml": ORDERS})
    expect("no table", run("dump", path), refused(7, "table.whl is not made"))
    expect("no table: none is made", sorted(os.listdir(path)), ["flow.toml"])
    expect("no flow", run("dump", folder({"t.csv": b"order_no,amt\n"})), refused(3, "flow.toml is missing"))
    os.mkdir(os.path.join(path, "table.whl"))
    expect("a folder in place of the table", run("dump", path), refused(5, "the table file failed"))


def stopped_and_resumed():
    """A table whose second block's gate is closed is gone on with, and dumped."""
    path = loaded(ORDERS, TWO, "--batch", "1")
    image = table_of(path)
    second = len(head_bytes(ORDERS)) + 28
    put_table(path, image[:second] + b"\0" + image[second + 1:])
    expect("the rest of a load", run("load", path, "--batch", "1"),
           (0, b"complete\nbefore 1\nadded 1\nedge t passed 1 dropped 1\n", b""))
    expect("the dump of a load that went on", run("dump", path), (0, TWO, b""))


def outputs():
    path = loaded(ORDERS, TWO)
    usage = b"whload: usage: whload load DIR [--batch N], explain DIR, check DIR, dump DIR, pack DIR SOURCE, drill N\n"
    for words in [("dump",), ("dump", path, "x"), ("Dump", path), ("dump", path, "--batch", "1")]:
        expect(f"the words {words!r:.60}", run(*words), (2, b"", usage))
    for line in ['"$W" dump "$D" >&-', '"$W" dump "$D" > /dev/full']:
        done = subprocess.run(["bash", "-c", line], stdin=subprocess.DEVNULL, capture_output=True, timeout=60,
                              env={**os.environ, "W": PROGRAM, "D": path})
        expect(line, (done.returncode, done.stdout, done.stderr), refused(5, "the output failed"))


if __name__ == "__main__":
    sys.exit(run_parts("dumps", [texts, examples, many_blocks, tables, stopped_and_resumed, outputs]))
