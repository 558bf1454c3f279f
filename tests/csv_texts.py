#!/usr/bin/env python3
"""Runs the proved program over CSV files: each has a content, which is the table's, or its first fault is told.

A file is a case of a table below: its bytes, or what follows its header, and then its rows, or what is told of its
source. Null is None, and a number of a decimal column its units.
"""
import os
import sys

from harness import expect, expect_load, expect_refusal, folder, run, run_parts, table_of


def flow_of(columns, more=""):
    return f"table={{input='t'}}\nsource=[{{name='t',file='t.csv',promise='seq',columns=[{columns}]{more}}}]\n"


ORDERS = flow_of("'id int','amt dec2?','name text?'")

# Whole files of orders.
HEADERS = [
    (b"", ": header differs at column 1"),
    (b"\n\r\n", ": header differs at column 1"),
    (b"id,amt,name", []),
    (b"id,amt,name\n", []),
    (b'"id","amt","name"\r\n', []),
    (b"id\n", ": header differs at column 2"),
    (b"id,amt\n1,2\n", ": header differs at column 3"),
    (b"id,amt,name,x\n", ": header differs at column 4"),
    (b"id,amt,name,\n", ": header differs at column 4"),
    (b"amt,id,name\n", ": header differs at column 1"),
    (b"id,name,amt\n", ": header differs at column 2"),
    (b"id,amt,Name\n", ": header differs at column 3"),
    (b"id, amt,name\n", ": header differs at column 2"),
    (b"id,amt,name \n", ": header differs at column 3"),
    (b"ID,amt,name\n", ": header differs at column 1"),
    (b",amt,name\n", ": header differs at column 1"),
    (b"id;amt;name\n", ": header differs at column 1"),
    (b'id,amt,"na\nme"\n', ": header differs at column 3"),
    (b"1,2.50,x\n", ": header differs at column 1"),
    (b"\r\r", ": header differs at column 1"),
    (b"id,amt,name,x,y\n1,,\n", ": header differs at column 4"),
    (b'id,"",name\n', ": header differs at column 2"),
    (b"id,amt,\n", ": header differs at column 3"),
]

# Whole files of orders: the ends of lines, and byte order marks.
LINES = [
    (b"id,amt,name\n1,2.50,x\n2,,\n", [(1, 250, "x"), (2, None, None)]),
    (b"id,amt,name\n1,2.50,x\n2,,", [(1, 250, "x"), (2, None, None)]),
    (b"id,amt,name\r\n1,2.50,x\r\n2,,\r\n", [(1, 250, "x"), (2, None, None)]),
    (b"id,amt,name\r1,2.50,x\r2,,\r", [(1, 250, "x"), (2, None, None)]),
    (b"\n\nid,amt,name\n\n1,2.50,x\n\n\n2,,\n\n", [(1, 250, "x"), (2, None, None)]),
    (b"\xef\xbb\xbfid,amt,name\n1,,\n", [(1, None, None)]),
    (b"\xef\xbb\xbf\xef\xbb\xbfid,amt,name\n1,,\n", [(1, None, None)]),
    (b"\xef\xbb\xbf\xef\xbb\xbf\xef\xbb\xbfid,amt,name\n1,,\n", ": header differs at column 1"),
    (b"\xef\xbbid,amt,name\n1,,\n", ": header differs at column 1"),
    (b"\xef\xbb\xbf", ": header differs at column 1"),
    (b"id,amt,name\n\xef\xbb\xbf1,,\n", " row 1 column 1: not a number"),
    (b"id,amt,name\n1,,a\x00b\n", [(1, None, "a\x00b")]),
    (b'\xef\xbb\xbf"id",amt,name\n1,,\n', [(1, None, None)]),
    (b"\r\n\r\nid,amt,name\r\n\r\n1,,\r\n", [(1, None, None)]),
    (b"id,amt,name\r\n1,,\n2,,\r3,,", [(1, None, None), (2, None, None), (3, None, None)]),
    (b"\xef\xbb\xbf\n", ": header differs at column 1"),
    (b"id,amt,name\n \n1,,\n", ": row 1 has another number of fields"),
]

# Whole files of orders under any header.
ANY_HEADER = [
    (b"", ": header differs at column 1"),
    (b"\n", ": header differs at column 1"),
    (b"x\n1,2,a\n", ": header differs at column 2"),
    (b"x,y\n1,2,a\n", ": header differs at column 3"),
    (b"x,y,z,w\n1,2,a\n", ": header differs at column 4"),
    (b"x,y,z\n", []),
    (b",,\n1,2.50,a\n", [(1, 250, "a")]),
    (b"1,2.50,a\n2,,b\n", [(2, None, "b")]),
    (b"\xff,y,z\n1,,\n", [(1, None, None)]),
    (b"id,amt,name\n1,,\n", [(1, None, None)]),
    (b"x,y,z\n1,,\n2\n", ": row 2 has another number of fields"),
    (b"x,y,z\nz,,\n", " row 1 column 1: not a number"),
    (b"\xef\xbb\xbfx,y,z\n1,,\n", [(1, None, None)]),
    (b'"x\ny",z,w\r\n1,,\r\n', [(1, None, None)]),
    (b"x,y,z\n1,,,\n", ": row 1 has another number of fields"),
    (b"x,y,z\n1,,a\n,,\n", " row 2 column 1: empty field"),
]

# What follows the header of orders: records that are too short or too long.
COUNTS = [
    (b"1\n", ": row 1 has another number of fields"),
    (b"1,2\n", ": row 1 has another number of fields"),
    (b"1,2,a,\n", ": row 1 has another number of fields"),
    (b"1,2,3,4\n", ": row 1 has another number of fields"),
    (b"x,y\n", ": row 1 has another number of fields"),
    (b"x,y,z,w\n", ": row 1 has another number of fields"),
    (b"1,,a\n2,\n", ": row 2 has another number of fields"),
    (b"1,,a\n\n2,,b,\n", ": row 2 has another number of fields"),
    (b"1,,a\n2\nx,,b\n", ": row 2 has another number of fields"),
    (b"1,,a\n2,,b\n3,,c\n4,,\n5\n", ": row 5 has another number of fields"),
    (b'1,,a,"\n', ": row 1 has another number of fields"),
    (b",\n", ": row 1 has another number of fields"),
    (b"1,,a,b,c,d,e,f\n", ": row 1 has another number of fields"),
    (b'1,,a\n2,,b\n"3,,c"\n', ": row 3 has another number of fields"),
]

# What follows the header of orders: fields that are wrong.
FAULTS = [
    (b"1,,a\nx,,b\n2\n", " row 2 column 1: not a number"),
    (b",1,a\n", " row 1 column 1: empty field"),
    (b"x,1,a\n", " row 1 column 1: not a number"),
    (b" 7,1,a\n", " row 1 column 1: not a number"),
    (b"7.0,1,a\n", " row 1 column 1: not a number"),
    (b"9223372036854775808,1,a\n", " row 1 column 1: number out of range"),
    (b"-9223372036854775809,1,a\n", " row 1 column 1: number out of range"),
    (b"1,x,a\n", " row 1 column 2: not a number"),
    (b"1,.,a\n", " row 1 column 2: not a number"),
    (b"1,\xff,a\n", " row 1 column 2: not a number"),
    (b"1,1.234,a\n", " row 1 column 2: too many digits after the point"),
    (b"1,99999999999999999999.999,a\n", " row 1 column 2: too many digits after the point"),
    (b"1,92233720368547758.08,a\n", " row 1 column 2: number out of range"),
    (b"1,,\xc3\n", " row 1 column 3: not UTF-8"),
    (b"x,y,\xff\n", " row 1 column 1: not a number"),
    (b"1,y,\xff\n", " row 1 column 2: not a number"),
    (b"1,1.234,\xff\n", " row 1 column 2: too many digits after the point"),
    (b"1,,a\n2,,b\n3,1.5x,c\n", " row 3 column 2: not a number"),
    (b"1,,a\n,,\n,,\n", " row 2 column 1: empty field"),
    (b'"",1,a\n', " row 1 column 1: empty field"),
    (b"+,1,a\n", " row 1 column 1: not a number"),
    (b"1-,1,a\n", " row 1 column 1: not a number"),
    (b"\xc3\xa9,1,a\n", " row 1 column 1: not a number"),
    (b"1,-,a\n", " row 1 column 2: not a number"),
    (b"1,1.2.3,a\n", " row 1 column 2: not a number"),
    (b"1,5.000,a\n", " row 1 column 2: too many digits after the point"),
    (b"1,-92233720368547758.09,a\n", " row 1 column 2: number out of range"),
    (b'1,,"\xff"\n', " row 1 column 3: not UTF-8"),
    (b"1,,a\n2,,b\n3,,\xed\xa0\x80\n", " row 3 column 3: not UTF-8"),
]

# What follows the header of orders: good rows.
GOOD = [
    (b'1,,"a\n2,,b\n', [(1, None, "a\n2,,b\n")]),
    (b"+7,-.5,a\n", [(7, -50, "a")]),
    (b"-0,5.,\xc3\xa9\n", [(0, 500, "é")]),
    (b'"12","1.05","a,b"\n', [(12, 105, "a,b")]),
    (b'1,,"a""b"\n', [(1, None, 'a"b')]),
    (b'1,,"a\nb"\n', [(1, None, "a\nb")]),
    (b'1,,""\n', [(1, None, None)]),
    (b'1,,a"b\n', [(1, None, 'a"b')]),
    (b'1,,"a"b\n', [(1, None, "ab")]),
    (b"1,, a \n", [(1, None, " a ")]),
    (b"9223372036854775807,-92233720368547758.08,x\n", [(9223372036854775807, -9223372036854775808, "x")]),
    (b"00000000000000000000000000001,,\n", [(1, None, None)]),
    (b"1,,a\n1,,a\n", [(1, None, "a"), (1, None, "a")]),
    (b'1,,"a\r\nb"\r\n', [(1, None, "a\r\nb")]),
    (b'1,,""""\n', [(1, None, '"')]),
    (b'1,,"a,""b"",c"\n', [(1, None, 'a,"b",c')]),
    (b'1,,"a\n', [(1, None, "a\n")]),
    (b"-9223372036854775808,92233720368547758.07,x\n", [(-9223372036854775808, 9223372036854775807, "x")]),
    (b"1,-0.05,\xe2\x82\xac\n", [(1, -5, "€")]),
]

# What follows the header t,d,n of another source.
OTHERS = [
    (b",1.5,\n", [("", 15, None)]),
    (b'"",0,0\n', [("", 0, 0)]),
    (b"a,,1\n", " row 1 column 2: empty field"),
    (b"a,1.25,1\n", " row 1 column 2: too many digits after the point"),
    (b"a,-,1\n", " row 1 column 2: not a number"),
    (b"a,922337203685477580.8,\n", " row 1 column 2: number out of range"),
    (b"a,1,x\n", " row 1 column 3: not a number"),
    (b"a,1,9223372036854775808\n", " row 1 column 3: number out of range"),
    (b"\xff,0,0\n", " row 1 column 1: not UTF-8"),
    (b"\xff,,x\n", " row 1 column 1: not UTF-8"),
    (b'"a""b",0.1,-7\n', [('a"b', 1, -7)]),
    (b",,\n", " row 1 column 2: empty field"),
    (b'a,"",1\n', " row 1 column 2: empty field"),
    (b"a,1,-9223372036854775809\n", " row 1 column 3: number out of range"),
    (b"a,1,1.5\n", " row 1 column 3: not a number"),
    (b"a,1\n", ": row 1 has another number of fields"),
]

NOT_NUMBER = " row 1 column 2: not a number"

OUT = " row 1 column 2: number out of range"

TOO_MANY = " row 1 column 2: too many digits after the point"

EMPTY = " row 1 column 2: empty field"

NOT_UTF8 = " row 1 column 2: not UTF-8"

TOO_LONG = " row 1 column 2: text too long"

# The kind of a column, and fields of it, each with its value or what is told.
FIELDS = {
    "int": [
        (b"7", 7), (b"+7", 7), (b"-7", -7), (b"-0", 0), (b"007", 7), (b"000000000000000000000000000005", 5),
        (b"9223372036854775807", 2**63 - 1), (b"9223372036854775808", OUT), (b"-9223372036854775808", -2**63),
        (b"-9223372036854775809", OUT), (b"18446744073709551616", OUT), (b"100000000000000000000000000000", OUT),
        (b"", EMPTY), (b"+", NOT_NUMBER), (b"-", NOT_NUMBER), (b"--1", NOT_NUMBER), (b" 7", NOT_NUMBER),
        (b"7 ", NOT_NUMBER), (b"7.0", NOT_NUMBER), (b"1e3", NOT_NUMBER), (b"\xff", NOT_NUMBER),
        (b"100000000000000000000000000000x", NOT_NUMBER),
    ],
    "dec2": [
        (b"1.5", 150), (b"1.50", 150), (b"1.05", 105), (b"12", 1200), (b"12.", 1200), (b".5", 50), (b"-.05", -5),
        (b"+0010.10", 1010), (b"-0.00", 0), (b"92233720368547758.07", 2**63 - 1), (b"92233720368547758.08", OUT),
        (b"-92233720368547758.08", -2**63), (b"-92233720368547758.09", OUT), (b"92233720368547759", OUT),
        (b"1.234", TOO_MANY), (b"1.500", TOO_MANY), (b"99999999999999999999.999", TOO_MANY),
        (b"1.23x", NOT_NUMBER), (b"1.234x", NOT_NUMBER), (b"1.2.3", NOT_NUMBER), (b".", NOT_NUMBER),
        (b"-.", NOT_NUMBER), (b"", EMPTY), (b'"1,5"', NOT_NUMBER),
    ],
    "dec1": [(b"3.1", 31), (b"3.14", TOO_MANY)],
    "dec6": [(b"3.141592", 3141592), (b"3", 3000000), (b"-0.000001", -1), (b"9223372036854.775808", OUT)],
    "int?": [(b"", None), (b'""', None), (b"0", 0)],
    "dec1?": [(b"", None), (b'""', None), (b"-", NOT_NUMBER)],
    "text?": [(b"", None), (b'""', None), (b'"n\xc3\xa9, 7"', "né, 7"), (b"n\xc3", NOT_UTF8)],
    "text": [
        (b"", ""), (b'""', ""), (b"a" * 4096, "a" * 4096), (b"a" * 4097, TOO_LONG), (b"a" * 4097 + b"\xff", NOT_UTF8),
        (b"\xc3\xa9" * 2048, "é" * 2048), (b"\xc3\xa9" * 2048 + b"a", TOO_LONG),
    ],
}

# A flow, its file, and the blocks of the table, with one row in each block.
BLOCKS = [
    (flow_of("'n int?','t text?'"), b'\xef\xbb\xbfn,t\r\n,"a ""b"", c"\r\n7,\r\n',
     "0100000000010000000c0001000861202262222c20630100000000010000000a01000000000000000700"),
    (flow_of("'p dec2','q dec6?','r dec1'"), b"p,q,r\n1.5,0.000001,-.5\n-3.,,+7\n",
     "0100000000010000001b01000000000000009601000000000000000101fffffffffffffffb"
     "0100000000010000001301fffffffffffffed400010000000000000046"),
    (flow_of("'n int','t text'", ",header='any'"), b'x,"y z"\n-9223372036854775808,"two\r\nlines"\n0,\n',
     "0100000000010000001601800000000000000001000a74776f0d0a6c696e6573"
     "0100000000010000000c010000000000000000010000"),
    (flow_of("'n dec1?','t text?'", ",header='names'").replace("'t'", "'p'", 1)
     + "node=[{name='p',kind='project',input='t',columns=['t as u','n']}]\n", b"n,t\n1,\n,\xc3\xa9\n",
     "0100000000010000000a0001000000000000000a01000000000100000006010002c3a900"),
]


def expect_content(flow, text, wanted):
    """The rows of the file, or what is told of its source."""
    files = {"flow.toml": flow.encode(), "t.csv": text}
    if isinstance(wanted, str):
        expect_refusal(f"the file {text!r:.200}", files, 4, "source t" + wanted)
    else:
        expect_load(f"the file {text!r:.200}", files, wanted)


def whole_files():
    for text, wanted in HEADERS + LINES:
        expect_content(ORDERS, text, wanted)
    any_header = ORDERS.replace("promise", "header='any',promise")
    for text, wanted in ANY_HEADER:
        expect_content(any_header, text, wanted)


def records():
    for text, wanted in COUNTS + FAULTS + GOOD:
        expect_content(ORDERS, b"id,amt,name\n" + text, wanted)
    for text, wanted in OTHERS:
        expect_content(flow_of("'t text','d dec1','n int?'"), b"t,d,n\n" + text, wanted)


def fields():
    for kind, cases in FIELDS.items():
        for text, wanted in cases:
            content = wanted if isinstance(wanted, str) and wanted.startswith(" row") else [(0, wanted)]
            expect_content(flow_of(f"'k int','f {kind}'"), b"k,f\n0," + text + b"\n", content)


def blocks():
    for flow, text, wanted in BLOCKS:
        path = folder({"flow.toml": flow.encode(), "t.csv": text})
        expect("blocks of one row", run("load", path, "--batch", "1"), (0, b"complete\nbefore 0\nadded 2\n", b""))
        expect("blocks of one row: the table", table_of(path)[16 + len(flow):].hex(),
               wanted + "0101000000000000000000")


def long_files():
    """A file of one byte too many takes no place on the disk, and isn't read."""
    path = folder({"flow.toml": ORDERS.encode()})
    with open(os.path.join(path, "t.csv"), "wb") as file:
        file.truncate(268435457)
    expect("a long file", run("load", path), (4, b"", b"whload: source t: file has 268435457 bytes\n"))
    expect("a long file: no table", table_of(path), None)


if __name__ == "__main__":
    sys.exit(run_parts("CSV texts", [whole_files, records, fields, blocks, long_files]))
