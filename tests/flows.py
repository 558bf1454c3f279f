"""Flows for the tests: their texts, what is told of them, and what they give."""
from harness import expect, expect_refusal, folder, run

# Sources without files: a flow in which nothing is wrong tells that the first one's is missing.
MISSING = "source a: file is missing"

# A source's name and columns.
A = ("a", "n int", "m int?", "d dec2", "t text")
B = ("b", "n int", "k text", "d dec2?", "e dec3")


def flow_of(root, sources, nodes):
    """A flow over sources, and over nodes as texts of TOML."""
    text = f"table = {{ input = '{root}' }}\n"
    for name, *columns in sources:
        text += f"[[source]]\nname = '{name}'\nfile = '{name}.csv'\npromise = 'seq'\ncolumns = {columns}\n"
    for node in nodes:
        text += "[[node]]\n" + "".join(f"{key} = {value!r}\n" for key, value in node.items())
    return text.encode()


def select(where, taken="a", name="x"):
    return {"name": name, "kind": "select", "input": taken, "where": where}


def project(*columns, taken="a", name="x"):
    return {"name": name, "kind": "project", "input": taken, "columns": list(columns)}


def assign(*texts, taken="a", name="x"):
    return {"name": name, "kind": "map", "input": taken, "set": list(texts)}


def join(*on, left="a", right="b", name="x", kind="join"):
    return {"name": name, "kind": kind, "left": left, "right": right, "on": list(on)}


def lookup(*on, left="a", right="b", name="x"):
    return join(*on, left=left, right=right, name=name, kind="lookup")


def aggregate(by, *makes, taken="a", name="x", order="first"):
    return {"name": name, "kind": "aggregate", "input": taken, "by": by, "make": list(makes), "order": order}


def sort(*by, taken="a", name="x"):
    return {"name": name, "kind": "sort", "input": taken, "by": list(by)}


def distinct(taken="a", name="x"):
    return {"name": name, "kind": "distinct", "input": taken}


def union(*inputs, name="x", order="append"):
    return {"name": name, "kind": "union", "inputs": list(inputs), "order": order}


def expect_cause(sources, nodes, root, cause):
    """What is told of a flow whose sources, of which the first is a, have no files."""
    line = MISSING if cause is None else cause
    status = 4 if cause is None else 3
    expect_refusal(f"the nodes {nodes!r:.300}", {"flow.toml": flow_of(root, sources, nodes)}, status, line)


def load_and_dump(flow, files, *batch):
    """Loads in a new folder, and gives the folder and what a dump answers."""
    path = folder({"flow.toml": flow, **files})
    expect(f"a load of {flow!r:.300}", run("load", path, *batch)[0], 0)
    return path, run("dump", path)


def expect_dump(sources, nodes, texts, wanted):
    """What stands in the table of a flow with the root x, over files with these texts."""
    files = {f"{name}.csv": text.encode() for (name, *_), text in zip(sources, texts)}
    flow = flow_of("x", sources, nodes)
    _, dumped = load_and_dump(flow, files)
    expect(f"the dump of {flow!r:.300}", dumped, (0, wanted.encode(), b""))


def csv_of(header, rows):
    return "\n".join([header] + [",".join(row) for row in rows]) + "\n"
