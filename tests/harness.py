"""What the checks over real files share: the proved program that the gate left, loads by it, and the bytes of tables.

Nothing is built here. The expected bytes are packed from docs/FORMATS.md and not from the program.
"""
import atexit
import os
import shutil
import struct
import subprocess
import tempfile

TOP = os.path.dirname(os.path.dirname(os.path.abspath(__file__)))
PROGRAM = os.path.join(TOP, "crates", "whload", "out", "whload")

# Each load has a folder of its own in here, with a space in its path.
FOLDERS = tempfile.mkdtemp(prefix="whload loads ")
atexit.register(shutil.rmtree, FOLDERS, ignore_errors=True)

REPORT = b"complete\nbefore 0\nadded %d\n"

passed = 0
failed = []


def field_bytes(value):
    """None is Null, a number the units of an int or a decimal."""
    if value is None:
        return b"\x00"
    if isinstance(value, str):
        text = value.encode()
        return b"\x01" + struct.pack(">H", len(text)) + text
    return b"\x01" + struct.pack(">q", value)


def row_bytes(row):
    return b"".join(field_bytes(value) for value in row)


def head_bytes(text):
    """What stands before the first gate of a table of this flow text."""
    return b"\x01WHTABLE" + struct.pack(">II", 1, len(text)) + text


def table_bytes(text, rows, batch=1000):
    """A made table of this flow text: the rows in blocks of `batch`, and the end."""
    image = head_bytes(text)
    for first in range(0, len(rows), batch):
        block = rows[first:first + batch]
        stored = b"".join(row_bytes(row) for row in block)
        image += b"\x01\x00" + struct.pack(">II", len(block), len(stored)) + stored
    return image + b"\x01\x01" + bytes(8) + b"\x00"


def folder(files):
    path = tempfile.mkdtemp(dir=FOLDERS)
    for name, content in files.items():
        with open(os.path.join(path, name), "wb") as file:
            file.write(content)
    return path


def run(*words, **how):
    done = subprocess.run([PROGRAM, *words], stdin=subprocess.DEVNULL, capture_output=True,
                          timeout=60, **how)
    return done.returncode, done.stdout, done.stderr


def table_of(path):
    name = os.path.join(path, "table.whl")
    if not os.path.exists(name):
        return None
    with open(name, "rb") as file:
        return file.read()


def expect(what, got, want):
    global passed
    if got == want:
        passed += 1
    else:
        failed.append(what)
        print(f"FAILED {what}: got {got!r:.300}, want {want!r:.300}")


def expect_load(what, files, rows):
    path = folder(files)
    expect(what, run("load", path), (0, REPORT % len(rows), b""))
    expect(what + ": the table", table_of(path), table_bytes(files["flow.toml"], rows))
    return path


def expect_refusal(what, files, status, note):
    path = folder(files)
    expect(what, run("load", path), (status, b"", b"whload: " + note.encode() + b"\n"))
    expect(what + ": no table", table_of(path), None)


def run_parts(name, parts):
    """Runs each part, and returns the exit status."""
    if not os.path.exists(PROGRAM):
        print(f"{name}: there is no program to run; run the gate first")
        return 1
    for part in parts:
        part()
    print(f"{name}: {passed} passed, {len(failed)} failed")
    return 1 if failed else 0
