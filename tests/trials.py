"""What the scripts beside this one share: runs of the program in a folder, what they leave, and plane files written by docs/proof/file.md."""
import os
import subprocess
import sys
import tempfile
import time

import reports

READ_FAULT, WRITE_FAULT, NO_MEMORY = b"daq: read fault\n", b"daq: write fault\n", b"daq: no memory\n"


def plane_file(text, schema):
    """The file of the table of a CSV, in version 2, and the line of its `load`."""
    columns, rows = reports.read_table(text, schema)
    heads = b"".join(head(c) for c in columns)
    planes = b"".join(plane(c, k, rows) for c in columns for k in range(c.planes))
    data = b"DAQPLANE" + number(2, 4) + number(len(columns), 4) + number(rows, 8) + number(len(heads), 8) + heads + planes
    counts = (rows, len(columns), sum(c.planes for c in columns), len(data))
    return data, b"loaded %d rows, %d columns, %d planes, %d bytes\n" % counts


def number(value, size):
    return value.to_bytes(size, "little", signed=value < 0)


def head(column):
    name = column.name.encode()
    kind = ("int", "dec", "date", "text").index(column.kind.rstrip("0123456789")) + 128 * column.nullable
    names = [n.encode() for n in column.names]
    front = bytes([kind, column.scale, column.digits, len(name)]) + number(column.base, 8) + number(column.top, 8) + number(len(names), 4)
    return front + name + b"".join(bytes([len(n)]) + n for n in names)


def plane(column, place, rows):
    bits = 0
    for row in range(rows):
        bits |= (column.code(row) >> (column.planes - 1 - place) & 1) << row
    return number(bits, (rows + 63) // 64 * 8)


class Left:
    """How a run ended and what it left: on standard output and error, and at the path of the file to be made (None: no file)."""

    def __init__(self, status, out=b"", err=b"", made=None):
        self.status, self.out, self.err, self.made = status, out, err, made

    def __eq__(self, other):
        return vars(self) == vars(other)

    def __repr__(self):
        made = "no file" if self.made is None else "a file of %d bytes" % len(self.made)
        return "status %d, out %r, err %r, %s" % (self.status, self.out[-80:], self.err, made)


class Trials:
    """Runs in a folder of their own, counted."""

    def __init__(self, daq):
        self.daq, self.count, self.wrong, self.begun = os.path.abspath(daq), 0, 0, time.time()
        self.folder = tempfile.TemporaryDirectory()

    def path(self, name):
        return os.path.join(self.folder.name, name)

    def put(self, name, data):
        with open(self.path(name), "wb") as file:
            file.write(data if isinstance(data, bytes) else data.encode())
        return self.path(name)

    def get(self, name):
        if not os.path.exists(self.path(name)):
            return None
        with open(self.path(name), "rb") as file:
            return file.read()

    def forget(self, name):
        if os.path.exists(self.path(name)):
            os.remove(self.path(name))

    def run(self, words, front=(), **more):
        """Runs the program with these words, behind the words of another program, if any; its output and errors go to files."""
        self.forget("made")
        with open(self.path("out"), "wb") as out, open(self.path("err"), "wb") as err:
            ended = subprocess.run(list(front) + [self.daq] + words, stdin=subprocess.DEVNULL, stdout=out, stderr=err, **more)
        if self.drafts():
            self.wrong += 1
            print("differs: %r: a part of the new file stands: %s" % (words, self.drafts()))
        return Left(ended.returncode, self.get("out"), self.get("err"), self.get("made"))

    def drafts(self, folder=""):
        """The names of new files in the folder that have not their own name yet."""
        return [name for name in os.listdir(self.path(folder)) if name.startswith(".daq-")]

    def check(self, what, told, holds, wanted=""):
        self.count += 1
        if not holds:
            self.wrong += 1
            print("differs: %s: %r%s" % (what, told, wanted and "\n  wanted " + repr(wanted)))

    def same(self, what, told, wanted):
        self.check(what, told, told == wanted, wanted)

    def end(self, what):
        print("%d %s, %d differ, %d s" % (self.count, what, self.wrong, time.time() - self.begun))
        sys.exit(1 if self.wrong else 0)
