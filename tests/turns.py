#!/usr/bin/env python3
"""Each allocation of a run is refused in turn, each call on a file fails in turn, and each read and write moves one byte. Needs a C compiler.

turns.py DAQ
"""
import os
import re
import subprocess
import sys

import files
import reports
from trials import NO_MEMORY, READ_FAULT, WRITE_FAULT, Left, Trials, plane_file

TEXT, SCHEMA = "price,qty,city\n5,2,Oslo\n9,,Rome\n12,4,Oslo\n3,3,Bern\n7,1,Oslo\n", "price:int,qty:int?,city:text"
GROUPS = "SELECT city, COUNT(*), SUM(price), AVG(qty) FROM t WHERE qty BETWEEN 1 AND 3 OR city IN ('Oslo', 'Bern') GROUP BY city"
ITEMS = "SELECT SUM(price * qty), AVG(price), MAX(qty) FROM t WHERE price >= 3 AND price < 12"
ORDER = "SELECT * FROM t WHERE qty > 1 ORDER BY price DESC LIMIT 2"
MEMORY, FILES, SHORT = range(3)
CALLS = ["allocations", "calls on files", "reads and writes of several bytes"]
# First the places of the standard streams are held.
HELD = 3


class Scene:
    """A command, what it leaves where nothing fails, and the openings at its begin that may fail and change nothing."""

    def __init__(self, name, words, left, unused=HELD):
        self.name, self.words, self.left, self.unused = name, words, left, unused


def scenes(trials):
    new, line = plane_file(TEXT, SCHEMA)
    older = plane_file(TEXT.replace("9,,", "9,6,"), SCHEMA.replace("?", ""))[0].replace(b"DAQPLANE\2", b"DAQPLANE\1")
    csv, file, old, made = trials.put("t.csv", TEXT), trials.put("t.daq", new), trials.put("old.daq", older), trials.path("made")
    upgraded, upgraded_line = files.upgrade(older)[::-1]

    def report(sql, *options):
        return Left(0, reports.report(TEXT, SCHEMA, sql, list(options)).encode())

    demo = ["demo", "7", "100", "SELECT MIN(a) FROM t"]
    return [
        Scene("ask", ["ask", csv, SCHEMA, GROUPS], report(GROUPS)),
        Scene("ask of items", ["ask", csv, SCHEMA, ITEMS, "--clip", "--exact-avg"], report(ITEMS, "--clip", "--exact-avg")),
        Scene("query", ["query", file, ORDER, "--list"], report(ORDER, "--list")),
        Scene("load", ["load", csv, made, SCHEMA], Left(0, line, b"", new)),
        Scene("info", ["info", file], Left(0, files.info(new)[0].encode())),
        Scene("upgrade", ["upgrade", old, made], Left(0, upgraded_line.encode(), b"", upgraded)),
        Scene("demo", demo, trials.run(demo)),
        Scene("refusal", ["ask", csv, "price", ITEMS], Left(4, b"", b"daq: table refused: schema item at 0\n"), HELD + 1),
    ]


class Turns:
    """Runs under the library that takes turns."""

    def __init__(self, trials):
        self.trials, self.library = trials, trials.path("turns.so")
        source = os.path.join(os.path.dirname(os.path.abspath(__file__)), "turns.c")
        subprocess.run(["cc", "-shared", "-fPIC", "-O1", "-o", self.library, source], check=True)

    def run(self, scene, *turn):
        return self.trials.run(scene.words, env={"LD_PRELOAD": self.library, "TURN": "%d %d %d" % turn, "TURN_LOG": self.trials.path("counts")})

    def counts(self, scene):
        """How many calls there are of each kind, where none fails."""
        self.trials.same("%s counted" % scene.name, self.run(scene, -1, 0, 0), scene.left)
        return [int(n) for n in self.trials.get("counts").split()]

    def each(self, scene, kind, count):
        """A call of that kind alone, or with all later ones: their numbers, and what the run leaves."""
        for first in range(1, count + 1):
            for last in (first, 10 ** 9):
                yield first, last, self.run(scene, kind, first, last)


def is_part(told, whole):
    return told != whole and whole.startswith(told)


def is_stopped(scene, told, alone):
    """A read fault, behind whole blocks of a query; or a write fault, with a part of the output or of the line on the errors, or the whole line of a file
    that did not get its name. A new file stands only where the run is done. Where all later calls fail too, so does the line."""
    left, blocks = scene.left, [b""]
    if scene.name == "query":
        blocks += [left.out[:at] for at in [m.start() for m in re.finditer(b"round |end ", left.out)]][1:-1]
    read = told.out in blocks and told.made is None
    wrote = told.made is None and (is_part(told.out, left.out) or left.made is not None and told.out == left.out)
    ended = (told.status, told.err)
    if left.err:
        return ended == (7, told.err) and is_part(told.err, left.err) and read
    if not alone:
        return ended == (7, b"") and (read or wrote)
    return ended == (6, READ_FAULT) and read or ended == (7, WRITE_FAULT) and wrote


def holds(scene, kind, first, last, told):
    """Nothing was written for want of memory, or the run is done; a failing call stops it; a short one changes nothing."""
    if kind == MEMORY:
        return told in (scene.left, Left(8, b"", NO_MEMORY))
    if kind == FILES and not first == last <= scene.unused:
        return is_stopped(scene, told, first == last)
    return told == scene.left


def main(words):
    trials = Trials(words[0])
    turns = Turns(trials)
    for scene in scenes(trials):
        counts = turns.counts(scene)
        print("%s: %s" % (scene.name, ", ".join("%d %s" % each for each in zip(counts, CALLS))))
        for kind, count in enumerate(counts):
            for first, last, told in turns.each(scene, kind, count):
                trials.check("%s, %s %d to %d" % (scene.name, CALLS[kind], first, last), told, holds(scene, kind, first, last, told))
    trials.end("runs in which a call fails or moves one byte")


if __name__ == "__main__":
    main(sys.argv[1:])
