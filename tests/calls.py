#!/usr/bin/env python3
"""Each call of a run on the system fails in turn: openings, reads and writes of each file, and each taking of memory. Needs strace.

calls.py DAQ
"""
import re
import sys

import files
import parts
import reports
from trials import NO_MEMORY, READ_FAULT, WRITE_FAULT, Left, Trials, plane_file

TEXT, SCHEMA = "price,qty,city\n5,2,Oslo\n9,1,Rome\n12,4,Oslo\n3,3,Bern\n", "price:int,qty:int,city:text"
SQL = "SELECT SUM(price) FROM t"
SCRIPT = SQL + "\nSELECT COUNT(*), MIN(qty) FROM t WHERE price < 7\n"
# Each block of memory is mapped and given back by a call of its own.
EACH_BLOCK = {"GLIBC_TUNABLES": "glibc.malloc.mmap_threshold=1:glibc.malloc.mmap_max=1000000", "PATH": "/usr/bin:/bin"}


class Scene:
    """A command, what it leaves where nothing fails, and the files that it reads."""

    def __init__(self, name, words, left, *sources):
        self.name, self.words, self.left, self.sources = name, words, left, sources


def scenes(trials):
    new, line = plane_file(TEXT, SCHEMA)
    older = new[:8] + b"\1" + new[9:]
    csv, file, old, made = trials.put("t.csv", TEXT), trials.put("t.daq", new), trials.put("old.daq", older), trials.path("made")
    tagged = b"".join(b"a\t%s\n" % line.encode() for line in reports.report(TEXT, SCHEMA, SQL, []).splitlines())
    combined = "".join(line + "\n" for line in parts.combine(1, tagged)[0].lines).encode()
    report, together = reports.report(TEXT, SCHEMA, SQL, []).encode(), reports.session_report(TEXT, SCHEMA, SCRIPT, []).encode()
    return [
        Scene("ask", ["ask", csv, SCHEMA, SQL], Left(0, report), "t.csv"),
        Scene("query", ["query", file, SQL], Left(0, report), "t.daq"),
        Scene("session", ["session", file, trials.put("t.sql", SCRIPT)], Left(0, together), "t.sql", "t.daq"),
        Scene("load", ["load", csv, made, SCHEMA], Left(0, line, b"", new), "t.csv"),
        Scene("info", ["info", file], Left(0, files.info(new)[0].encode()), "t.daq"),
        Scene("upgrade", ["upgrade", old, made], Left(0, files.upgrade(older)[0].encode(), b"", new), "old.daq"),
        Scene("combine", ["combine", "1", trials.put("reports", tagged)], Left(0, combined), "reports"),
        Scene("refusal", ["ask", csv, "price", SQL], Left(4, b"", b"daq: table refused: schema item at 0\n")),
    ]


def traced(trials, scene, name, *rules):
    """The run under strace, and the names of its calls on that file (of all its calls, where there is none), in order."""
    log = trials.path("log")
    on = ["-P", trials.path(name)] if name else []
    told = trials.run(scene.words, ["strace", "-q", "-o", log, *on, *rules], env=EACH_BLOCK if not name else None)
    return told, re.findall(r"^(\w+)\(", trials.get("log").decode("latin-1"), re.M)


def failing(trials, scene, name, call, place, error):
    return traced(trials, scene, name, "-e", "inject=%s:error=%s:when=%d" % (call, error, place))[0]


def each_call(trials, scene, name, error):
    """For each call on that file: its name, how many of that name came before, and what the run leaves where it fails."""
    told, calls = traced(trials, scene, name)
    trials.same("%s under strace" % scene.name, told, scene.left)
    for at, call in enumerate(calls):
        if call not in ("close", "execve"):
            place = calls[:at].count(call) + 1
            yield "%s, %s %d of %s" % (scene.name, call, place, name), call, failing(trials, scene, name, call, place, error)


def before_planes(report):
    """The parts of a report that stand before its planes are read, each before the first block that it goes to."""
    ends = {}
    for mark in re.finditer(rb"^at (\d+) " if report.startswith(b"queries") else rb"^round (\d+)", report, re.M):
        ends.setdefault(int(mark.group(1)), mark.start())
    return [report[:ends[number]] for number in ends if number]


def reads(trials, scene, source):
    """A read that fails: nothing is made, and of a report at most whole blocks stand."""
    seen = set()
    for what, call, told in each_call(trials, scene, source, "EIO"):
        allowed = [b""] + (before_planes(scene.left.out) if scene.name in ("query", "session") and source == "t.daq" else [])
        trials.check(what, told, told == Left(6, told.out, READ_FAULT) and told.out in allowed)
        seen.add(told.out)
    trials.check("each block is the last once", seen, seen == set(allowed))


def writes(trials, scene, name):
    """A write that fails: no new file; no line, a part of it, or all of it where the file did not get its name; less than the whole report.

    Where the system does not say whether standard error is a terminal, it counts as none."""
    left = scene.left
    for what, call, told in each_call(trials, scene, name, "ENOSPC"):
        if call == "ioctl" and name == "err":
            good = told == left
        elif name == "made":
            good = told in (Left(7, b"", WRITE_FAULT), Left(7, left.out, WRITE_FAULT))
        elif name == "out":
            good = told == Left(7, told.out, WRITE_FAULT) and left.out.startswith(told.out) and told.out != left.out
        else:
            good = told == Left(7, b"", told.err) and left.err.startswith(told.err) and told.err != left.err
        trials.check(what, told, good)


def starved(scene):
    """What the run may leave where no more memory is given: nothing, and of a `combine` also the opening and whole blocks."""
    fronts = [mark.start() for mark in re.finditer(rb"^(?:round|end) ", scene.left.out, re.M)] if scene.name == "combine" else []
    return [Left(8, scene.left.out[:place], NO_MEMORY) for place in [0] + fronts]


def memory(trials, scene):
    """A block of memory that is not given, alone or with all later ones: no more stands than may stand then, or the run is done."""
    told, calls = traced(trials, scene, None)
    trials.same("%s by blocks" % scene.name, told, scene.left)
    # Before its first call the program is loaded.
    loaded = calls[:calls.index("rt_sigaction")]
    refused, heap = starved(scene), ["-e", "inject=brk:error=ENOMEM:when=%d+" % (loaded.count("brk") + 1)]
    for call in ("mmap", "mremap"):
        for place in range(loaded.count(call) + 1, calls.count(call) + 1):
            # The C library asks twice.
            for places in ("%d..%d" % (place, place + 1), "%d+" % place):
                told, _ = traced(trials, scene, None, "-e", "inject=%s:error=ENOMEM:when=%s" % (call, places), *heap)
                trials.check("%s, %s %s" % (scene.name, call, places), told, told in [scene.left, *refused], refused[0])


def main(words):
    trials = Trials(words[0])
    all_scenes = scenes(trials)
    for scene in all_scenes:
        for source in scene.sources:
            reads(trials, scene, source)
        for name in ("made", "out", "err"):
            if getattr(scene.left, name):
                writes(trials, scene, name)
    print("%d runs with a failing call on a file" % trials.count)
    for scene in all_scenes:
        memory(trials, scene)
    trials.end("runs with a failing call, those on memory among them")


if __name__ == "__main__":
    main(sys.argv[1:])
