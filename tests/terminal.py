#!/usr/bin/env python3
"""What is told at a terminal below the line of a refusal, which stays as it is where standard error is none.

terminal.py DAQ
"""
import os
import pty
import subprocess
import sys

from trials import Trials, plane_file

TEXT, SCHEMA = "price,qty,city\n5,2,Oslo\n9,1,Rome\n12,4,Oslo\n3,3,Bern\n", "price:int,qty:int,city:text"

# The words of a command, the line of its refusal, and what stands below it. FILE is a plane file, CSV its CSV, and so on.
TOLD = [
    ("query nosuch.daq q", "query refused: syntax at 0", None),
    ("info nosuch.daq", "read fault", "cannot open nosuch.daq: No such file or directory"),
    ("info FOLDER", "read fault", "cannot read FOLDER: Is a directory"),
    ("load nosuch.csv made price:int", "read fault", "cannot open nosuch.csv: No such file or directory"),
    ("load CSV FOLDER/none/made SCHEMA", "write fault", "cannot make FOLDER/none/made: No such file or directory"),
    ("load CSV CSV SCHEMA", "write fault", "cannot make CSV: it is the file that is read"),
    ("upgrade FILE FILE", "write fault", "cannot make FILE: it is the file that is read"),
    ("load CSV /dev/full SCHEMA", "write fault", "cannot write /dev/full: No space left on device"),
    ("query FILE|SELECT SUM(cost) FROM t", "query refused: unknown column at 11",
     "SELECT SUM(cost) FROM t\n             ^\n  no column is named \"cost\"; the columns are price, qty, city"),
    ("query FILE|SELECT SUM(price FROM t", "query refused: syntax at 17",
     "SELECT SUM(price FROM t\n                   ^\n  \"FROM\" may not stand there; here may stand: *, +, -, )"),
    ("query FILE|SELECT SUM(price) FROM t WHERE qty > 6.5", "query refused: scale too fine at 37",
     "SELECT SUM(price) FROM t WHERE qty > 6.5\n                                       ^\n  6.5 is finer than the column qty, which holds whole numbers"),
    ("ask CSV|SELECT SUM(price) FROM t WHERE city = 5", "usage: word 4", "something is missing behind \"SELECT SUM(price) FROM t WHERE city = 5\"\n  daq ask CSV SCHEMA SQL [OPTION ..]"),
    ("query FILE|SELECT SUM(price) FROM t WHERE city = 5", "query refused: kinds differ at 38",
     "SELECT SUM(price) FROM t WHERE city = 5\n                                        ^\n  \"city\" holds texts: UTF-8 of at most 255 bytes; in a query in single quotes"),
    ("demo 1 5|SELECT SUM(a) FROM t|--widht 3", "usage: word 5", "\"--widht\" is no option\n  daq demo SEED ROWS SQL [OPTION ..]"),
    ("demo 1 5|SELECT SUM(a) FROM t|--width x", "usage: word 6",
     "\"x\" may not stand behind --width: a whole number of at most 9223372036854775807, in units of the last digit shown\n  daq demo SEED ROWS SQL [OPTION ..]"),
    ("", "usage: word 1", "daq help lists the commands"),
    ("sum", "usage: word 1", "\"sum\" is no command\n  daq help lists the commands"),
    ("load BAD made SCHEMA", "table refused: record 3 column 2 is no value of its kind",
     "line 4: \"two\" in the column qty, which takes whole numbers of 64 bits, as -12"),
    ("load SHORT made SCHEMA", "table refused: record 2 has 2 fields, not 3",
     "line 2: \"5\", \"2\"; a field with a comma or a line break stands in double quotes"),
    ("load CSV made price:int,quantity:int,city:text", "table refused: header differs at column 2",
     "the header has \"qty\" there, the schema \"quantity\"; blanks and capitals count"),
    ("load CSV made price:int,qty", "table refused: schema item at 10",
     "price:int,qty\n            ^\n  a column is its name, a colon, and int, dec0 to dec9, date or text, with ? behind it where fields may be empty, or skip"),
    ("session FILE SCRIPT", "query refused: line 2: unknown column at 11",
     "SELECT SUM(cost) FROM t\n             ^\n  no column is named \"cost\"; the columns are price, qty, city"),
    ("combine 2 REPORTS", "report refused: line 3: no line of a report at this place",
     "a 1 'Oslo'\n  the report has no such line there: ask each part once, by a tag of its own; MIN and MAX take no text with a line feed"),
    ("combine 2 CUT", "report refused: part a ends early",
     "the process of that part failed or was cut off: look at its own message, and run it again"),
    ("combine 0 CUT", "usage: word 2", "\"0\" is no number of parts, from 1 to 65536\n  daq combine PARTS REPORTS [--width NUMBER] [--rounds NUMBER] [--keys]"),
    ("info CSV", "file refused: not a plane file", "daq load makes a plane file of a CSV, and daq ask asks a CSV as it is"),
]


def at_terminal(words, folder):
    """What the run tells at a terminal, and its status."""
    ours, its = pty.openpty()
    ended = subprocess.Popen(words, stdin=subprocess.DEVNULL, stdout=subprocess.DEVNULL, stderr=its, cwd=folder)
    os.close(its)
    told = b""
    while True:
        try:
            piece = os.read(ours, 4096)
        except OSError:
            piece = b""
        if not piece:
            break
        told += piece
    os.close(ours)
    return told.decode().replace("\r\n", "\n"), ended.wait()


def main(words):
    trials = Trials(words[0])
    names = {
        "FILE": trials.put("t.daq", plane_file(TEXT, SCHEMA)[0]), "CSV": trials.put("t.csv", TEXT), "FOLDER": trials.folder.name, "SCHEMA": SCHEMA,
        "BAD": trials.put("bad.csv", "price,qty,city\n5,2,Oslo\n\n9,two,Rome\n"), "SHORT": trials.put("short.csv", "price,qty,city\n5,2\n"),
        "SCRIPT": trials.put("t.sql", "SELECT COUNT(*) FROM t\nSELECT SUM(cost) FROM t\n"),
        "REPORTS": trials.put("reports", "a\tquery SELECT SUM(price) FROM t\na\tround 0\na\t1 'Oslo'\n"),
        "CUT": trials.put("cut", "a\tquery SELECT MAX(city) FROM t\na\tround 0\n"),
    }

    def filled(text):
        for name in sorted(names, key=len, reverse=True):
            text = text.replace(name, names[name]) if text == name or text.startswith((name + "/", name + ":", "cannot")) else text
        return text

    for line, refusal, below in TOLD:
        parts = line.split("|")
        asked = [filled(word) for place, part in enumerate(parts) for word in ([part] if part.startswith("SELECT") else part.split())]
        told, status = at_terminal([trials.daq] + asked, trials.folder.name)
        wanted = "daq: %s\n" % refusal + ("  %s\n" % filled(below) if below else "")
        trials.check(line, told, told == wanted if below else told.startswith(wanted), wanted)
        plain = trials.run(asked, cwd=trials.folder.name)
        trials.check(line + ", no terminal", plain, plain.err == ("daq: %s\n" % refusal).encode() and plain.status == status)
    # Of a reader that goes away nothing is told.
    ours, its = pty.openpty()
    asked = "%s demo 1 100000 'SELECT * FROM t ORDER BY a LIMIT 1000' --list | head -c 100 >/dev/null; exit ${PIPESTATUS[0]}" % trials.daq
    ended = subprocess.run(["bash", "-c", asked], stderr=its)
    os.close(its)
    try:
        told = os.read(ours, 4096)
    except OSError:
        told = b""
    trials.check("a reader that goes away", (told, ended.returncode), told == b"" and ended.returncode == 7)
    trials.end("refusals at a terminal and elsewhere")


if __name__ == "__main__":
    main(sys.argv[1:])
