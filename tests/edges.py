#!/usr/bin/env python3
"""Paths, pipes and devices of an unkind system: what cannot be opened, is full, closes, or grows while it is read.

edges.py DAQ   (as root, paths without rights are tried as nobody)
"""
import os
import random
import shutil
import subprocess
import sys
import threading
import time

from trials import READ_FAULT, WRITE_FAULT, Left, Trials, plane_file

TEXT, SCHEMA = "price,qty,city\n5,2,Oslo\n9,1,Rome\n12,4,Oslo\n3,3,Bern\n", "price:int,qty:int,city:text"
SQL = "SELECT SUM(price) FROM t"


def commands(csv, file, made, script):
    """Each command that reads a path, by its name."""
    return {
        "ask": ["ask", csv, SCHEMA, SQL], "load": ["load", csv, made, SCHEMA], "query": ["query", file, SQL],
        "session": ["session", file, script], "info": ["info", file], "upgrade": ["upgrade", file, made],
    }


def user_without_rights():
    return {"user": "nobody", "group": "nogroup", "extra_groups": []} if os.geteuid() == 0 else {}


def unreadable(trials):
    """Paths that cannot be read: a read fault, and nothing is made."""
    closed = trials.put("closed", TEXT)
    os.chmod(closed, 0)
    paths = {"missing": trials.path("no such file"), "a directory": trials.folder.name, "a path through a file": closed + "/x",
             "no name": "", "a name of 5,000 bytes": "x" * 5000, "a file without rights": closed}
    for what, path in paths.items():
        for command, words in {**commands(path, path, trials.path("made"), path), "combine": ["combine", "1", path]}.items():
            trials.same("%s, %s" % (command, what), trials.run(words, **user_without_rights()), Left(6, b"", READ_FAULT))


def unwritable(trials):
    """Paths at which no file can be made: a write fault, and what stood there stands."""
    csv, old = trials.put("t.csv", TEXT), trials.put("old", b"an old file")
    file = trials.put("t.daq", plane_file(TEXT, SCHEMA)[0])
    os.chmod(old, 0o444)
    paths = {"a directory": trials.folder.name, "no folder": trials.path("none/made"), "a path through a file": old + "/x", "no name": "",
             "a file that may not be written": old, "a name of 5,000 bytes": "x" * 5000}
    for what, path in paths.items():
        for command in ("load", "upgrade"):
            told = trials.run(commands(csv, file, path, "")[command], **user_without_rights())
            trials.same("%s, %s" % (command, what), told, Left(7, b"", WRITE_FAULT))
    trials.check("the old file", trials.get("old"), trials.get("old") == b"an old file")


def kept(trials):
    """A refused `load` or `upgrade` leaves an old file as it was; a device that is full takes nothing."""
    bad, short = trials.put("bad.csv", TEXT + "x,1,Oslo\n"), trials.put("short.daq", plane_file(TEXT, SCHEMA)[0][:-1])
    old = trials.put("kept", b"an old file")
    for command, words in (("load", ["load", bad, old, SCHEMA]), ("upgrade", ["upgrade", short, old]), ("load", ["load", bad, old, "price"])):
        told = trials.run(words)
        trials.check("%s refused" % command, told, told.status in (4, 5) and told.out == b"" and trials.get("kept") == b"an old file")


def full(trials):
    """A full device under each sink."""
    file, line = plane_file(TEXT, SCHEMA)
    csv, planes, script = trials.put("t.csv", TEXT), trials.put("t.daq", file), trials.put("t.sql", SQL)
    for command, words in commands(csv, planes, "/dev/full", script).items():
        if command in ("load", "upgrade"):
            trials.same("%s, made full" % command, trials.run(words), Left(7, b"", WRITE_FAULT))
    for command, words in commands(csv, planes, trials.path("made"), script).items():
        trials.forget("made")
        with open("/dev/full", "wb") as out:
            ended = subprocess.run([trials.daq] + words, stdout=out, stderr=subprocess.PIPE)
        told = Left(ended.returncode, b"", ended.stderr, trials.get("made"))
        trials.same("%s, out full" % command, told, Left(7, b"", WRITE_FAULT))
    reports = trials.put("reports", "a\tquery %s\na\tround 0\na\t1 29\na\tend narrow\n" % SQL)
    with open("/dev/full", "wb") as out:
        ended = subprocess.run([trials.daq, "combine", "1", reports], stdout=out, stderr=subprocess.PIPE)
    trials.same("combine, out full", Left(ended.returncode, b"", ended.stderr), Left(7, b"", WRITE_FAULT))
    with open("/dev/full", "wb") as err:
        ended = subprocess.run([trials.daq, "ask"], stdout=subprocess.PIPE, stderr=err)
    trials.check("usage, err full", ended, ended.returncode == 7 and ended.stdout == b"")


def filling(trials):
    """A disk of 64 KB that fills up in the midst of a file, and of a report: the old file stands, and a part of the report."""
    disk, text = trials.path("disk"), "n\n" + "".join("%d\n" % (n * 7919 % 1000003) for n in range(50000))
    os.mkdir(disk)
    if os.geteuid() != 0 or subprocess.run(["mount", "-t", "tmpfs", "-o", "size=64k", "tmpfs", disk]).returncode != 0:
        print("left out: a disk that fills up, which only root can make")
        return
    try:
        csv, (file, _) = trials.put("n.csv", text), plane_file(text, "n:int")
        for old in (None, b"an old file"):
            if old:
                trials.put("disk/made", old)
            told = trials.run(["load", csv, disk + "/made", "n:int"])
            good = told == Left(7, b"", WRITE_FAULT) and trials.get("disk/made") == old and os.listdir(disk) == (["made"] if old else [])
            trials.check("load, disk full", told, good)
        os.remove(disk + "/made")
        words, path = ["query", trials.put("n.daq", file), "SELECT * FROM t ORDER BY n LIMIT 1000", "--list"], disk + "/report"
        whole = trials.run(words).out
        with open(path, "wb") as out:
            ended = subprocess.run([trials.daq] + words, stdout=out, stderr=subprocess.PIPE)
        part = trials.get("disk/report")
        good = (ended.returncode, ended.stderr) == (7, WRITE_FAULT) and whole.startswith(part) and len(part) < len(whole)
        trials.check("report, disk full", ended.stderr, good)
    finally:
        subprocess.run(["umount", disk])


def closing(trials):
    """A pipe that closes after some bytes: what was written is the front of the report, and the status that of a failed write."""
    csv = trials.put("t.csv", TEXT)
    whole = trials.run(commands(csv, "", "", "")["ask"]).out
    for size in range(0, 40, 3):
        ended = subprocess.Popen([trials.daq, *commands(csv, "", "", "")["ask"]], stdout=subprocess.PIPE, stderr=subprocess.PIPE)
        front = ended.stdout.read(size) if size else b""
        ended.stdout.close()
        line = ended.stderr.read()
        status = ended.wait()
        # Where the report was in the pipe before it closed, the run is done.
        good = whole.startswith(front) and (status, line) in ((7, WRITE_FAULT), (0, b""))
        trials.check("a pipe that closes after %d bytes" % size, (status, line), good)
    ended = subprocess.run("%s demo 1 100000 'SELECT * FROM t ORDER BY a LIMIT 1000' --list 2>%s | head -c 100" % (trials.daq, trials.path("line")),
                           shell=True, capture_output=True)
    trials.check("a long report into a pipe that closes", trials.get("line"), len(ended.stdout) == 100 and trials.get("line") == WRITE_FAULT)


def same_path(trials):
    """The new file at the path of the one that is read, or at another name of it: a write fault, and it stands."""
    file = plane_file(TEXT, SCHEMA)[0]
    for command, data in (("load", TEXT.encode()), ("upgrade", file)):
        path = trials.put("self", data)
        os.link(path, trials.path("hard"))
        os.symlink(path, trials.path("soft"))
        for other in ("self", "hard", "soft"):
            told = trials.run(commands(path, path, trials.path(other), "")[command])
            trials.check("%s onto %s" % (command, other), told, told == Left(7, b"", WRITE_FAULT) and trials.get("self") == data)
        trials.forget("hard")
        trials.forget("soft")


def replaced(trials):
    """A new file in the place of an old one: with its rights, and where the path is a link, at its end. What is open before stays as it was."""
    file, line = plane_file(TEXT, SCHEMA)
    csv, old = trials.put("t.csv", TEXT), trials.put("old", b"an old file")
    os.chmod(old, 0o640)
    os.symlink("old", trials.path("link"))
    with open(old, "rb") as before:
        told = trials.run(["load", csv, trials.path("link"), SCHEMA])
        good = told == Left(0, line) and trials.get("old") == file and os.path.islink(trials.path("link"))
        trials.check("load onto a link", told, good and os.stat(old).st_mode & 0o777 == 0o640 and before.read() == b"an old file")
    os.symlink("nothing", trials.path("loose"))
    told = trials.run(["load", csv, trials.path("loose"), SCHEMA])
    trials.check("load onto a link to nothing", told, told == Left(0, line) and trials.get("nothing") == file)


def at_once(trials):
    """Loads of two tables onto one name, at once: one of the two stands, whole."""
    texts = ["n\n" + "".join("%d\n" % (n * step % 1000003) for n in range(20000)) for step in (7919, 104729)]
    csvs, files = [trials.put("n%d.csv" % k, text) for k, text in enumerate(texts)], [plane_file(text, "n:int")[0] for text in texts]
    for _ in range(20):
        runs = [subprocess.Popen([trials.daq, "load", csv, trials.path("both"), "n:int"], stdout=subprocess.DEVNULL) for csv in csvs]
        told = [run.wait() for run in runs]
        trials.check("two loads at once", told, told == [0, 0] and trials.get("both") in files and not trials.drafts())


def slow(trials):
    """A CSV that comes in pieces, by a pipe with a name: the report of the whole."""
    whole = trials.run(commands(trials.put("t.csv", TEXT), "", "", "")["ask"])
    for piece in (1, 2, 5, 20):
        pipe = trials.path("pipe%d" % piece)
        os.mkfifo(pipe)

        def feed():
            with open(pipe, "wb", buffering=0) as file:
                for at in range(0, len(TEXT), piece):
                    file.write(TEXT[at:at + piece].encode())
                    time.sleep(0.002)
        thread = threading.Thread(target=feed)
        thread.start()
        trials.same("pieces of %d bytes" % piece, trials.run(["ask", pipe, SCHEMA, SQL]), whole)
        thread.join()
    pipe = trials.path("pipe of planes")
    os.mkfifo(pipe)
    thread = threading.Thread(target=lambda: open(pipe, "wb").close())
    thread.start()
    told = trials.run(["info", pipe])
    thread.join()
    trials.same("a pipe as a plane file", told, Left(5, b"", b"daq: file refused: size 0, not 32\n"))


def growing(trials):
    """A CSV that grows while it is read: the report is that of its first bytes, up to some place."""
    chance = random.Random(1)
    for _ in range(20):
        numbers = [chance.randint(100000, 999999) for _ in range(60000)]
        path = trials.put("grows.csv", "n\n" + "".join("%d\n" % n for n in numbers[:20000]))

        def grow():
            with open(path, "ab", buffering=0) as file:
                for at in range(20000, 60000, 50):
                    file.write("".join("%d\n" % n for n in numbers[at:at + 50]).encode())
        thread = threading.Thread(target=grow)
        thread.start()
        told = trials.run(["ask", path, "n:int", "SELECT COUNT(*), SUM(n) FROM t"])
        thread.join()
        lines = told.out.decode().split("\n")
        count, total = (int(lines[-4].split()[1]), int(lines[-3].split()[1])) if told.status == 0 else (0, 0)
        # of the last row some digits may have been there
        last = numbers[count - 1]
        fronts = [sum(numbers[:count - 1]) + int(str(last)[:digits]) for digits in range(1, 7)]
        trials.check("a CSV that grows", told, told.status == 0 and count >= 20000 and total in fronts)


def main(words):
    trials = Trials(words[0])
    shutil.copy(trials.daq, trials.path("daq"))
    os.chmod(trials.path("daq"), 0o755)
    os.chmod(trials.folder.name, 0o755)
    trials.daq = trials.path("daq")
    for part in (unreadable, unwritable, kept, full, filling, closing, same_path, replaced, at_once, slow, growing):
        part(trials)
    trials.end("edges tried")


if __name__ == "__main__":
    main(sys.argv[1:])
