"""Stands for the program in tests: prints what the scene says for a command. The variable FAKE_DAQ names the scene, a JSON file.

A scene has for each command, or for the command with its SQL or its file: out, err, status, pause (seconds before each block), signal (its
own end), made (what load writes), copy (a file for the CSV that load is given) and log (a file for its words). Where combine has by, a folder,
its reader of reports, parts.py, combines what comes on standard input.
"""
import json
import os
import shutil
import sys
import time


def combine(count, *options):
    """Combines the reports on standard input as they come, by the reader of the tests."""
    import parts

    whole, shown = parts.Combined(int(count), **parts.limits_of(options)), 0
    try:
        for number, line in enumerate(sys.stdin.buffer, 1):
            try:
                whole.take(line[:-1])
            except parts.Refused as why:
                raise parts.Refused("line %d: %s" % (number, why))
            print("\n".join(whole.lines[shown:]), end="\n" * (shown < len(whole.lines)), flush=True)
            shown = len(whole.lines)
            if whole.ended:
                return 0
        whole.close()
    except parts.Refused as why:
        print("daq: report refused: %s" % why, file=sys.stderr)
    return 9


with open(os.environ["FAKE_DAQ"], encoding="utf-8") as file:
    scene = json.load(file)
told = scene.get(" ".join(sys.argv[1:2] + sys.argv[3:4])) or scene.get(" ".join(sys.argv[1:3])) or scene[sys.argv[1]]
if "log" in told:
    with open(told["log"], "w", encoding="utf-8") as log:
        json.dump({"pid": os.getpid(), "words": sys.argv[1:]}, log)
if "by" in told:
    sys.path.insert(0, told["by"])
    sys.exit(combine(*sys.argv[2:3], *sys.argv[4:]))
for line in told.get("out", "").splitlines(keepends=True):
    if line.startswith("round "):
        time.sleep(told.get("pause", 0))
    sys.stdout.buffer.write(line.encode("utf-8", "surrogateescape"))
    sys.stdout.buffer.flush()
if "copy" in told:
    shutil.copy(sys.argv[2], told["copy"])
if "made" in told:
    with open(sys.argv[3], "w", encoding="utf-8") as made:
        made.write(told["made"])
sys.stderr.write(told.get("err", ""))
sys.stderr.flush()
if "signal" in told:
    os.kill(os.getpid(), told["signal"])
sys.exit(told.get("status", 0))
