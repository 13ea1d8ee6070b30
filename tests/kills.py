#!/usr/bin/env python3
"""A `load` that is killed at a random moment: what stands at its path then, and what `info` says of it.

kills.py DAQ [TIMES]
"""
import random
import subprocess
import sys
import time

import files
from trials import Trials, plane_file

SCHEMA = "n:int,m:dec2?,city:text"


def some_csv(chance, rows):
    lines = ["n,m,city"]
    for _ in range(rows):
        lines.append("%d,%s,%s" % (chance.randint(-10 ** 9, 10 ** 9), chance.choice(["", "1.25", "-7"]), chance.choice(["Oslo", "Rome", "Bern"])))
    return "\n".join(lines) + "\n"


def answer(data):
    """What an independent reader says of the bytes under `info`."""
    try:
        return 0, files.info(data)[0].encode(), b""
    except files.Refused as refused:
        return 5, b"", (refused.line + "\n").encode()


def killed(trials, words, delay, while_written):
    """Kills the command after a time, which begins where the new file is begun, if so is asked. Whether it was still running."""
    ended = subprocess.Popen([trials.daq] + words, stdout=subprocess.DEVNULL, stderr=subprocess.DEVNULL)
    while while_written and not trials.drafts() and ended.poll() is None:
        pass
    time.sleep(delay)
    ended.kill()
    return ended.wait() != 0


def main(words):
    times = int(words[1]) if len(words) > 1 else 500
    trials, chance, found, left = Trials(words[0]), random.Random(1), {"the old file": 0, "the new file": 0, "something else": 0}, 0
    source = some_csv(chance, 100000)
    csv, (new, _) = trials.put("t.csv", source), plane_file(source, SCHEMA)
    old, _ = plane_file(source[:source.index("\n", 5000) + 1], SCHEMA)
    path = trials.put("t.daq", old)
    load = ["load", csv, path, SCHEMA]
    begun = time.time()
    trials.run(load)
    usual, alive = time.time() - begun, 0
    for turn in range(times):
        trials.put("t.daq", old)
        # Each other time while the file is written, which is the lesser part of a run.
        if turn % 2:
            alive += killed(trials, load, chance.uniform(0, usual / 20), True)
        else:
            alive += killed(trials, load, chance.uniform(0, usual * 1.1), False)
        for name in trials.drafts():
            left += 1
            trials.forget(name)
        data = trials.get("t.daq")
        kind = "the old file" if data == old else "the new file" if data == new else "something else"
        found[kind] += 1
        told = trials.run(["info", path])
        trials.check("info of " + kind, told, kind != "something else" and (told.status, told.out, told.err) == answer(data))
    counts = ", ".join("%s %d times" % (kind, n) for kind, n in found.items())
    print("killed %d of %d while it ran: %s; beside it a part stood %d times" % (alive, times, counts, left))
    trials.end("checks of killed loads")


if __name__ == "__main__":
    main(sys.argv[1:])
