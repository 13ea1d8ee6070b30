#!/usr/bin/env python3
"""How long a block of `daq combine` stands behind the last line that it needs: delay.py PROGRAM PARTS.

Writes the lines of a round of all parts to a pipe, but for the last, waits a moment, writes that line, and takes the time until the block was
read, for 200 rounds. A block whose last item is a COUNT needs no line behind it. Prints the median, the longest but one in a hundred, and the
longest, in milliseconds.
"""
import subprocess
import sys
import time

ROUNDS, PAUSE = 200, 0.005


def main(program, count):
    tags = [b"part%d\t" % number for number in range(count)]
    run = subprocess.Popen([program, "combine", str(count), "/dev/stdin"], stdin=subprocess.PIPE, stdout=subprocess.PIPE)
    run.stdin.write(b"".join(tag + b"query SELECT COUNT(c) FROM t\n" for tag in tags))
    delays = []
    for number in range(ROUNDS):
        item = b"1 [%d, %d]\n" % (number, 10**9 - number)
        head = b"round %d c %d/%d\n" % (number, number, ROUNDS) if number else b"round 0\n"
        lines = [tag + line for tag in tags for line in (head, item)]
        run.stdin.write(b"".join(lines[:-1]))
        run.stdin.flush()
        time.sleep(PAUSE)
        begun = time.monotonic()
        run.stdin.write(lines[-1])
        run.stdin.flush()
        for _ in range(2 if number else 4):
            run.stdout.readline()
        delays.append(1000 * (time.monotonic() - begun))
    run.stdin.write(b"".join(tag + b"end rounds\n" for tag in tags))
    run.stdin.close()
    told = run.stdout.read()
    if run.wait() or told != b"end rounds\n":
        sys.exit("delay.py: the report did not end as it should")
    delays.sort()
    print("a block of %d parts behind its last line: %.1f ms, %.1f ms in 99 of 100, %.1f ms at most"
          % (count, delays[len(delays) // 2], delays[-len(delays) // 100], delays[-1]))


if __name__ == "__main__":
    main(sys.argv[1], int(sys.argv[2]))
