#!/usr/bin/python3
"""The answer of `SELECT COUNT(*), SUM(b), MAX(d) FROM t WHERE a < 0` by numpy: arrays of 64-bit numbers in memory, and a mask.

Reads the columns out of a plane file, whose columns are a (int), b (dec2) and d (date), none of them nullable, and answers. Prints the lines of the
last block of a report, and the milliseconds of the processor that the answer alone took, the least of five, to standard error. It trusts the file.
usage: arrays.py FILE
"""
import struct
import sys
import time

import numpy


def columns(path):
    """The numbers of each column by its name of one letter."""
    data = numpy.fromfile(path, dtype=numpy.uint8)
    count, rows, size = struct.unpack_from("<IQQ", data, 12)
    words = (rows + 63) // 64
    head, plane, found = 32, 32 + size, {}
    for _ in range(count):
        _, _, width, length, base, _, texts = struct.unpack_from("<BBBBqqI", data, head)
        name = chr(data[head + 24])
        numbers = numpy.zeros(rows, dtype=numpy.int64)
        for _ in range(width):
            bits = numpy.unpackbits(data[plane : plane + 8 * words], bitorder="little")[:rows]
            numbers = 2 * numbers + bits
            plane += 8 * words
        found[name] = numbers + base
        head += 24 + length
        for _ in range(texts):
            head += 1 + data[head]
    return found


def answer(a, b, d):
    """The count, the sum and the greatest day."""
    kept = a < 0
    return numpy.count_nonzero(kept), b[kept].sum(), d[kept].max()


table = columns(sys.argv[1])
least = None
for _ in range(5):
    start = time.process_time()
    count, total, day = answer(table["a"], table["b"], table["d"])
    spent = time.process_time() - start
    least = spent if least is None else min(least, spent)
print(1, count)
print(2, f"{'-' if total < 0 else ''}{abs(total) // 100}.{abs(total) % 100:02}")
print(3, numpy.datetime64(int(day), "D"))
print(f"{least * 1e3:.1f}", file=sys.stderr)
