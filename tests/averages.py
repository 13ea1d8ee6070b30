"""Compares the exact averages of a bare column, found by its planes, with those of the same column plus 0, found row by row, on tables
about the edges of a block: tests/averages.py PROGRAM."""
import os
import random
import subprocess
import sys
import tempfile

EDGES = (1, 63, 64, 65, 511, 512, 513, 1025)
DRAWN = ("a < 0", "b < 5000", "d >= DATE '2005-01-01'", "NOT a < 0 OR b > 9000")
READ = ("y < 50", "x > 0", "y < 50 OR x < 0")


def table(chance, rows, nulls):
    """A CSV of two columns, of which the first has some numbers more than once."""
    def cell(low, high):
        return "" if nulls and chance.random() < 0.2 else str(chance.choice((chance.randint(low, high), low, 0)))
    return "x,y\n" + "".join("%s,%s\n" % (cell(-300, 700), cell(0, 100)) for _ in range(rows))


def differ(words, column, condition, policy):
    """Whether the lines of both items differ in some round."""
    sql = "SELECT AVG(%s), AVG(%s + 0) FROM t WHERE %s" % (column, column, condition)
    told = subprocess.run(words + [sql, "--exact-avg", "--policy", policy], capture_output=True, text=True)
    lines = told.stdout.split("\n")
    first, second = ([line[2:] for line in lines if line.startswith(item)] for item in ("1 ", "2 "))
    if told.returncode == 0 and first == second and any("exact" in line for line in first):
        return 0
    print("differs: %s\n%s%s" % (" ".join(words + [sql, policy]), told.stdout, told.stderr))
    return 1


def main(program):
    chance, wrong, count = random.Random(1), 0, 0
    policies = ("widest", "order", "filter", "balanced")
    with tempfile.TemporaryDirectory() as folder:
        path = os.path.join(folder, "t.csv")
        for rows in EDGES:
            runs = [([program, "demo", str(seed), str(rows)], "b", c, p) for seed in (1, 2) for c in DRAWN for p in policies]
            for nulls in (False, True):
                with open(path, "w") as file:
                    file.write(table(chance, rows, nulls))
                schema = "x:int?,y:int?" if nulls else "x:int,y:int"
                for condition in READ:
                    for policy in policies:
                        wrong += differ([program, "ask", path, schema], "x", condition, policy)
                        count += 1
            wrong += sum(differ(*run) for run in runs)
            count += len(runs)
    print("%d reports compared, %d differ" % (count, wrong))
    return 1 if wrong else 0


if __name__ == "__main__":
    sys.exit(main(sys.argv[1]))
