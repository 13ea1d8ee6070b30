#!/usr/bin/env python3
"""Compares what a built program prints in the examples and for the commands of the documents with what is kept of it.

examples.py PROGRAM prints a line for each that was compared, and ends with 0 only where all are equal.
"""
import os
import re
import shutil
import subprocess
import sys
import tempfile

TOP = os.path.dirname(os.path.dirname(os.path.abspath(__file__)))
# The pages whose commands are run, in this order, in one folder; and how a block of commands begins.
PAGES = ("README.md", "docs/guide.md", "docs/csv.md", "docs/sql.md", "docs/output.md")
COMMANDS = ("./daq ", "examples/", "companion/", "head ", "sed ", "cat ", "sqlite3 ")
# The CSV of the reader's own that the README asks.
OWN = "ordered,item,amount,rebate\n2023-12-30,pen,1.50,\n2024-01-02,ink,12.25,3\n2024-02-29,pen,99.00,\n"


def read(*path):
    with open(os.path.join(TOP, *path)) as file:
        return file.read()


def output(words, folder, **settings):
    """What a command prints on standard output, and behind it the status, where that is not 0."""
    run = subprocess.run(words, cwd=folder, stdin=subprocess.DEVNULL, stdout=subprocess.PIPE, **settings)
    return run.stdout.decode() + ("status %d\n" % run.returncode if run.returncode else "")


def blocks(text):
    """The paragraphs of a page, and whether they are code: indented ones, without their indent."""
    for paragraph in re.split(r"\n{2,}", text):
        lines = paragraph.strip("\n").split("\n")
        is_code = all(line.startswith("    ") for line in lines)
        yield is_code, "".join((line[4:] if is_code else line) + "\n" for line in lines)


def page_examples(text):
    """The commands of a page, and the output that stands right behind them, or None."""
    commands = None
    for is_code, block in blocks(text):
        if commands:
            yield commands, block if is_code and not block.startswith(COMMANDS) else None
        commands = block if is_code and block.startswith(COMMANDS) else None
    if commands:
        yield commands, None


def shown(commands, folder):
    """What a person sees of commands: both outputs, as they come."""
    return output("{ %s}" % commands, folder, shell=True, stderr=subprocess.STDOUT)


def page_comparisons(page, folder):
    """Of each block of commands of a page what is printed and what is kept; where nothing is kept, that it ends well."""
    for commands, kept in page_examples(read(page)):
        name = "%s: %s" % (page, commands.splitlines()[-1])
        if commands.startswith("sqlite3 ") and not shutil.which("sqlite3"):
            continue
        printed = shown(commands, folder)
        if kept is None:
            failed = re.search(r"^status .*\n\Z", printed, re.M)
            yield name, failed[0] if failed else "", ""
        else:
            yield name, re.sub(r"^status [0-9]+\n\Z", "", printed, flags=re.M), kept


def recipes(folder):
    """The lines of Miller that prepare a CSV, run one by one over a CSV that needs them all; then the program takes what they made."""
    lines = re.findall(r"`(mlr [^`]*)`", read("docs", "csv.md"))
    given = read("examples", "orders.csv")
    for line in lines:
        is_first = "--ifs" in line
        with open(os.path.join(folder, "in.csv"), "w") as file:
            file.write(given.replace(",", ";").replace('"1;234.50"', '"1,234.50"') if is_first else given)
        printed = output(line, folder, shell=True, stderr=subprocess.STDOUT)
        with open(os.path.join(folder, "my.csv")) as file:
            made = file.read()
        yield "docs/csv.md: " + line, printed + ("(error)\n" if "(error)" in made else ""), ""
        # Each line goes on with what the ones before made, but for the second way to write a timestamp.
        given = given if "strptime" in line else made
    asked = "SELECT COUNT(*), MIN(time), SUM(paid), SUM(price), SUM(rebate), SUM(rate) FROM t"
    printed = shown("./daq ask my.csv id:skip,time:date,paid:int,price:dec2,rebate:int?,rate:dec9,comment:skip '%s' | tail -n 7\n" % asked, folder)
    yield "docs/csv.md: the CSV that is prepared", printed, "1 2\n2 2024-02-29\n3 1\n4 1241.50\n5 5\n6 0.101000000\nend narrow\n"


def comparisons(program):
    """The name of each example, what the program prints, and what is kept."""
    with tempfile.TemporaryDirectory() as work:
        os.symlink(program, os.path.join(work, "daq"))
        for name in ("examples", "companion"):
            os.symlink(os.path.join(TOP, name), os.path.join(work, name))
        with open(os.path.join(work, "my.csv"), "w") as file:
            file.write(OWN)
        for page in PAGES:
            yield from page_comparisons(page, work)
        yield "docs/picture.svg", output("./daq query shop.daq 'SELECT SUM(price) FROM t' | companion/daq-view picture --rows 4", work, shell=True), \
            read("docs", "picture.svg")
        if shutil.which("mlr"):
            yield from recipes(work)
    for name in ("clocks", "packages", "zones"):
        yield name, output([os.path.join(TOP, "examples", name + ".sh"), program], TOP), read("examples", name + ".out")


def main(words):
    if len(words) != 1 or not os.access(words[0], os.X_OK):
        sys.exit("usage: examples.py PROGRAM")
    failed = False
    for name, printed, kept in comparisons(os.path.abspath(words[0])):
        equal = printed == kept
        failed = failed or not equal
        print(("ok: " if equal else "FAILED: ") + name)
    sys.exit(failed)


if __name__ == "__main__":
    main(sys.argv[1:])
