#!/usr/bin/env python3
"""Checks what the documents say of the repository, without a built program; tests/examples.py runs the commands that stand in them.

Links lead to files and headings; each definition, edit, name and crate that a page names is there; the limits are those of the source; each
command and option stands in every list of them; the README keeps to its length; and the list of definitions is what definitions.py finds.

documents.py prints a line for each fault, and ends with 0 only where there is none.
"""
import glob
import os
import re
import sys

import definitions

TOP = os.path.dirname(os.path.dirname(os.path.abspath(__file__)))
FOLDERS = ("", "docs", "docs/proof", "examples", "companion")
# The pages that name functions, types, clauses and definitions of the code.
NAMING = ("output", "sql", "proof/architecture", "proof/decisions", "proof/definitions", "proof/file", "proof/promises", "proof/words")

# For the rows of docs/limits.md, by how they begin, where the source has the number, behind what.
LIMITS = {
    "bytes of a CSV": ("daq_cli/src/inputs.rt", r"MOST_BYTES: usize = "),
    "rows, of a CSV": ("csv_load/src/limits.rt", r"rows: "),
    "columns |": ("daq_table/src/schema.rt", r"columns\.len\(\) > "),
    "columns of a CSV": ("daq_table/src/schema.rt", r"items\.len\(\) > "),
    "cells: rows times columns": ("csv_load/src/limits.rt", r"cells: "),
    "different texts in a column": ("csv_load/src/limits.rt", r"names: "),
    "bytes of a text |": ("csv_load/src/texts.rt", r"bytes\.len\(\) <= "),
    "bytes of a column's name": ("daq_table/src/schema_items.rt", r"bytes\.len\(\) <= "),
    "bytes of the text": ("sql_text/src/reading.rt", r"MOST_BYTES: usize = "),
    "open levels": ("sql_text/src/reading.rt", r"MOST_LEVELS: u8 = "),
    "different columns |": ("sql_typing/src/numbering.rt", r"MOST_COLUMNS: usize = "),
    "aggregates": ("sql_typing/src/typing.rt", r"MOST_ITEMS: usize = "),
    "values of an IN": ("sql_typing/src/condition.rt", r"MOST_VALUES: usize = "),
    "planes of the group columns": ("sql_typing/src/typing.rt", r"MOST_GROUP_BITS: u32 = "),
    "rows behind LIMIT": ("sql_typing/src/shape.rt", r"limit\.units <= "),
    "decimals of an expression": ("sql_typing/src/scale.rt", r"MOST_SCALE: u32 = "),
    "bytes of the script": ("session_script/src/script.rt", r"MOST_BYTES: usize = "),
    "queries": ("multi_session/src/limits.rt", r"MOST_QUERIES: usize = "),
    "different columns of all": ("multi_session/src/limits.rt", r"MOST_COLUMNS: usize = "),
    "cells: the rows of the table": ("multi_session/src/limits.rt", r"MOST_CELLS: u64 = "),
    "parts of a table": ("command_line/src/reader.rt", r"MOST_PARTS: u64 = "),
    "bytes of all reports": ("source_lines/src/lines.rt", r"MOST_BYTES: usize = "),
    "bytes of a line": ("source_lines/src/lines.rt", r"MOST_LINE: usize = "),
    "bytes of a tag": ("report_parts/src/tags.rt", r"MOST_BYTES: usize = "),
}
# The rows whose numbers are those of a type or of the calendar, and stand in no constant.
UNCOUNTED = ("a number |", "decimals of a column", "dates", "units of a number", "an aggregate's values", "the sum of an aggregate")


def read(path):
    with open(os.path.join(TOP, path), encoding="utf-8") as file:
        return file.read()


def pages():
    return sorted(os.path.relpath(path, TOP) for folder in FOLDERS for path in glob.glob(os.path.join(TOP, folder, "*.md")))


# ---- links


def anchors(page):
    """What a link may name of a page: its headings, in small letters, with a hyphen for a blank and without other signs."""
    return {re.sub(r"[^\w -]", "", title.lower()).replace(" ", "-") for title in re.findall(r"^#+ (.*)$", read(page), re.M)}


def dead_links(page):
    for link, anchor in re.findall(r"\]\(([^)#:]*)(?:#([^)]*))?\)", read(page)):
        target = os.path.normpath(os.path.join(os.path.dirname(page), link)) if link else page
        if not os.path.exists(os.path.join(TOP, target)):
            yield "%s: no file %s" % (page, link)
        elif anchor and anchor not in anchors(target):
            yield "%s: no heading #%s in %s" % (page, anchor, target)


# ---- names of the code


def lost_definitions(page="docs/proof/definitions.md"):
    for names, path in re.findall(r"^\| (\*.*?) \|.*\| `(.*)` \|$", read(page), re.M):
        text = read(path) if os.path.exists(os.path.join(TOP, path)) else ""
        for name in re.findall(r"\*(\w+)\*", names):
            if not re.search(r"^(?:abbrev |record |data |pub )+%s\b" % name, text, re.M):
                yield "%s: no definition of %s in %s" % (page, name, path)


def lost_edits(page="docs/proof/promises.md"):
    for crate, edit in re.findall(r"^\| .* \| `(\w+)/(\w+)` \|$", read(page), re.M):
        if not os.path.exists(os.path.join(TOP, "crates", crate, "must-fail", edit + ".edit")):
            yield "%s: no edit %s of %s" % (page, edit, crate)


def words_of_crates():
    files = [path for ending in ("rt", "antt") for path in glob.glob(os.path.join(TOP, "crates", "*", "s*", "**", "*." + ending), recursive=True)]
    edits = {os.path.basename(path)[:-5] for path in glob.glob(os.path.join(TOP, "crates", "*", "must-fail", "*.edit"))}
    return set(re.findall(r"\w+", "".join(map(read, files)))) | set(crates()) | set(os.listdir(TOP)) | edits


def names_in(page):
    """What a page names of the code. In a table of names that were asked for, these are not the code's; policies are words of users."""
    text = re.sub(r"^\| Asked for \|.*\n(?:\|.*\n)+", lambda it: re.sub(r"(?m)^\| .*? \|", "", it[0]), read(page), flags=re.M)
    return re.findall(r"`([A-Za-z_][\w:]*)`", text) + re.findall(r"\*([A-Z]\w+)\*[^*]", text)


def lost_names(page, words):
    for name in names_in(page):
        if not set(name.replace("::", " ").split()) <= words:
            yield "%s: nothing has the name %s" % (page, name)


def crates():
    return re.findall(r"^(\w+)[^:\n#]*:", read("crates.txt"), re.M)


def miscounted_crates(page="docs/proof/architecture.md"):
    lines = [name for names in re.findall(r"^\| ([a-z_, ]+) \|", read(page), re.M) for name in names.split(", ")]
    for crate in sorted(set(crates() + lines)):
        if (lines.count(crate), crates().count(crate)) != (1, 1):
            yield "%s: crate %s stands in %d lines, and in %d of crates.txt" % (page, crate, lines.count(crate), crates().count(crate))


# ---- numbers


def number(text):
    """The first number of a text, as 2^24, 65,536 or 16_777_216."""
    found = re.match(r"[^0-9]*([0-9][0-9,_]*)(?:\^([0-9]+))?", text)
    base = int(re.sub("[,_]", "", found[1]))
    return base ** int(found[2]) if found[2] else base


def wrong_limits(page="docs/limits.md"):
    """Each row of the page has the number of the source."""
    rows = re.findall(r"^\| (?!What |-)(.*)$", read(page), re.M)
    for row in rows:
        # A row is meant by the longest of the beginnings that it has.
        known = max((front for front in LIMITS if row.startswith(front)), key=len, default=None)
        if known is None:
            if not row.startswith(UNCOUNTED):
                yield "%s: nothing is known of the limit %s" % (page, row.split(" |")[0])
            continue
        path, front = LIMITS[known]
        found = re.search(front + r"([0-9_]+)", read(os.path.join("crates", path)))
        told = row.split(" | ")[1]
        if not found or number(found[1]) != number(told):
            yield "%s: the limit of %s is %s, and in %s %s" % (page, row.split(" |")[0], told, path, found and found[1])
    for front in LIMITS:
        if not any(row.startswith(front) for row in rows):
            yield "%s: no row of %s" % (page, front)


def other_limits(page, part):
    """The large numbers of another page, in that part and not of code, stand on the page of the limits too."""
    known = set(map(number, re.findall(r"[0-9]+\^[0-9]+|[0-9]+,[0-9]{3}[0-9,]*|\b[0-9]{2,}\b", read("docs/limits.md"))))
    for told in re.findall(r"[0-9]+\^[0-9]+|[0-9]+,[0-9]{3}(?:,[0-9]{3})*", re.sub("`[^`]*`", "", part)):
        if number(told) not in known:
            yield "%s: no limit is %s" % (page, told)


def long_readme(page="README.md"):
    lines = read(page).split("\n")
    first = next(place for place, line in enumerate(lines) if line.startswith("## "))
    if first > 40 or len(lines) > 151:
        yield "%s: its first screen has %d lines, and all are %d" % (page, first, len(lines) - 1)


def other_version(page="CHANGELOG.md", source="crates/daq_cli/src/commands/version.rt"):
    newest, printed = re.match(r"# (\S+)", read(page)), re.search(r'b"daq (\S+)\\n"', read(source))
    if not newest or not printed or newest[1] != printed[1]:
        yield "%s: its first version is not that of %s" % (page, source)


# ---- commands and options


def lists_of_commands():
    """Where commands are listed: the grammar, the tour, the manual, the completions and the help of the script."""
    grammar, tour, manual = read("docs/proof/words.md"), read("docs/guide.md"), read("docs/daq.1")
    yield "docs/proof/words.md", re.findall(r'^ *(?:words +=|\|) "(\w+)"', grammar, re.M)
    yield "docs/guide.md", re.findall(r"^\| `([a-z]+)[ `]", tour.split("## All commands")[1].split("\n## ")[0], re.M)
    yield "docs/daq.1", re.findall(r"^\.It Cm (\w+) (?:Ar|,)", manual, re.M)
    choices = re.search(r"1-\*\) choices='([^']*)'", read("completions/daq.bash"))[1].split()
    yield "completions/daq.bash", [word for word in choices if not word.startswith("-")]


def lists_of_options():
    grammar, tour, manual = read("docs/proof/words.md"), read("docs/guide.md"), read("docs/daq.1")
    yield "docs/proof/words.md", re.findall(r'"--([\w-]+)"', re.search(r"^ *option = (.*(?:\n *\|.*)*)$", grammar, re.M)[1])
    yield "docs/guide.md", re.findall(r"^\| `--([\w-]+)[ `]", tour[tour.index("## All options"):], re.M)
    yield "docs/daq.1", re.findall(r"^\.It Fl -([\w-]+)", manual[manual.index("The options of a query") : manual.index(".Sh SCHEMA")], re.M)
    yield "completions/daq.bash", re.search(r"\*-query-.*\n.*choices='([^']*)'", read("completions/daq.bash"))[1].replace("--", "").split()


def lists_of_policies():
    manual = read("docs/daq.1")
    choices = manual[manual.index(".It Fl -policy"):manual.index(".It Fl -reads")]
    yield "docs/proof/words.md", re.findall(r'"(\w+)"', re.search(r"^ *policy = (.*)$", read("docs/proof/words.md"), re.M)[1])
    yield "docs/output.md", re.findall(r"^\| `(\w+)` \|", read("docs/output.md").split("## Which column is read next")[1].split("##")[0], re.M)
    yield "docs/daq.1", re.findall(r"^\.Cm (\w+)\s*[,;]?$", choices.split(".Pp")[0], re.M)
    yield "completions/daq.bash", re.search(r"--policy\*\) choices='([^']*)'", read("completions/daq.bash"))[1].split()


def uneven_lists():
    for lists in (lists_of_commands, lists_of_options, lists_of_policies):
        (first, kept), *others = lists()
        for place, found in others:
            if sorted(set(found)) != sorted(set(kept)):
                yield "%s: %s, and in %s %s" % (place, " ".join(sorted(set(found))), first, " ".join(sorted(set(kept))))


def main():
    faults = [fault for page in pages() for fault in dead_links(page)] + list(lost_definitions()) + list(lost_edits())
    words = words_of_crates()
    faults += [fault for page in NAMING for fault in lost_names("docs/%s.md" % page, words)] + list(miscounted_crates())
    readme, manual = read("README.md"), read("docs/daq.1")
    faults += [*wrong_limits(), *other_limits("README.md", re.search(r"^- \*\*Limits.*$", readme, re.M)[0]), *other_limits("docs/csv.md", read("docs/csv.md"))]
    faults += [*other_limits("docs/daq.1", manual[manual.index(".Sh LIMITS") : manual.index(".Sh FILES")]), *long_readme(), *uneven_lists()]
    faults += [*other_version(), *definitions.stale()]
    print("\n".join(faults) or "ok: links, names, edits, crates, limits, commands and options are there")
    sys.exit(bool(faults))


if __name__ == "__main__":
    main()
