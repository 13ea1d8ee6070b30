#!/usr/bin/env python3
"""Lists the definitions on which the headline of `run` in the words of SQL rests, and checks that docs/proof/definitions.md lists them.

From *IsHeadline*, which the clause `done` of `run` gives (crates/run_headline), it follows the names through the files of specs/: from a
definition to those that its text names, as the file's `use` lines lead. Types of the program that a definition names stand in src/. What std
defines is not listed. A second list has what *IsAnsweredAsAsked* adds to these: which query, and which table, the words of a run ask for.

definitions.py prints a line where the page is stale, and ends with 0 only where it is not; definitions.py --write brings the page up to date.
definitions.py --aloud prints how many words of each file a reader speaks who reads a list aloud. Spoken are the words of the comment of a
definition, and in its code each name of three letters and more, a name with dots as one word; not the type that stands above equations, nor
the words of the language, shorter names, numbers of one or two digits, and signs.
"""
import os
import re
import sys

TOP = os.path.dirname(os.path.dirname(os.path.abspath(__file__)))
PAGE = "docs/proof/definitions.md"
HEADLINE = ("crates/run_headline/specs/Headline.antt", "IsHeadline")
ASKED = ("crates/run_headline/specs/Asked.antt", "IsAnsweredAsAsked")
# The crates that say what is claimed; the others say which table is asked, and how a query is printed.
CLAIM = ("run_headline", "sql_headline", "sql_meaning")
BEGIN, END = "<!-- The list of %s, by tests/definitions.py --write -->", "<!-- The end of the list of %s -->"

HEAD = re.compile(r"^( *)(?:abbrev |unfoldable |pub )*(?:(record|data) )?([^\s(:]+)")
DECLARED = r"^ *(?:pub(?:\([a-z]+\))? )?(?:struct|enum|const) %s\b"
NAME = re.compile(r"[A-Za-z_][A-Za-z0-9_']*(?:\.[A-Za-z_][A-Za-z0-9_']*)*|◌[^\s{}()]+◌")

# Of what is read aloud: the names in code, of which so many letters are spoken, the words of the language, and words in a minute.
SPOKEN = re.compile(r"[A-Za-z_][\w']*(?:\.[A-Za-z_][\w']*)*|\d+")
SHORTEST = 3
LANGUAGE = {"pub", "abbrev", "unfoldable", "record", "data", "where", "Type", "let", "then", "else"}
IN_A_MINUTE = 180


def read(path):
    with open(os.path.join(TOP, path), encoding="utf-8") as file:
        return file.read()


def words_aloud(code, comments):
    """How many words are spoken of some lines of code, and of their comments."""
    names = [word for word in SPOKEN.findall("\n".join(code)) if len(word) >= SHORTEST and word not in LANGUAGE]
    return len(names) + sum(len(line.split()) for line in comments)


class Definition:
    """A definition of a file: its lines of code and its comments, the names in them, and the constructors or fields that it declares."""

    def __init__(self, lines, comments, kind, name):
        self.lines, self.comments, self.kind, self.name = lines, comments, kind, name
        text = re.sub(r'"[^"]*"', '""', "\n".join(lines))
        inner = [found[1] for found in re.finditer(r"^ +(?:pub )?([A-Za-z_][\w']*) : ", text, re.M)] if kind else []
        self.constructors = inner if kind == "data" else []
        bound = set(inner) | {name} | set(re.findall(r"[{;] *([A-Za-z_]\w*) = ", text))
        for group in re.findall(r"[({]([\w' ]+) : ", text) + re.findall(r"λ ([\w' ]+)\.", text) + re.findall(r"\blet (\w+) [:=]", text):
            bound |= set(group.split())
        # What stands on the left of an equation is bound there, but for constructors, whose type is named anyway.
        for left in re.findall(r"^ *%s (.*?) =(?: |$)" % re.escape(name), text, re.M) if not kind else []:
            bound |= {word for word in re.findall(r"[a-z_]\w*'?", left)}
        self.names = {word for word in NAME.findall(text) if word.split(".")[0] not in bound - {name}} - {name}

    def aloud(self):
        equations = [n for n, line in enumerate(self.lines) if n > 0 and re.match(r" *%s(?: |$)" % re.escape(self.name), line)]
        return words_aloud(self.lines[equations[0] :] if equations and not self.kind else self.lines, self.comments)


class File:
    """A file of specs/: what its `use` lines bring in, and its definitions."""

    def __init__(self, path):
        self.path, self.used, self.modules, self.definitions = path, {}, {}, {}
        lines, self.comments = self.read_lines()
        for line in lines:
            found = re.match(r"(?:pub )?use Rattle\.([\w.]+?)(?:\.\{(.*)\}| as (\w+))$", line)
            if found and found[3]:
                self.modules[found[3]] = found[1]
            elif found:
                for name in found[2].split(", "):
                    self.used[name.split(" as ")[-1]] = (found[1], name.split(" as ")[0])
        used = {n for n, line in enumerate(lines) if re.match(r"(?:pub )?use ", line)}
        self.comments = [above for n, above in enumerate(self.comments) if n not in used]
        self.read_definitions([line for n, line in enumerate(lines) if n not in used])
        self.constructors = {name: one.name for one in self.definitions.values() for name in one.constructors}

    def read_lines(self):
        """The lines of code, and for each the comments right above it."""
        lines, comments, above = [], [], []
        for line in read(self.path).split("\n"):
            if line.strip().startswith("--"):
                above.append(line.strip()[2:].strip())
                continue
            if line.strip():
                lines.append(line)
                comments.append(above)
            above = []
        return lines, comments

    def read_definitions(self, lines):
        within = 0
        place = 0
        while place < len(lines):
            line = lines[place]
            if re.match(r"module _ ", line):
                within = 2
                while not lines[place].rstrip().endswith("where"):
                    place += 1
                place += 1
                continue
            depth = len(line) - len(line.lstrip())
            if depth < within:
                within = 0
            _, kind, name = HEAD.match(line).groups()
            end = place + 1
            while end < len(lines) and self.goes_on(lines[end], depth, kind, name):
                end += 1
            self.definitions[name] = Definition(lines[place:end], sum(self.comments[place:end], []), kind, name)
            place = end

    @staticmethod
    def goes_on(line, depth, kind, name):
        deeper = len(line) - len(line.lstrip()) > depth
        return deeper or (not kind and re.match(r" {%d}%s(?:\s|$)" % (depth, re.escape(name)), line) is not None)


class Specs:
    def __init__(self):
        self.files = {}

    def file(self, path):
        if path not in self.files:
            self.files[path] = File(path)
        return self.files[path]

    @staticmethod
    def path_of(module):
        parts = module.split(".")
        return "/".join(["crates", parts[0], *parts[1:]]) + ".antt"

    def find(self, module, name):
        """Where a name of a module is defined: a file of specs/, or one of src/ for a type of the program."""
        parts = module.split(".")
        if parts[0] in ("std", "core") or not os.path.isdir(os.path.join(TOP, "crates", parts[0])):
            return None
        if "declared" in parts:
            folders = parts[parts.index("declared") + 1 :]
            if folders[-1] == "TheConstants":
                return self.find_in_source(parts[0], folders[:-1], name)
            kinds = [part for part in folders if part != "TheVariants"]
            return self.find_in_source(parts[0], kinds[:-1], kinds[-1])
        path = self.path_of(module)
        file = self.file(path)
        if name in file.definitions or name in file.constructors:
            return path, file.constructors.get(name, name)
        if name in file.used:
            return self.find(*file.used[name])
        raise LookupError("no definition of %s in %s" % (name, path))

    @staticmethod
    def find_in_source(crate, folders, name):
        path = "/".join(["crates", crate, "src", *folders]) + ".rt"
        if not re.search(DECLARED % name, read(path), re.M):
            raise LookupError("no %s in %s" % (name, path))
        return path, name

    def named_by(self, path, name):
        """What a definition names, each with its place."""
        if path.endswith(".rt"):
            return
        file = self.file(path)
        for word in sorted(file.definitions[name].names):
            front, _, rest = word.partition(".")
            if front in file.definitions or front in file.constructors:
                yield path, file.constructors.get(front, front)
            elif front in file.used:
                yield self.find(*file.used[front])
            elif front in file.modules and rest:
                yield self.find(file.modules[front], rest.split(".")[0])

    def measured(self, path, name):
        """The lines of a definition, and how many words of it are read aloud."""
        if not path.endswith(".rt"):
            one = self.file(path).definitions[name]
            return len(one.lines), one.aloud()
        code, comments = source_of(path, name)
        return len(code), words_aloud(code, comments)

    def reached(self, path, name):
        found, waiting = {}, [(path, name)]
        while waiting:
            place = waiting.pop()
            if place and place not in found:
                found[place] = self.measured(*place)
                waiting += list(self.named_by(*place))
        return found


def source_of(path, name):
    """The lines of a type of the program, and of its comments, before it and in it."""
    text = read(path)
    body = re.search(DECLARED % name + r".*?(?:;|^ *\})$", text, re.M | re.S)
    above = re.search(r"((?:^ *(?://|#\[).*\n)*)\Z", text[: body.start()], re.M)[1]
    lines = [line.strip() for line in (above + body[0]).split("\n")]
    code = [line for line in lines if line and not line.startswith(("//", "#["))]
    return code, [line.lstrip("/ ") for line in lines if line.startswith("//")]


def lists():
    """The definitions of the headline, and those that are added to them by what is asked for, each with its lines and its words."""
    specs = Specs()
    headline = specs.reached(*HEADLINE)
    added = {place: sizes for place, sizes in specs.reached(*ASKED).items() if place not in headline}
    return {HEADLINE[1]: headline, ASKED[1]: added}


def total(found, part, places=None):
    return sum(found[place][part] for place in (found if places is None else places))


def minutes(words):
    return round(words / IN_A_MINUTE)


def listed(root, found):
    paths = sorted({path for path, _ in found})
    claim = [place for place in found if place[0].split("/")[1] in CLAIM]
    words = total(found, 1)
    rows = [
        "%d definitions, %d lines, in %d files: %s words, %d minutes read aloud;"
        % (len(found), total(found, 0), len(paths), format(words, ","), minutes(words)),
        "%d of them, %d lines, are those of `%s`." % (len(claim), total(found, 0, claim), "`, `".join(CLAIM)),
        "",
        "| File | Definitions | Lines |",
        "|---|---|---|",
    ]
    for path in paths:
        names = sorted(name for at, name in found if at == path)
        shown = ", ".join("*%s*" % name for name in names)
        rows.append("| `%s` | %s | %d |" % (path, shown, total(found, 0, [(path, name) for name in names])))
    return "\n".join(rows)


def stale():
    """A line for each list of the page that is not what is found."""
    page = read(PAGE)
    for root, found in lists().items():
        begin, end = BEGIN % root, END % root
        if begin not in page or end not in page or page.split(begin)[1].split(end)[0].strip() != listed(root, found):
            yield "%s: its list of %s is stale; tests/definitions.py --write brings it up to date" % (PAGE, root)


def write():
    page = read(PAGE)
    for root, found in lists().items():
        front, rest = page.split(BEGIN % root)
        page = front + BEGIN % root + "\n\n" + listed(root, found) + "\n\n" + END % root + rest.split(END % root)[1]
    with open(os.path.join(TOP, PAGE), "w", encoding="utf-8") as file:
        file.write(page)


def read_aloud():
    """For each list a line of its words, and one for each of its files."""
    for root, found in lists().items():
        words = total(found, 1)
        yield "%s: %d words, %d minutes" % (root, words, minutes(words))
        for path in sorted({path for path, _ in found}):
            yield "%6d  %s" % (total(found, 1, [place for place in found if place[0] == path]), path)


def main():
    if "--aloud" in sys.argv[1:]:
        print("\n".join(read_aloud()))
        return
    if "--write" in sys.argv[1:]:
        write()
    faults = list(stale())
    print("\n".join(faults) or "ok: the lists of definitions are those of the headline")
    sys.exit(bool(faults))


if __name__ == "__main__":
    main()
