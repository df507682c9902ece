#!/usr/bin/env python3
"""What the reader of the headline must believe: the definitions that the clauses of `wcet_main` rest on.

usage: tests/belief.py [rest | mark]

It begins with the clauses of `wcet_main` and follows each name that stands in them, by the `use` lines of files in
specs/ and the `ghost use` lines of sources, to the definition or the declared type of that name, and on from there.
It prints what is reached by file in reading order, the lowest crate first and each file after those that it uses, and
the sums. `rest` prints the definitions in specs/ that aren't reached. `mark` sets the marks in docs/DEFINITIONS.md.

The status is not 0 if more is reached than docs/DEFINITIONS.md states ("at most N definitions in M lines"), if one of
its rows has a wrong mark, or if a name leads to no definition.

A definition's lines are those of its text and of the comment above it. Of a declared type they are the type's, and
those that say how contracts see it (`impl Model`). A name that its own definition binds, as a parameter or a field,
leads nowhere.
"""
import os
import re
import sys

START = ("wcet_engine", "wcet_main")
PAGE = "docs/DEFINITIONS.md"
NAME = r"[A-Za-z_][A-Za-z0-9_']*(?:-[A-Za-z0-9_]+)*"
# Where a definition begins, and where a declared type or a function does; the last group has its name.
DEFINED = re.compile(rf"(?:(?:abbrev|unfoldable|pub|record|data) )+({NAME})|({NAME}) :")
DECLARED = re.compile(r"(?:pub(?:\(\w+\))? )?(struct|enum|trait|fn) (\w+)")
USED = re.compile(r"use Rattle\.([\w.]+?)(?:\.\{([^}]*)\}| as (\w+));?\s*$")
# What binds names in a definition: parameters, and the names behind a lambda or a `let`.
BINDER = re.compile(rf"[({{]((?:{NAME} )+):|λ \(?((?:{NAME} ?)+)|\blet ({NAME})")
# What names a field of a record's value, or the field or maker that a part of a definition declares.
LABEL = re.compile(rf"[{{;] ({NAME}) =|^ +(?:pub )?({NAME}) :")
# What names a field, a parameter, a clause, a method or a variant of a declared type, or stands behind a lambda.
DECLARED_LABEL = re.compile(
    r"\b(\w+) ?:(?!:)|\b(?:ghost|ensures|requires|fn) (\w+)|^ +(\w+)(?=[,({]| \{)|λ ([\w ]+)\.", re.M
)


def tokens(text):
    """The names in a text, but for those behind a dot."""
    return set(re.findall(r"(?<![\w.'-])" + NAME, text))


def parts_of(text):
    """A definition in parts: its head, and each of its fields, makers or equations."""
    return re.split(r"\n(?=\S|  (?:pub )?%s :)" % NAME, text)


def names_defined(text, own):
    """The names that a definition uses. What a part binds itself, or the head or a field before it does, isn't used."""
    text = re.sub(r"--.*", "", text)
    used, outer = set(), {own}
    is_record = re.match(r"(pub )?record ", text)
    for number, part in enumerate(parts_of(text)):
        bound = {name for groups in BINDER.findall(part) for name in " ".join(groups).split()}
        head = re.match(rf"{re.escape(own)} (.*?) =(?: |$)", part, re.M)
        if head:
            # The variables of an equation's left side. Its makers have a capital, or stand for a type by a dot.
            bound.update(name for name in tokens(re.sub(r"\w+\.[A-Z]", "", head[1])) if name[0].islower())
        used |= tokens(LABEL.sub("", part)) - bound - outer
        if number == 0:
            outer |= bound
        field = re.match(rf"  (?:pub )?({NAME}) :", part)
        if field and is_record:
            outer.add(field[1])
    return used


def names_declared(text, own):
    """The names that a declared type or a function's head uses, without its fields, parameters and labels."""
    text = re.sub(r"//.*|ghost use .*", "", text)
    labels = DECLARED_LABEL.findall(text)
    return tokens(text) - {own} - {name for groups in labels for name in " ".join(groups).split()}


class Item:
    """A definition or a declared type: where it stands, its lines, and what they need."""

    def __init__(self, file, name, lines):
        self.file, self.name = file, name
        self.lines = [line for line in lines if line.strip()]
        read = names_declared if file.path.endswith(".rt") else names_defined
        self.names = read("\n".join(self.lines), name)
        self.needs = []

    def makers(self):
        """The names of the makers of a `data`."""
        text = "\n".join(self.lines)
        return re.findall(rf"^  ({NAME}) :", text, re.M) if re.search("^(pub )?data ", text, re.M) else []


class File:
    """A file of specs/ or src/: its items by name, and what its `use` lines name, as pairs of a path and a name."""

    def __init__(self, crate, path):
        self.crate, self.path = crate, path
        self.items, self.used, self.makers = {}, {}, {}

    def add(self, name, lines):
        """Takes an item; a name that is taken already has a second text, as a type has a `Model`."""
        if name in self.items:
            lines = self.items[name].lines + lines
        self.items[name] = Item(self, name, lines)

    def note_use(self, line):
        """Takes what a `use` line of specifications names."""
        found = USED.search(line)
        if not found:
            return
        path, names, alias = found.groups()
        for entry in (names or "").split(","):
            name, _, other = entry.strip().partition(" as ")
            self.used[other or name] = (path, name)
        if alias:
            self.used[alias] = (path, "")


def read_definitions(crate, path):
    """A file of specs/. Each of its items begins at the margin, or in `mutual`, and takes the comment above it."""
    file = File(crate, path)
    text = open(path, encoding="utf-8").read()
    for block in re.findall(r"^mutual\n((?:  .*\n|\n)+)", text, re.M):
        text = text.replace("mutual\n" + block, re.sub("^  ", "", block, flags=re.M))
    name, lines, comment = None, [], []
    for line in text.split("\n") + ["end : "]:
        found = DEFINED.match(line)
        if line.startswith("--"):
            comment.append(line)
        elif re.match(r"(pub )?use |pub mod ", line):
            file.note_use(line)
            comment = []
        elif found:
            if name:
                file.add(name, lines)
            name, lines, comment = found[1] or found[2], comment + [line], []
        else:
            lines += comment + [line]
            comment = []
    file.makers = {maker: item for item in file.items.values() for maker in item.makers()}
    return file


def read_source(crate, path):
    """A file of src/: its structs, enums and traits, how contracts see them, and the clauses of the start."""
    file = File(crate, path)
    lines = open(path, encoding="utf-8").read().split("\n")
    for line in lines:
        if "ghost use" in line:
            file.note_use(line.strip())
    for path, names in re.findall(r"^(?:pub )?use ([\w:]+)::(\{[^}]*\}|\w+);", "\n".join(lines), re.M):
        for name in re.findall(r"\w+", names):
            file.used.setdefault(name, ("::" + path, name))
    for at, line in enumerate(lines):
        found = DECLARED.match(line)
        model = re.match(r"impl(?:<.*?>)? Model for (\w+)", line)
        if model:
            file.add(model[1], [text for text in lines[at : end_of(lines, at)] if "ghost use" not in text])
        elif found and (found[1] != "fn" or (crate, found[2]) == START):
            first = at
            while first and re.match(r"///|#\[", lines[first - 1]):
                first -= 1
            last = lines.index("{", at) if found[1] == "fn" else end_of(lines, at)
            file.add(found[2], lines[first:last])
    return file


def end_of(lines, at):
    """The line behind what begins at the margin at this line."""
    if lines[at].endswith((";", "}")):
        return at + 1
    return lines.index("}", at) + 1


class Tree:
    """All files of all crates, lowest crate first."""

    def __init__(self, top):
        self.top = top
        listed = open(os.path.join(top, "crates.txt"), encoding="utf-8").read()
        self.crates = re.findall(r"^(\w+):", listed, re.M)
        self.files, self.lost, self.outside = {}, set(), {}
        for crate in self.crates:
            for folder, read in (("src", read_source), ("specs", read_definitions)):
                self.read_folder(crate, os.path.join(top, "crates", crate, folder), read)

    def read_folder(self, crate, folder, read):
        """Reads the files of a folder; they are found by crate, kind of folder and their path in it."""
        for where, _, names in sorted(os.walk(folder)):
            for name in sorted(names):
                inside = os.path.relpath(os.path.join(where, name), folder)
                path, end = os.path.splitext(inside)
                if end in (".rt", ".antt") and "test" not in inside and name != "Lib.antt":
                    key = (crate, os.path.basename(folder), path.replace("/", "."))
                    self.files[key] = read(crate, os.path.join(where, name))

    def find(self, file, name):
        """The item that a name means in a file; None if the name isn't of the tree."""
        if name in file.items or name in file.makers:
            return file.items.get(name) or file.makers[name]
        path, meant = file.used.get(name, ("", ""))
        if path.startswith("::"):
            return self.find_type(file, path[2:], meant)
        crate, _, rest = path.partition(".")
        kind, _, rest = rest.partition(".")
        if crate not in self.crates:
            if path:
                self.outside.setdefault(path, set()).add(meant)
            return None
        if kind == "proofs":
            return None
        target, meant = self.named_file(crate, kind, rest, meant)
        item = self.find(target, meant) if target else None
        if not item:
            self.lost.add(f"{os.path.relpath(file.path, self.top)} uses {path} {meant}, which isn't found")
        return item

    def named_file(self, crate, kind, rest, meant):
        """The file that the path of a `use` leads to, and the name that is meant in it."""
        if rest.startswith("declared."):
            module, _, declared = rest.removeprefix("declared.").removesuffix(".TheVariants").rpartition(".")
            return self.files.get((crate, "src", module)), declared
        # The makers of a `data` are used by their type's name.
        return self.files.get((crate, kind, rest)) or self.files.get((crate, kind, rest.rpartition(".")[0])), meant

    def find_type(self, file, path, name):
        """The type that a `use` of a source means: of a module of its crate, or handed on by another one's `lib`."""
        first, _, module = path.partition("::")
        crate = file.crate if first in ("crate", "super") else first
        if (file.crate, "src", first) in self.files:
            crate, module = file.crate, first
        target = self.files.get((crate, "src", module.replace("::", ".") or "lib"))
        return self.find(target, name) if target and target is not file else None

    def reached(self):
        """All items that the start leads to, itself among them."""
        start = next(file.items[START[1]] for key, file in self.files.items()
                     if key[0] == START[0] and START[1] in file.items)
        found, waiting = {start}, [start]
        while waiting:
            item = waiting.pop()
            for name in sorted(item.names):
                # The laws of a record or a `data` begin with its name.
                other = self.find(item.file, name) or self.find(item.file, name.split("-")[0])
                if other and other is not item:
                    item.needs.append(other)
                    if other not in found:
                        found.add(other)
                        waiting.append(other)
        return found

    def in_order(self, found):
        """The files of these items, lowest crate first; in a crate each file after those that it uses."""
        order, seen = [], set()

        def put(file):
            if file in seen:
                return
            seen.add(file)
            needed = {other.file for item in file.items.values() if item in found for other in item.needs}
            for other in sorted(needed, key=lambda other: other.path):
                if other.crate == file.crate:
                    put(other)
            order.append(file)

        for crate in self.crates:
            for file in self.files.values():
                if file.crate == crate and any(item in found for item in file.items.values()):
                    put(file)
        return order


def rows_of(tree, page):
    """The rows of the page's tables: the number of each line, its text, and the files that it names."""
    for at, line in enumerate(page):
        cells = line.split(" | ")
        if line.startswith("| ") and len(cells) == 4 and "/specs/" in cells[2]:
            crate, files = None, []
            for path in re.findall(r"`([\w/]+)\.antt`", cells[2]):
                where, _, name = path.rpartition("/")
                crate = where.partition("/")[0] or crate
                files.append(tree.files.get((crate, "specs", name)))
            yield at, line, files


def marked(line, is_believed):
    """A row with its mark: what must be believed is bold."""
    name = re.match(r"\| (\*\*)?(.*?)(\*\*)? \| ", line)[2]
    rest = line[line.index(" | ") :]
    return f"| **{name}**{rest}" if is_believed else f"| {name}{rest}"


def faults_of(tree, found):
    """What is wrong with the page, and the page with right marks."""
    page = open(os.path.join(tree.top, PAGE), encoding="utf-8").read().split("\n")
    faults = sorted(tree.lost)
    stated = re.search(r"at most ([\d,]+) definitions in ([\d,]+) lines", " ".join(page))
    count, size = len(found), sum(len(item.lines) for item in found)
    if not stated:
        faults.append(f"{PAGE} states no limit")
    elif count > int(stated[1].replace(",", "")) or size > int(stated[2].replace(",", "")):
        faults.append(f"{PAGE} states at most {stated[1]} definitions in {stated[2]} lines")
    believed = {item.file for item in found}
    for at, line, files in rows_of(tree, page):
        right = marked(line, any(file in believed for file in files))
        if right != line:
            faults.append(f"{PAGE}, line {at + 1}: the row has a wrong mark: {line.split(' | ')[0][2:]}")
            page[at] = right
    return faults, "\n".join(page)


def print_files(tree, files, items):
    """A line for each file: its path, how many lines its items have, and their names in the file's order."""
    for file in files:
        own = [item for item in file.items.values() if item in items]
        size = sum(len(item.lines) for item in own)
        print(f"{os.path.relpath(file.path, tree.top)}: {size} lines: {', '.join(item.name for item in own)}")


def main(words, top):
    """Prints what a form asks for; answers the exit status."""
    tree = Tree(top)
    found = tree.reached()
    faults, page = faults_of(tree, found)
    if words == ["mark"]:
        with open(os.path.join(top, PAGE), "w", encoding="utf-8") as out:
            out.write(page)
        return 0
    files = tree.in_order(found)
    items = found
    if words == ["rest"]:
        files = [file for key, file in tree.files.items() if key[1] == "specs"]
        items = {item for file in files for item in file.items.values()} - found
        files = [file for file in files if any(item in items for item in file.items.values())]
    elif words:
        print(__doc__.split("\n")[2])
        return 1
    print_files(tree, files, items)
    size = sum(len(item.lines) for item in items)
    print(f"belief: {len(items)} definitions, {size} lines, {len(files)} files")
    if words:
        return 0
    for fault in faults:
        print(f"belief: {fault}")
    names = sum(len(names) for names in tree.outside.values())
    print(f"belief: {names} names of the kit, in {len(tree.outside)} of its files")
    print(f"belief: {len(faults)} faults")
    return 1 if faults else 0


if __name__ == "__main__":
    sys.exit(main(sys.argv[1:], os.path.dirname(os.path.dirname(os.path.abspath(__file__)))))
