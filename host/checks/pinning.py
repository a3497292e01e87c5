"""What pins a definition: which named rows, wrong readings and theorems name it. Used by rules, which writes it into docs/RULES.md.

A named row is `row "NAME" GIVEN SAID same` in a table, a declaration of the type Pinned or List Row of crates/conformance
and crates/pinned. It names a definition where its GIVEN does, or a name of these crates or of crates/tables of which
GIVEN is made. A wrong reading or a sample names what its declarations name; a theorem what its statement names.
"""
import collections
import pathlib
import re

from checks.specs import Declaration, House

TABLES = ("conformance", "pinned", "tables")
# words of no rule, of which the others are made
WORDS = ("ground",)
TRIED = {"Wrong", "Samples", "Examples"}
APART = {"Laws", "Theorems", "Proofs", "Opened", "Inner", "Lib"} | TRIED
ROW = re.compile(r'(?<![^\s(])row "((?:\\.|[^"\\])*)"\s+')


def rooms(file):
    return set(pathlib.PurePath(file).with_suffix("").parts[2:])


def argument(text, at):
    """The argument that begins at a place of the text, and the place behind it."""
    depth, start = 0, at
    for word in re.compile(r'"(?:\\.|[^"\\])*"|[(){}]|\s+|[^\s(){}"]+').finditer(text, at):
        depth += (word[0] in "({") - (word[0] in ")}")
        if depth == 0 and not word[0].isspace():
            return text[start:word.end()], word.end()
    raise ValueError(text[start:start + 60])


class Row:
    def __init__(self, name, given, said):
        self.name, self.given, self.said = name, given, said


class Table:
    """A table of named rows: its declaration, the sentence that its rows pin, where it has one, and the rows."""

    def __init__(self, declaration):
        self.declaration, self.name, self.file = declaration, declaration.name, declaration.file
        text = "\n".join(declaration.clauses)
        sentence = re.search(r'\bpins "([^"]*)"', text)
        self.sentence, self.rows, at = sentence[1] if sentence else "", [], 0
        while found := ROW.search(text, at):
            given, at = argument(text, found.end())
            said, at = argument(text, at + 1)
            self.rows.append(Row(found[1], given, said))


def tables(house):
    for name in sorted(house.files):
        if name.split("/")[0] in TABLES:
            for d in house.files[name].declarations:
                if re.search(r" : (Pinned|List Row)$", d.signature[0]) and d.clauses:
                    yield Table(d)


def link(file):
    return f"[{file[:-len('.antt')].replace('/specs/', '/')}](../crates/{file})"


def counted(rows):
    """The tables of some rows, each with how many of them it has."""
    return ", ".join(f"`{table}` {many}" for table, many in collections.Counter(table for table, _ in rows).items())


class Pins:
    def __init__(self, top):
        self.top, self.house = top, House(top)
        self.tables = list(tables(self.house))
        # by definition, the files and the names of what names it; and where a row stands in its file
        self.rows, self.tried, self.proved, self.places = ({} for _ in range(4))
        for table in self.tables:
            for number, row in enumerate(table.rows):
                name = (table.name, f'"{row.name}"')
                self.places[table.file, name] = (table.declaration.line, number)
                self.note(self.rows, self.of_row(table, number, row), table.file, name)
        page = (top / "docs/RULES.md").read_text().split("## What pins a definition")[0]
        cited = set(re.findall(r"`([\w-]+)`", page))
        for name, file in self.house.files.items():
            crate = name.split("/")[0]
            for d in file.declarations:
                if crate not in TABLES and rooms(name) & TRIED:
                    self.note(self.tried, self.own(self.house.references(d)), name, "")
                elif d.name in cited and not d.defines and ("Theorems" in rooms(name) or crate in TABLES):
                    self.note(self.proved, self.own(self.house.references(d)), name, d.name)

    @staticmethod
    def note(where, definitions, file, name):
        for key in definitions:
            where.setdefault(key, []).append((file, name))

    def own(self, found):
        """The definitions among what is named, the names of tables opened down to what they are made of."""
        keys, seen, todo = {}, set(), list(found)
        while todo:
            one = todo.pop()
            if isinstance(one, tuple) or one.key in seen:
                continue
            seen.add(one.key)
            if one.file.split("/")[0] in TABLES:
                todo += self.house.references(one)
            else:
                keys[one.key] = one
        return keys

    def of_row(self, table, number, row):
        said = Declaration(table.file, {"abbrev"}, f"{table.name} {number}", table.declaration.chain, [], table.declaration.line, "")
        said.clauses = [re.sub(r'"(?:\\.|[^"\\])*"', '""', row.given)]
        return self.own(self.house.references(said))

    def crates(self):
        """The crates with definitions, in the order of crates.txt, and these."""
        for crate in re.findall(r"(?m)^(\w+):", (self.top / "crates.txt").read_text()):
            made = [d for name in sorted(self.house.files) if name.startswith(f"{crate}/specs/") and not rooms(name) & APART
                for d in self.house.files[name].declarations if d.defines and "pub" in d.marks]
            if made and crate not in TABLES + WORDS:
                yield crate, made

    def naming_files(self, where, made):
        """What names some definitions: the files, and in each the names of what does."""
        found = {}
        for d in made:
            for file, name in where.get(d.key, []):
                found.setdefault(file, {})[name] = True
        return sorted((file, sorted(names, key=lambda name: self.places.get((file, name), (0, 0)))) for file, names in found.items())

    def text(self):
        """The table of docs/RULES.md."""
        lines = ["| Definitions of | Named rows | Wrong readings and samples | Theorems | Named by none of these |", "|---|---|---|---|---|"]
        for crate, made in self.crates():
            rows = "; ".join(f"{counted(names)} of {link(file)}" for file, names in self.naming_files(self.rows, made))
            tried = ", ".join(link(file) for file, _ in self.naming_files(self.tried, made))
            proved = ", ".join(f"`{name}`" for name in dict.fromkeys(name for _, names in self.naming_files(self.proved, made) for name in names))
            none = ", ".join(f"`{n}`" for n in dict.fromkeys(d.name for d in made if not any(d.key in where for where in (self.rows, self.tried, self.proved))))
            lines.append(f"| [{crate}](../crates/{crate}) | {rows} | {tried} | {proved} | {none} |")
        return re.sub(r"\|  (?=\|)", "| ", "\n".join(lines)) + "\n"

    def naming(self, name):
        """What names a definition of this name, one thing a line."""
        for d in sorted((d for file in self.house.files.values() for d in file.declarations if d.name == name and d.defines), key=lambda d: d.file):
            for what, where in (("row", self.rows), ("wrong reading or sample", self.tried), ("theorem", self.proved)):
                for file, said in where.get(d.key, []):
                    yield "\t".join((f"crates/{d.file}", name, what, f"crates/{file}", " ".join(said) if isinstance(said, tuple) else said)).rstrip()
