"""believed [FOLDER]: what must be believed stands where definitions stand, and docs/BELIEVED.md lists it.
believed -w [FOLDER]: writes that page. believed -s [FOLDER]: the strays, one a line.
believed -d NAME [FOLDER]: each definition that the statement of a theorem needs, with its lines, one a line.

The statements are those of the theorems that docs/RULES.md and docs/PROMISES.md name, what is tried by examples aside, and the
contracts of public functions. What a statement needs is its closure over definitions: each that it names, each that these
name, and the types of src/ (specs.py). That has to be read to know what is proved, and nothing else has.

- No definition of the closure stands below Laws, Proofs or Theorems, or in a file of such a name. A name that a module of
  Theorems gives to a part of its own statements (an abbrev that is not public) is read with them, and may stay.
- No theorem that the pages name stands below Laws or Proofs.
- The strays that are still to be moved are the lines of host/data/still-to-move.txt. That list only shrinks: one of it that
  is no stray any more is a fault too.
- docs/BELIEVED.md is as -w writes it.
"""
import collections
import pathlib
import re
import textwrap

from checks import named
from checks.contracts import functions, module_path
from checks.specs import TOKEN, File, House

PAGES = ("RULES.md", "PROMISES.md")
APART = {"Laws", "Proofs", "Theorems"}
COMPUTED = {"Wrong", "Samples", "Examples", "Opened"}
ELSE = "Every other rule and promise"
# of RULES: what is tried, and once more the theorems that the page names above
PINS = "What pins a definition"
CONTRACTS = "Contracts of public functions"
INTRO = """# What must be believed

Made by host/checks/believed.py, which the gate asks whether this page is current; `host/check believed -w` writes it
anew.

A theorem says what its statement says, and a statement is read with the definitions that it names, those that they name
in turn, and the types of the code. These lines have to be believed to know what is proved. Laws, proofs and every other
definition need not be read, since the check reads them. The kit's own words (lists, numbers, bits) are not counted.

Below are the theorems that [docs/RULES.md](RULES.md) and [docs/PROMISES.md](PROMISES.md) name, by demand and request;
one that serves several is under each. Last come the definitions that the contracts of public functions name. Behind a
crate stands the number of its lines, without comments and empty lines, then the number in each file below its specs/
(in src/ the lines of types). `host/check believed -d NAME` prints the definitions behind one theorem.
"""


def rooms(file):
    return set(pathlib.PurePath(file).with_suffix("").parts[2:])


def computed(file):
    """Whether a file has examples, of which nobody has to believe anything: a room of such, or the crate of rows that pin."""
    return bool(rooms(file) & COMPUTED) or file.startswith("pinned/")


def cells(text):
    """The cells of a row of a table; of any other block, itself."""
    return text.strip("| ").split("|") if text.startswith("|") else [text]


def proved_part(text):
    """A row of a table without its fourth cell, what is tried, which nobody has to believe."""
    return "|".join(cells(text)[:3])


def titles(page, heading, text):
    """The demands and requests of which a block of a page speaks."""
    first = cells(text)[0]
    found = []
    if "demands" in heading:
        found += [f"Item {n} of the minutes" for n in re.findall(r"\*\*[^*]*\*\* \([^)]*item (\d)\)|\(item (\d)\)\.\*\*", first) for n in n if n]
        found += [f"Demand {n}" for n in re.findall(r"\*\*Demand (\d)", first)]
    said = heading + " " + (first if page == "RULES.md" else "")
    return found + [f"Request {n}" for n in sorted(set(re.findall(r"2026-\d\d", said)))] or [ELSE]


class Pages:
    """The declarations that the pages name, by title."""

    def __init__(self, top, house):
        self.house, self.top, self.sections = house, top, {}
        page = named.Page(top)
        for name in PAGES:
            path = top / "docs" / name
            for heading, text in named.blocks(path.read_text()) if path.exists() else ():
                if heading == PINS:
                    continue
                roots = {d.key: d for d in self.roots(page, heading, proved_part(text))}
                for title in titles(name, heading, text):
                    self.sections.setdefault(title, {}).update(roots)
        contracts = {d.key: d for d in self.contracts()}
        if contracts:
            self.sections[CONTRACTS] = contracts
        self.all = {key: d for section in self.sections.values() for key, d in section.items()}

    def contracts(self):
        """What the contracts of public functions name."""
        for path in sorted(self.top.glob("crates/*/src/**/*.rt")):
            src = self.top / "crates" / self.inside(path).split("/")[0] / "src"
            text = path.read_text()
            brought = File("src", "\n".join(re.findall(r"(?m)^\s*ghost use .*", text))).brought
            for function in functions(text, module_path(path, src)):
                for name in {part for token in TOKEN.findall(function.contract) for part in token.split(".")} & set(brought):
                    yield from (d for d in self.house.brought(*brought[name]) if not isinstance(d, tuple))

    def roots(self, page, heading, text):
        beside, files = set(), []
        for found in re.finditer(named.PATH, text):
            places = [self.inside(p) for p in page.resolve(heading, text, found) if p]
            files += places
            names = re.search(rf"({named.NAMES})(?: of |: )$", text[:found.start()])
            for name in re.findall(r"`([^`]+)`", names[1]) if names else []:
                beside.add(name)
                for place in places:
                    yield from self.there(place, name)
        for name in sorted(set(re.findall(r"`([\w-]+)`", text)) - beside):
            near = [d for place in files for d in self.there(place, name)]
            yield from near or [d for f in self.house.files if f.startswith(f"{heading}/specs/Theorems") for d in self.there(f, name)]

    def inside(self, path):
        crates = self.top / "crates"
        return path.relative_to(crates).as_posix() if crates in path.parents else ""

    def there(self, place, name):
        """What is declared by a name in a file, or in the files of a folder."""
        files = [f for f in self.house.files if place and (f == place or f.startswith(place + "/"))]
        return [d for f in files if not computed(f) for d in self.house.named_in[f].get(name, [])]


def strays(house, pages):
    """Each stray and what it is."""
    found = {}
    for key, one in house.closure(pages.all.values()).items():
        if isinstance(one, tuple):
            continue
        name = f"{one.file} {one.name}"
        if one.defines and rooms(one.file) & APART:
            of_its_module = "Theorems" in rooms(one.file) and one.chain and one.marks == {"abbrev"}
            if not of_its_module:
                found[name] = "must be believed, and stands among proofs"
        elif not one.defines and key in pages.all and rooms(one.file) & {"Laws", "Proofs"}:
            found[name] = "is a theorem that the pages name, and stands among laws"
    return dict(sorted(found.items()))


def counted(house, roots):
    """The lines that some statements need, by crate and file."""
    lines = collections.defaultdict(collections.Counter)
    modules = set()
    for one in house.closure(roots).values():
        if isinstance(one, tuple):
            file, many = house.types[one]
            lines[one[0]][file.split("/", 1)[1]] += many
            continue
        crate, inside = one.file[:-len(".antt")].split("/specs/")
        lines[crate][inside] += one.lines
        for module in one.chain:
            if (one.file, module) not in modules:
                modules.add((one.file, module))
                lines[crate][inside] += 1
    return lines


def rank(title):
    return ["Item", "Demand", "Request", "Every", "Contracts"].index(title.split()[0]), title


def wrapped(text):
    return textwrap.fill(text, 120, subsequent_indent="  ", break_long_words=False, break_on_hyphens=False)


def page(house, pages):
    sections = sorted(pages.sections.items(), key=lambda item: rank(item[0]))
    said = [INTRO, "| | Theorems and definitions named | Lines | Files |", "|---|---|---|---|"]
    bodies = []
    for title, roots in sections + [("All together", pages.all)]:
        lines = counted(house, roots.values())
        files = sum(len(files) for files in lines.values())
        said.append(f"| {title} | {len(roots)} | {sum(sum(f.values()) for f in lines.values()):,} | {files} |")
        if title == "All together":
            continue
        bodies += ["", f"## {title}", ""]
        proved = collections.defaultdict(list)
        for d in roots.values():
            if not d.defines:
                proved[d.file[:-len(".antt")].replace("/specs/", "/")].append(d.name)
        if proved and title != ELSE:
            bodies += [wrapped("Proved: " + "; ".join(f"{', '.join(f'`{n}`' for n in sorted(set(names)))} of {file}" for file, names in sorted(proved.items())) + "."), ""]
        for crate, files in sorted(lines.items(), key=lambda item: (-sum(item[1].values()), item[0])):
            each = ", ".join(f"{file} {many}" for file, many in sorted(files.items()))
            bodies.append(wrapped(f"- {crate} {sum(files.values()):,}: {each}"))
    return "\n".join(said + bodies) + "\n"


def read(top):
    house = House(top)
    return house, Pages(top, house)


def tell_one(top, name):
    house, pages = read(top)
    roots = [d for d in pages.all.values() if d.name == name]
    for one in sorted(house.closure(roots).values(), key=lambda d: ("", d) if isinstance(d, tuple) else (d.file, ("", d.line))):
        if isinstance(one, tuple):
            print(f"crates/{house.types[one][0]}", one[1], "a type", sep="\t")
        else:
            print(f"crates/{one.file}:{one.line}", one.name, f"{one.lines} lines", sep="\t")


def tell_strays(top):
    print("\n".join(strays(*read(top))))


def write(top):
    (top / "docs/BELIEVED.md").write_text(page(*read(top)))
    return True


OPTIONS = {"-w": (0, write), "-s": (0, tell_strays), "-d": (1, tell_one)}


def check(top):
    house, pages = read(top)
    found = strays(house, pages)
    listed = top / "host/data/still-to-move.txt"
    known = [l for l in listed.read_text().splitlines() if l and not l.startswith("#")] if listed.exists() else []
    wrong = [f"crates/{stray.replace(' ', ': ')} {what}" for stray, what in found.items() if stray not in known]
    wrong += [f"{stray} is no stray any more: host/data/still-to-move.txt" for stray in known if stray not in found]
    if set(pages.sections) <= {ELSE, CONTRACTS}:
        wrong.append("the pages name no demand and no request")
    written = top / "docs/BELIEVED.md"
    if not written.exists() or written.read_text() != page(house, pages):
        wrong.append("docs/BELIEVED.md is not current: host/check believed -w writes it")
    return f"what must be believed stands among definitions\ttheorems and definitions named {len(pages.all)}\tstill to move {len(known)}", wrong
