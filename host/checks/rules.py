"""rules [FOLDER]: docs/RULES.md leads from each rule to what states, proves and tries it.
rules -w [FOLDER]: writes its table of what pins a definition. rules -d NAME [FOLDER]: what names a definition, one a line.

- What it names is there, as named.py says.
- Words in double quotes are the name of a row of a table of crates/conformance or crates/pinned.
- No two rows of a table have one name, and every table of crates/pinned says the sentence that it pins.
- Its table of what pins a definition, which stands behind the line MARK, is as -w writes it (pinning.py).
- Every file of definitions that cites a rule is named. A file of definitions stands in a crate's specs/ and declares
  something; laws, theorems, proofs, wrong readings, samples and the tables of conformance do not count. It cites a rule
  where a comment has '(01', 'the minutes', 'R-' and a number, a request's number, or words in quotes.
"""
import re

from checks.named import named
from checks.pinning import Pins

CITES = re.compile(r"^\s*--.*(\(01|the minutes|\bR-\d|\b2026-\d\d|(?<!\w)'[^']+')", re.M)
APART = {"Laws", "Theorems", "Proofs", "Wrong", "Samples", "Refusals"}
MARK = "<!-- The table below is written by host/check rules -w. -->\n\n"
DECLARES = re.compile(r"^\s*(?:(?:abbrev|unfoldable) pub|pub record|pub data) ", re.M)


def definitions(top):
    """The files of definitions that cite a rule."""
    for path in sorted(top.glob("crates/*/specs/**/*.antt")):
        text = path.read_text()
        folders = path.relative_to(top).parts[3:-1]
        if path.stem != "Wrong" and APART.isdisjoint(folders) and CITES.search(text) and DECLARES.search(text):
            yield path.relative_to(top).as_posix()


def with_pins(text, pins):
    """The page with the table of what pins a definition as it is now; without the mark the page as it stands."""
    before, mark, behind = text.partition(MARK)
    return before + mark + re.sub(r"\A(?:\|[^\n]*\n)*", lambda _: pins.text(), behind) if mark else text


def of_tables(pins):
    """What is wrong with the tables themselves."""
    for table in pins.tables:
        names = [row.name for row in table.rows]
        yield from (f"crates/{table.file}: two rows of {table.name} are named {name}" for name in sorted(set(names)) if names.count(name) > 1)
        if table.file.startswith("pinned/") and not table.sentence:
            yield f"crates/{table.file}: {table.name} says no sentence that it pins"


def tell_one(top, name):
    print("\n".join(Pins(top).naming(name)))


def write(top):
    page = top / "docs/RULES.md"
    page.write_text(with_pins(page.read_text(), Pins(top)))
    return True


OPTIONS = {"-w": (0, write), "-d": (1, tell_one)}


def check(top):
    page, pins = top / "docs/RULES.md", Pins(top)
    count, wrong = named(top, "RULES.md")
    text = " ".join(page.read_text().split())
    there = {row.name for table in pins.tables for row in table.rows}
    cited = re.findall(r'"([^"]+)"', text)
    wrong += [f"no row is named {row}" for row in cited if row not in there]
    wrong += [f"{path} is not named" for path in definitions(top) if path not in text]
    wrong += of_tables(pins)
    if page.read_text() != with_pins(page.read_text(), pins):
        wrong.append("docs/RULES.md is not current in what pins a definition: host/check rules -w writes it")
    return f"docs/RULES.md leads to every rule\tnames and paths {count}\trows {len(cited)} of {len(there)}", wrong
