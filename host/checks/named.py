"""What a page of docs names: paths below crates/, and names in backticks beside them.

- A path stands from the top (crates/..), or below the crate that the text speaks of, or below that crate's specs/. The
  text speaks of the crate last named before it in the same item or paragraph, by a path or by a `crate::name`; where
  none is named there, of the one in the heading. 'FILE of a, b and c' is the file of each of these crates.
- Names with a path right behind them, '`a`, `b` and `c` of FILE' or '`a`: FILE', are declared in that file, as
  'name : ..', 'record Name (..) : ..' or the like. Where the path is a folder, in some file of it.
- Of any other name in backticks, `crate::name` stands in that crate's src/, as a function where it begins small:
  `crate::Type::name` as one of an impl or trait of that very type. In the first cell of a table's row a name alone behind
  `crate::Type::name` is such a function too. Any other name alone stands somewhere in crates/*/specs or crates/*/src.
  Comments do not count.
- A link is the path of the file to which it leads, from the top.
"""
import re

from checks.contracts import closing, without_comments

PARTS = r"[\s(){}\[\],;.:⌜⌝⟦⟧«»λ<>&]+"
MARKS = r"\s*(?:(?:pub|unfoldable|abbrev|data|record) )*"
PATH = r"(?:(?:crates|specs|must-fail)(?:/[\w-]*\w)+(?:\.(?:antt|rt))?|[A-Z]\w*(?:/\w+)+\.antt)"
LINK = re.compile(r"\[[^\]\[]*\]\((?:\.\./)*([^()\s]*)\)")
OWNER = re.compile(r"^[ \t]*(?:pub(?:\([^)]*\))? +)?(?:unsafe +)?(?:impl|trait)\b([^{;]*)\{", re.M)
NAMES = r"`[\w:-]+`(?:(?:, | and |, and )`[\w:-]+`)*"


def code(path):
    """The lines of a file that are no comments."""
    return [line for line in path.read_text().splitlines() if not line.lstrip().startswith(("--", "//"))]


def sources(folder):
    return [folder] if folder.is_file() else sorted(p for p in folder.rglob("*") if p.suffix in (".antt", ".rt"))


def declares(path, name):
    start = re.compile(rf"{MARKS}{re.escape(name)}(?: \{{[^}}]*\}})?(?: \(.*?\))* :(?: |$)")
    return any(start.match(line) for file in sources(path) for line in code(file))


def words(folders):
    return {word for folder in folders for file in sources(folder) for line in code(file) for word in re.split(PARTS, line)}


def typed(header):
    """The type of an impl, or the trait itself, by what stands between the word and the brace."""
    plain = header.replace("->", "")
    while re.search(r"<[^<>]*>", plain):
        plain = re.sub(r"<[^<>]*>", "", plain)
    return re.match(r"(?:.* for )?(?:\w+::)*(\w+)", plain.strip())[1]


def functions_in(src):
    """The functions of a crate, as pairs of a type and a name: each with no type, and with that of its impl or trait."""
    for file in sorted(src.rglob("*.rt")):
        text = without_comments(file.read_text())
        for name in re.findall(r"\bfn\s+(\w+)", text):
            yield None, name
        for owner in OWNER.finditer(text):
            block = text[owner.end() - 1 : closing(text, owner.end() - 1)]
            for name in re.findall(r"\bfn\s+(\w+)", block):
                yield typed(owner[1]), name


def blocks(page):
    """Each item, paragraph or row of a table in one line, with the heading above it."""
    heading, lines = "", []
    for line in page.splitlines() + [""]:
        if lines and (not line.strip() or line.startswith(("- ", "#", "|"))):
            yield heading, LINK.sub(r"\1", " ".join(lines))
            lines = []
        if line.startswith("#"):
            heading = line.lstrip("# ")
        elif line.strip():
            lines.append(line.strip())


class Page:
    def __init__(self, top):
        self.top = top
        self.crates = {p.name for p in top.glob("crates/*")}
        self.everywhere = words(p for part in ("specs", "src") for p in top.glob(f"crates/*/{part}"))
        self.count = 0
        self.known = {}

    def functions(self, crate):
        if crate not in self.known:
            self.known[crate] = set(functions_in(self.top / "crates" / crate / "src"))
        return self.known[crate]

    def places(self, heading, text, found):
        """The crates below which a path stands."""
        crate = f"(?:{'|'.join(sorted(self.crates))})"
        behind = re.match(rf" of ({crate}(?:(?:, | and ){crate})*)\b", text[found.end():])
        if behind:
            return re.split(", | and ", behind[1])
        before = re.findall(r"crates/(\w+)|`(\w+)::", text[:found.start()])
        named = [a or b for a, b in before if (a or b) in self.crates]
        return named[-1:] or [heading]

    def resolve(self, heading, text, found):
        """The places that a path means; those that are not there are None."""
        path = found[0]
        if path.startswith("crates/"):
            bases = [self.top]
        else:
            bases = [self.top / "crates" / crate for crate in self.places(heading, text, found)]
        for base in bases:
            tried = (base / path, base / "specs" / path, base / f"{path}.edit")
            yield next((t for t in tried if t.exists()), None)

    def faults(self, heading, text):
        beside = set()
        for found in re.finditer(PATH, text):
            self.count += 1
            for place in self.resolve(heading, text, found):
                if place is None:
                    yield f"{found[0]} is not there"
                    continue
                names = re.search(rf"({NAMES})(?: of |: )$", text[:found.start()])
                for name in re.findall(r"`([^`]+)`", names[1]) if names else []:
                    beside.add(name)
                    if not declares(place, name):
                        yield f"{name} is not declared in {found[0]}"
        first = text[: text.find(" |", 1)] if text.startswith("| ") else ""
        behind = None
        for found in re.finditer(r"`([\w:-]+)`", text):
            self.count += 1
            name = found[1]
            if name in beside:
                continue
            path, _, last = name.rpartition("::")
            crate, _, inner = path.partition("::")
            owner = inner.rpartition("::")[2]
            if crate and last not in words([self.top / "crates" / crate / "src"]):
                yield f"{name} is not in the code of crates/{crate}"
            elif crate and last[0].islower() and (owner if owner[:1].isupper() else None, last) not in self.functions(crate):
                yield f"{name} is no function of crates/{crate}"
            elif not crate and found.end() <= len(first) and behind and (behind[1], name) not in self.functions(behind[0]):
                yield f"{name} is no function of {behind[1]} in crates/{behind[0]}"
            elif not crate and name not in self.everywhere:
                yield f"{name} is in no crate"
            if crate:
                behind = (crate, owner) if owner[:1].isupper() else None


def named(top, name):
    """How many names and paths the page docs/NAME has, and what is wrong with them."""
    page = Page(top)
    wrong = [f for heading, text in blocks((top / "docs" / name).read_text()) for f in page.faults(heading, text)]
    if page.count == 0:
        wrong.append(f"docs/{name} names nothing")
    return page.count, wrong
