"""Reads the files of specs/ as declarations, and says what each names. Used by believed, opened and others.

A declaration's text is its signature with the parameters of the modules round it; of a definition also its clauses. Names
that the text binds itself (parameters, λ, let, the left side of a clause, fields) are no references.
"""
import pathlib
import re

START = re.compile(r"((?:unfoldable |abbrev |axiom |pub )*)(?:(data|record) )?([^\s(){}:]+)((?: \{[^}]*\}| \((?:[^()]|\([^()]*\))*\))*) :(?: |$)")
USE = re.compile(r"\s*((?:pub |ghost |unfoldable )*)use\s+([^\s{;]+?)(?:\.\{([^}]*)\}|\s+as\s+([^\s;]+))?\s*;?\s*$")
MODULE = re.compile(r"\s*(?:pub )?module (\S+)")
TOKEN = re.compile(r"[^\s(){}\[\],;«»λ]+")
NO_NAMES = ("use", "mod", "module", "unfolding", "where", "let", "in")
THINGS = ("List", "ℕ", "Bool", "Type", "String", "Option", "Bytes", "Rows", "Epoch", "Tag")


class Declaration:
    def __init__(self, file, marks, name, chain, headers, line, text):
        self.file, self.marks, self.name, self.chain, self.headers, self.line = file, marks, name, chain, headers, line
        self.signature, self.unfolds, self.clauses = [text], [], []

    @property
    def key(self):
        return self.file, self.chain, self.name

    @property
    def lines(self):
        return len(self.signature) + (len(self.clauses) if self.defines else 0)

    @property
    def target(self):
        """The first word of what the type ends in."""
        whole = " ".join(line.strip() for line in self.signature)
        depth, last = 0, whole.find(" : ") + 3
        for at, sign in enumerate(whole):
            depth += (sign in "({") - (sign in ")}")
            if sign == "→" and depth == 0:
                last = at + 1
        found = TOKEN.search(whole, last)
        return found[0] if found and "≡" not in whole[last:] else ""

    @property
    def defines(self):
        """Whether a reader must believe more of it than its statement: a definition, or a thing that is not unfolded."""
        return bool(self.marks & {"unfoldable", "abbrev", "data", "record"}) or self.target in THINGS


def code(path):
    """A file's text with its comments blank."""
    comment = r"//.*$" if path.suffix == ".rt" else r"(^|(?<=\s))--(?=\s|$).*$"
    return re.sub("(?m)" + comment, "", path.read_text())


class File:
    """A file of specs/, its comments blank: what it declares and what its use lines bring in."""

    def __init__(self, name, text):
        self.name = name
        self.brought, self.opened, self.handed_on = {}, {}, {}
        self.declarations = []
        modules, current, in_header, unfolding = [], None, False, False
        for number, line in enumerate(text.split("\n"), 1):
            if not line.strip():
                continue
            indent = len(line) - len(line.lstrip())
            if in_header:
                modules[-1][2].append(line)
                in_header = not line.rstrip().endswith("where")
                continue
            while modules and indent <= modules[-1][0]:
                modules.pop()
            inner = modules[-1][0] + 2 if modules else 0
            used = USE.match(line)
            if used and indent == inner:
                self.bring(*used.groups())
                current = None
                continue
            if re.match(r"\s*(pub )?mod \S+\s*$", line):
                continue
            if indent == inner and MODULE.match(line):
                modules.append((indent, (MODULE.match(line)[1], number), [line]))
                in_header = not line.rstrip().endswith("where")
                current = None
                continue
            start = START.match(line.lstrip()) if indent == inner else None
            if start and start[3] not in NO_NAMES:
                marks = set((start[1] + (start[2] or "")).split())
                headers = [l for _, _, header in modules for l in header]
                current = Declaration(name, marks, start[3], tuple(m[1] for m in modules), headers, number, line)
                current.open = True
                self.declarations.append(current)
                unfolding = False
            elif current is None:
                continue
            elif indent > inner and current.open:
                current.signature.append(line)
            else:
                current.open = False
                if indent == inner:
                    unfolding = line.lstrip().startswith("unfolding ")
                (current.unfolds if unfolding else current.clauses).append(line)

    def bring(self, marks, path, listed, alias):
        if re.match(r"[A-Z]\w*(\.|$)", path) and not path.startswith(("Rattle.", "Prim.")):
            crate, _, inside = self.name[:-len(".antt")].partition("/specs/")
            path = f"Rattle.{crate}.specs.{inside.replace('/', '.')}.{path}"
        if listed is None:
            self.opened[alias or path.split(".")[-1]] = path
            return
        for item in listed.split(","):
            words = item.split()
            if words:
                self.brought[words[-1]] = (path, words[0])
                if "pub" in marks:
                    self.handed_on[words[-1]] = (path, words[0])


def bound(text, name):
    """The names that a declaration's text binds itself."""
    names = set()
    for found in re.finditer(r"[({]\s*([^\s(){}:.]+(?:\s+[^\s(){}:.]+)*)\s+:(?=\s)", text):
        names.update(found[1].split())
    for found in re.finditer(r"λ((?:\s*\((?:[^()]|\([^()]*\))*\)|\s*[^\s().]+)+)\s*\.", text):
        names.update(re.sub(r":[^()]*", "", found[1]).replace("(", " ").replace(")", " ").split())
    for found in re.finditer(r"\blet\s+([^\s:=]+)", text):
        names.add(found[1])
    for found in re.finditer(rf"(?m)^\s*{re.escape(name)}((?:\s.*?)?)\s=(?:\s|$)", text):
        names.update(t for t in TOKEN.findall(found[1]))
    return names


def fields(declaration):
    """The names of a record's fields or of a choice's constructors."""
    return {m[1] for line in declaration.signature[1:] for m in [re.match(r"\s+(?:pub )?([^\s(){}:]+) :(?=\s|$)", line)] if m}


def shared(one, other):
    """What two chains of modules have in common."""
    return [a for a, b in zip(one, other) if a == b]


def visible(declaration, user):
    """Whether a later declaration of the file sees one by its name alone: modules with a name are opened inside alone."""
    return all(module in user.chain or module[0] == "_" for module in declaration.chain)


class House:
    """All files of specs/ below a folder crates/, and the types that src/ declares."""

    def __init__(self, top):
        self.top = pathlib.Path(top)
        self.files, self.types = {}, {}
        for path in sorted(self.top.glob("crates/*/specs/**/*.antt")):
            name = path.relative_to(self.top / "crates").as_posix()
            self.files[name] = File(name, code(path))
        for path in sorted(self.top.glob("crates/*/src/**/*.rt")):
            crate = path.relative_to(self.top / "crates").parts[0]
            text = code(path)
            for found in re.finditer(r"(?ms)^\s*(?:pub(?:\(crate\))? )?(?:struct|enum) (\w+)[^{;]*(?:\{.*?^\s*\}|\([^)]*\);)", text):
                lines = [l for l in found[0].split("\n") if l.strip() and not l.strip().startswith("#")]
                self.types[crate, found[1]] = (path.relative_to(self.top / "crates").as_posix(), len(lines))
        self.named_in = {n: {} for n in self.files}
        for name, file in self.files.items():
            for d in file.declarations:
                self.named_in[name].setdefault(d.name, []).append(d)
        self.said = {}

    @staticmethod
    def place(path):
        """The crate and the file below its specs/ that a path of a use line means, or None."""
        found = re.match(r"Rattle\.([a-z0-9_]+)\.specs\.(.+)$", path)
        return (found[1], found[2]) if found else None

    def brought(self, path, name):
        """What a use line brings in: declarations or types of src/."""
        place = self.place(path)
        if not place:
            return []
        crate, inside = place
        if inside.startswith("declared."):
            parts = inside.split(".")
            return [(crate, t) for t in (name, parts[-1], parts[-2]) if (crate, t) in self.types][:1]
        file = f"{crate}/specs/{inside.replace('.', '/')}.antt"
        if file in self.files:
            there = [d for d in self.named_in[file].get(name, []) if not d.chain] or self.named_in[file].get(name, [])
            if there:
                return there
            if name in self.files[file].handed_on:
                return self.brought(*self.files[file].handed_on[name])
            return [d for d in self.files[file].declarations if name in fields(d)]
        if "." in inside:
            outer, _, holder = inside.rpartition(".")
            return self.brought(f"Rattle.{crate}.specs.{outer}", holder)
        return []

    def references(self, declaration):
        """The declarations and types that a declaration's text names."""
        if declaration.key in self.said:
            return self.said[declaration.key]
        file = self.files[declaration.file]
        lines = declaration.headers + declaration.signature + (declaration.clauses if declaration.defines else [])
        text = "\n".join(lines)
        own = bound(text, declaration.name)
        if declaration.marks & {"record", "data"}:
            own |= fields(declaration)
        text = re.sub(r"([{;]\s*)[^\s=;{}]+(?=\s+=\s)", r"\1", text)
        operators = {}
        for name in list(file.brought) + [d.name for d in file.declarations]:
            if "◌" in name:
                for part in name.split("◌"):
                    if part:
                        operators[part] = name
        found = []
        for token in set(TOKEN.findall(text)):
            token = token[:-1] if token.endswith(".") else token
            if not token or token.startswith("."):
                continue
            if "." in token:
                alias, _, name = token.rpartition(".")
                if alias in file.opened:
                    found += self.brought(file.opened[alias], name)
                    continue
                # a part that is taken of a thing, x.part
                token = token.partition(".")[0]
            if token in own and token not in file.brought or token == declaration.name:
                continue
            token = token if token in file.brought or token in self.named_in[declaration.file] else operators.get(token, token)
            here = [d for d in self.named_in[declaration.file].get(token, []) if d.line < declaration.line and visible(d, declaration)]
            if here and token not in own:
                found.append(max(here, key=lambda d: (len(shared(d.chain, declaration.chain)), d.line)))
            elif token in file.brought:
                found += self.brought(*file.brought[token])
        self.said[declaration.key] = found
        return found

    def closure(self, roots):
        """All declarations and types that the statements of some need, with them."""
        seen, todo = {}, list(roots)
        while todo:
            one = todo.pop()
            key = one if isinstance(one, tuple) else one.key
            if key in seen:
                continue
            seen[key] = one
            if not isinstance(one, tuple):
                todo += self.references(one)
        return seen
