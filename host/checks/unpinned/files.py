"""Reads the files of specs/: what each declares, and what a name in it means."""
import re

from checks.unpinned.reading import tokens

# files that are no definitions: what is proved of them, what is tried, and what examples open
APART = ("Laws", "Theorems", "Proofs", "Samples", "Wrong", "Lib", "Clock", "Opened")


class Definition:
    def __init__(self, module, name, number, parameters):
        self.module, self.name, self.number, self.parameters = module, name, number, parameters
        self.signature, self.clauses, self.arity = None, [], None

    def title(self):
        return f"{self.module.title}.{self.name}"


class Module:
    def __init__(self, top, path):
        self.path = path
        parts = path.relative_to(top / "crates").with_suffix("").parts
        self.crate, self.parts = parts[0], parts[2:]
        self.title = f"{self.crate}.{'.'.join(self.parts)}"
        self.text = path.read_text()
        self.definitions, self.imports, self.aliases, self.constructors, self.types = {}, {}, {}, {}, set()
        self.passed = []

    def apart(self):
        return any(p in APART for p in self.parts)


class House:
    def __init__(self, top):
        self.modules, self.definitions, self.structs, self.variants = {}, [], {}, {}
        self.crates = {path.name for path in (top / "crates").glob("*")}
        for path in sorted((top / "crates").glob("*/specs/**/*.antt")):
            m = Module(top, path)
            self.modules[(m.crate,) + m.parts] = m
        for m in self.modules.values():
            self.read(m)
        self.declared(top)

    # the kinds of numbers' types that code declares: fields and variants
    def declared(self, top):
        for path in (top / "crates").glob("*/src/*.rt"):
            text = re.sub(r"//[^\n]*", "", path.read_text())
            for name, body in re.findall(r"struct (\w+)(?:<[^>]*>)? \{([^}]*)\}", text):
                fields = re.findall(r"(\w+): ([^,]+),", body)
                self.structs[frozenset(f for f, _ in fields)] = dict(fields)
            for name, body in re.findall(r"enum (\w+) \{([^}]*)\}", text):
                self.variants[path.parent.parent.name, name] = re.findall(r"(\w+)(\([^)]*\))?,", body)

    def blocks(self, m):
        """Each declaration: where it starts and ends, and the parameters of the modules around it."""
        lines, at_ = [], 0
        for line in m.text.split("\n"):
            lines.append((at_, line))
            at_ += len(line) + 1
        around, k = [(0, [])], 0
        while k < len(lines):
            start, line = lines[k]
            bare = line.strip()
            if not bare or bare.startswith("--"):
                k += 1
                continue
            indent = len(line) - len(line.lstrip())
            while len(around) > 1 and indent < around[-1][0]:
                around.pop()
            j = k + 1
            while j < len(lines) and (not lines[j][1].strip() or len(lines[j][1]) - len(lines[j][1].lstrip()) > indent):
                j += 1
            if bare.startswith("module _ ") and bare.endswith("where"):
                names = []
                for group in re.findall(r"\(([^():]*) :", bare):
                    names += group.split()
                around.append((indent + 2, around[-1][1] + names))
                k += 1
                continue
            end = lines[j][0] if j < len(lines) else len(m.text)
            yield start + indent, end, around[-1][1], around[-1][0]
            k = j

    def read(self, m):
        opened = []
        for start, end, parameters, indent in self.blocks(m):
            text = m.text[start:end].rstrip()
            end = start + len(text)
            first = text.split("\n", 1)[0]
            if re.match(r"(pub )?use ", text):
                self.use(m, text)
            elif re.match(r"(pub )?data ", text):
                name = re.match(r"(?:pub )?data (\S+)", text)[1]
                m.types.add(name)
                made = re.findall(r"^\s+(?:pub )?(\S+) :(.*)$", text, re.M)
                self.variants[m.crate, name] = made
                for c, _ in made:
                    m.constructors[c] = name
            elif re.match(r"(pub )?record |(pub )?mod |infix|unfolding |open |private", text):
                continue
            else:
                toks = tokens(m.text, start, end, m.aliases)
                self.declare(m, toks, parameters)

    def use(self, m, text):
        found = re.match(r"(pub )?use ([^\s{]+?)(?:\.\{(.*)\}| as (\S+))?$", text.replace("\n", " "))
        if not found:
            return
        source, names, alias = found[2], found[3], found[4]
        if alias:
            m.aliases[alias] = source
        elif names is not None:
            for one in names.split(","):
                words = one.split()
                if words:
                    m.imports[words[-1]] = (source, words[0])
                    if found[1]:
                        m.passed.append(words[-1])

    def declare(self, m, toks, parameters):
        k = 0
        while k < len(toks) and toks[k].text in ("abbrev", "unfoldable", "pub", "opaque"):
            k += 1
        depth, mark = 0, None
        for j in range(k, len(toks)):
            t = toks[j]
            depth += t.kind in ("(", "{")
            depth -= t.kind in (")", "}")
            if depth == 0 and t.kind == "word" and t.text in (":", "="):
                mark = j
                break
        if mark is None:
            return
        name = toks[k].text
        d = m.definitions.get(name)
        if d is None:
            d = m.definitions[name] = Definition(m, name, len(self.definitions), parameters)
            self.definitions.append(d)
        if toks[mark].text == ":":
            d.signature = toks[mark + 1:]
        else:
            d.clauses.append((toks[k + 1:mark], toks[mark + 1:]))

    def own(self, source):
        """The crate and the rest of the path where a source of names is a file of this repository."""
        found = re.match(r"Rattle\.([a-z0-9_]+)\.specs\.(.+)", source)
        return found if found and found[1] in self.crates else None

    def found(self, source):
        """The module of a source of names, and what is left of its path: the name of a type in it."""
        m = self.own(source)
        if not m:
            return None, None
        parts = m[2].split(".")
        for cut in range(len(parts), 0, -1):
            if (m[1],) + tuple(parts[:cut]) in self.modules:
                return self.modules[(m[1],) + tuple(parts[:cut])], parts[cut:]
        return None, parts

    def look(self, m, name, seen=0):
        """What a name is in a module: a definition, a constructor, a function of the library."""
        if name in m.definitions:
            return m.definitions[name]
        if name in m.constructors:
            return "constructor", name
        if name in m.imports:
            source, own = m.imports[name]
            if not self.own(source):
                return "library", own
            return self.from_source(source, own, seen)
        if "." in name:
            alias, own = name.split(".", 1)
            if alias in m.aliases:
                if not self.own(m.aliases[alias]):
                    return "library", own
                return self.from_source(m.aliases[alias], own, seen)
            if alias in m.types or alias in m.imports:
                return "constructor", own.split(".")[-1]
        return "library", name

    def type_of(self, m, name):
        """The type of a constructor, by the crate and its name."""
        front, _, own = name.rpartition(".")
        source = m.imports[name][0] if name in m.imports else m.aliases.get(front.split(".")[0], "")
        if name in m.constructors:
            return m.crate, m.constructors[name]
        if front in m.types:
            return m.crate, front
        if front in m.imports:
            source = m.imports[front][0] + "." + m.imports[front][1]
        found = self.own(source)
        words = [w for w in found[2].split(".") + front.split(".")[1:] if w != "the-variants"] if found else [""]
        return (found[1] if found else ""), words[-1]

    def from_source(self, source, own, seen):
        module, rest = self.found(source)
        if module is None:
            if ".declared." in source or rest and rest[0] == "declared":
                return "constructor", own.split(".")[-1]
            return "library", own
        if own in ("ascii", "tabulate", "drawn") or module.crate == "tables" and own in ("row", "pins", "same"):
            return "library", own
        if rest:
            return "constructor", own
        if own in module.definitions or own in module.constructors or own in module.passed and seen < 4:
            return self.look(module, own, seen + 1)
        return "library", own
