"""uncited [FOLDER]: what stands in crates/ and nothing names.

- A name that a `use` line brings into a file and that the file does not name again.
- A law of specs/ that nothing names: no other declaration, no page of docs/. Theorems, wrong readings, samples and
  examples are there for their own sake (files and folders of these names, crates/conformance and crates/pinned), and so
  are equations by refl among definitions.
- A function of src/ that is not public and that nothing calls, but for those that a trait of the crates asks for. What is
  public is held by promised-names.
"""
import collections
import re

from checks.specs import code

OWN_SAKE = ("Theorems", "Wrong", "Samples", "Examples")
USE = re.compile(r"(?m)^[ \t]*((?:pub |ghost |unfoldable )*)use\s+([^\s{;]+?)(?:\.\{([^}]*)\}|\s+as\s+([^\s;]+))?[ \t]*;?[ \t]*$")
# what a function's proof takes, by its path
TACTIC = re.compile(r"#\[tactic\([^\]]*\]")
LAW = re.compile(r"(?m)^( *)(pub )?([^\s(){}:]+)(?: \{[^}]*\})? :(?=\s)")
FUNCTION = re.compile(r"(?m)^\s*fn (\w+)")
TRAIT = re.compile(r"^(?:pub(?:\([a-z]+\))? )?trait .*?^}", re.M | re.S)
NO_LAW = ("abbrev", "unfoldable", "record", "data", "axiom", "module", "mod", "use")


def words(text):
    return collections.Counter(re.split(r"[\s(){}\[\],;.«»]+", text))


def names(name, said, text):
    """Whether a text, of whose words there are so many, names what is called so: an operator by what stands between its gaps."""
    name = name.strip("«»")
    parts = [p for p in name.split("◌") if p]
    return said[name] > 0 or name in ("[]",) and name in text or "◌" in name and bool(parts) and all(said[p] for p in parts)


def brought_in(text):
    """The path and the new name of all that the file's `use` lines bring in for itself."""
    for marks, path, listed, alias in USE.findall(text):
        if "pub" in marks:
            continue
        for item in (listed or alias).split(","):
            if item.strip():
                yield path, item.split()[-1]


def for_its_own_sake(inside):
    return inside.parts[0] in ("conformance", "pinned") or any(part in OWN_SAKE for part in inside.with_suffix("").parts)


def laws(text, inside):
    """The laws of a specs file: the line, the name, whether it is public, and how many lines begin with it."""
    lines = text.splitlines()
    for found in LAW.finditer(text):
        indent, public, name = found.groups()
        at = text.count("\n", 0, found.start(3))
        round_it = next((l for l in reversed(lines[:at]) if l.strip() and len(l) - len(l.lstrip()) < len(indent)), "")
        if name in NO_LAW or len(indent) > 2 or indent and not re.match(r"\s*(pub )?module ", round_it):
            continue
        begins = re.findall(rf"(?m)^{indent}(?:pub )?{re.escape(name)}(?=\s).*", text)
        by_refl = begins[-1].endswith("= refl")
        if by_refl and not {"Laws", "Proofs"} & set(inside.with_suffix("").parts):
            continue
        yield at + 1, name, public, len(begins)


def check(top):
    texts = {path: code(path) for end in ("antt", "rt") for part in ("proofs", "specs", "src") for path in sorted(top.glob(f"crates/*/{part}/**/*.{end}"))}
    bodies = {path: USE.sub("", text) for path, text in texts.items()}
    said = {path: words(TACTIC.sub(lambda found: found[0].replace("::", " "), body)) for path, body in bodies.items()}
    cited = collections.Counter()
    for path, text in texts.items():
        cited.update(set(said[path]))
        cited.update({item.split()[0] for _, _, listed, _ in USE.findall(text) for item in listed.split(",") if item.strip()})
    pages = words(" ".join(page.read_text() for page in sorted(top.glob("docs/**/*.md"))).replace("`", " "))
    # what a trait asks for is called through the trait
    asked = {name for path, text in texts.items() if path.suffix == ".rt" for trait in TRAIT.findall(text) for name in FUNCTION.findall(trait)}
    faults = []
    for path, text in texts.items():
        inside = path.relative_to(top / "crates")
        shown = path.relative_to(top)
        for source, name in brought_in(text):
            if not names(name, said[path], bodies[path]):
                faults.append(f"{shown}\tbrings in and does not name\t{name} of {source}")
        if inside.parts[1] == "specs" and path.suffix == ".antt" and not for_its_own_sake(inside):
            for at, name, public, own in laws(text, inside):
                elsewhere = public and cited[name] > 1
                if not elsewhere and said[path][name] <= own and not pages[name]:
                    faults.append(f"{shown}:{at}\tnothing names the law\t{name}")
        if path.suffix == ".rt":
            for name in FUNCTION.findall(text):
                calls = sum(len(re.findall(rf"(?<!fn )\b{name}\b", other)) for at, other in texts.items() if at.suffix == ".rt" and inside.parts[0] in at.parts)
                if not calls and name != "main" and name not in asked:
                    faults.append(f"{shown}\tnothing calls\t{name}")
    return f"all that stands in crates is named\tfiles {len(texts)}", faults
