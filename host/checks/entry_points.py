"""entry-points [FOLDER]: every public function promises all of its results, or docs/PROMISES.md says why not.

A public function (a `pub fn`, also one with extern "C" or in an impl block, of crates/*/src) needs an exception if it
- has a `requires`: then some call has no promise at all;
- has a result for which no `ensures` has an equation result ≡ .. that says it without result, or result.now ≡ .. where it is a reference,
  or NAME result ≡ .. of all that it holds, as NAME sees it;
- takes a `&mut` for whose value afterwards no `ensures` has an equation NAME.new ≡ .. that says it without any .new;
- has no result and no `&mut`: then there is nothing to promise, and a reader should be told what it is for.
The main function of a program is no entry point.

An exception is an item of the list under the line '## Exceptions' of docs/PROMISES.md:
    - `crate::module::function`: the reason
A method is `crate::module::Type::method`; src/lib.rt adds no module. An exception that no function needs is a fault too.
"""
import re

from checks.contracts import functions, lent, module_path, parted

PARTS = r"[\s(){}\[\],;.:«»λ]"  # what parts the names of antt, which may hold signs and primes


def speaks_of(text, name):
    """Whether the text has this name."""
    return re.search(rf"(?:^|(?<={PARTS})){re.escape(name)}(?={PARTS}|$)", text) is not None


def says_result(clause):
    """Whether a part is result ≡ .. with no result on the right, or so of what a reference or a definition shows of it."""
    told = (re.match(r"(?:\w+ )?result(?:\.now)?\s+≡\s(.*)", p, re.S) for p in parted(clause))
    return any(t and not speaks_of(t[1], "result") for t in told)


def says_lent(clause, name):
    """Whether a part is NAME.new ≡ .. with no .new on the right."""
    told = (re.match(rf"«?{re.escape(name)}»?\.new\s+≡\s(.*)", p, re.S) for p in parted(clause))
    return any(t and not re.search(r"\.new\b", t[1]) for t in told)


def faults(f):
    """What keeps the contract from being a whole promise, in words."""
    promises = [text for kind, text in f.clauses if kind == "ensures"]
    if any(kind == "requires" for kind, _ in f.clauses):
        yield "has a requires"
    if f.result and not any(says_result(p) for p in promises):
        yield "no ensures is an equation for its result" if promises else "has no ensures"
    changed = list(lent(f.parameters))
    for name in changed:
        if not any(says_lent(p, name) for p in promises):
            yield f"no ensures is an equation for {name} afterwards"
    if not f.result and not changed:
        yield "has neither a result nor a &mut"


def exceptions(page):
    """The names under '## Exceptions', and the items there that do not have the form."""
    names, odd, inside = [], [], False
    for line in page.splitlines():
        if line.startswith("#"):
            inside = line.strip() == "## Exceptions"
        elif inside and line.startswith("- "):
            item = re.match(r"- `([\w:]+)`: *\S", line)
            if item:
                names.append(item[1])
            else:
                odd.append(line)
    return names, odd


def check(top):
    page = top / "docs" / "PROMISES.md"
    named, odd = exceptions(page.read_text() if page.exists() else "")
    public, needed, wrong, notes = 0, set(), [], []
    for src in sorted(top.glob("crates/*/src")):
        for file in sorted(src.rglob("*.rt")):
            try:
                found = list(functions(file.read_text(), module_path(file, src)))
            except ValueError as e:
                wrong.append(f"{file.relative_to(top)}\tcannot be read: {e}")
                continue
            for f in found:
                name, why = f.name, list(faults(f))
                if file.name == "main.rt" and name.endswith("::main"):
                    continue
                public += 1
                if not why:
                    continue
                needed.add(name)
                if name in named:
                    notes.append(f"exception\t{name}\t{'; '.join(why)}")
                else:
                    wrong.append(f"{name}\t{'; '.join(why)}\tand docs/PROMISES.md names no exception")
    wrong += [f"{name}\tan exception in docs/PROMISES.md that no public function needs" for name in named if name not in needed]
    wrong += [f"{line}\tan item under '## Exceptions' with no name or no reason" for line in odd]
    if public == 0:
        wrong.append("no public function found\tthis check would hold of anything")
    return f"entry points promise all of their results\tpublic functions {public}\texceptions {len(needed)}", wrong, notes
