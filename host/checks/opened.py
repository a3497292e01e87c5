"""opened [FOLDER]: the opener of each crate is whole, and files of definitions use the plain notation.

- A crate's specs/Opened.antt has one name, which computed examples unfold. Its `unfolding` clause names every
  `unfoldable pub` definition of the crate's files of definitions. Where a crate has no such file, they stand in that of a
  crate above it; those in NONE, above which nothing computes, have none.
- A file of definitions is one below specs/ that stands neither in Laws, Theorems, Proofs, Wrong, Samples or Examples
  nor in Inner (by what payload's loops are proved), nor in a file of such a name.
- Such a file has none of the kit's `cond`, `eqb`, `ltb` and `leb`, but their other names, of the kit's Prelude and of
  ground's Plain, which gives the last two theirs. Laws among definitions may have them, and a choice between two
  statements has `cond`: the kit's `if` chooses between values alone.
"""
import pathlib
import re

from checks.specs import House

APART = {"Laws", "Theorems", "Proofs", "Wrong", "Samples", "Examples", "Opened", "Inner"}
NONE = ("conformance", "groups", "invariant", "none_due", "pinned", "sure_add", "tables")
KIT = ("cond", "eqb", "ltb", "leb")
PLAIN = "ground/specs/Plain.antt"


def of_definitions(name):
    return not APART & set(pathlib.PurePath(name).with_suffix("").parts[2:])


def openers(house, crate):
    """What the crate's Opened.antt opens; where there is none, what those of all crates open."""
    own = f"{crate}/specs/Opened.antt"
    opened = set()
    for file in [house.files[own]] if own in house.files else [f for n, f in house.files.items() if n.endswith("/specs/Opened.antt")]:
        opened |= names_opened(file)
    return opened


def names_opened(file):
    opened = set()
    for declaration in file.declarations:
        names = " ".join(declaration.unfolds).split()
        for name in names:
            path, own = file.brought.get(name, ("", name))
            opened.add((House.place(path), own))
    return opened


def check(top):
    house = House(top)
    wrong, count = [], 0
    for crate in sorted({name.split("/")[0] for name in house.files}):
        opened = openers(house, crate)
        for name, file in house.files.items():
            if not name.startswith(f"{crate}/") or not of_definitions(name):
                continue
            inside = name[len(crate) + len("/specs/"):-len(".antt")].replace("/", ".")
            for d in file.declarations:
                if {"unfoldable", "pub"} <= d.marks and crate not in NONE:
                    count += 1
                    if ((crate, inside), d.name) not in opened:
                        wrong.append(f"crates/{name}:{d.line}\t{d.name} is in no Opened.antt")
                if d.defines and name != PLAIN:
                    said = set(re.split(r"[\s(){}\[\],;.]+", " ".join(d.signature + d.clauses)))
                    own = KIT if d.target != "Type" else KIT[1:]
                    wrong += [f"crates/{name}:{d.line}\t{d.name} is written with {kit}" for kit in own if kit in said]
    if count == 0:
        wrong.append("no definition was found")
    return f"every opener is whole, and definitions are in plain notation\tdefinitions {count}", wrong
