"""clock-numbers [FOLDER]: outside crates/packet no proof unfolds the numbers of a kind's clock, and outside packet and step none names VC-12's kind.

- The numbers are `frames`, `epochs`, `tags` and `lead` of packet's Kinds. What stands above knows them by packet's laws,
  which are stated over the kind and proved for two clocks (crates/packet/specs/Laws/Clock.antt).
- An `unfolding` clause names none of them, nor a name that the file gives to one of them, in any file of
  crates/*/specs and crates/*/proofs but packet's; nor does an `unfolding(..)` behind `tactic(auto` in crates/*/src.
- The one name of a crate's file Opened opens its definitions, and these numbers with them: it is named as they are.
- A run computed on a sample of a kind computes with its numbers: files Wrong, Samples, Examples and Opened, and those in
  such folders, may unfold them. So may crates/conformance and crates/pinned, which hold the definitions to the paper's own numbers.

- `vc12_kind` is named in packet and step, which have the cases on the kind, in the proofs of phases' `is_sized` and of receiver's `arrive` with its laws (Arriving),
  which ask for it once so that the compiler folds the rest (store's `packet_in` does so too, by packet's law `h4_row`), in recording, which reads its name, in
  mending's Following, which says whose lines have a count of H4, and where runs are computed as above. What stands elsewhere is proved once over the kind.
"""
import re

from checks.specs import code

NUMBERS = ("frames", "epochs", "tags", "lead")
OWN = ("packet", "conformance", "pinned")
COMPUTED = ("Wrong", "Samples", "Examples", "Opened")
VC12 = "vc12_kind"
CASES = ("packet", "step", "conformance", "pinned")


def computed(path):
    return any(part in COMPUTED for part in path.with_suffix("").parts)


def clauses(text):
    """Each `unfolding` clause with the line it begins in: the names behind the word, up to the next line that is no more than names."""
    lines = text.splitlines()
    for at, line in enumerate(lines):
        begins = re.match(r"(\s*)unfolding\s+(.*)", line)
        if not begins:
            continue
        names = begins[2].split()
        for more in lines[at + 1:]:
            deeper = re.match(r"\s*", more)[0]
            if not more.strip() or len(deeper) <= len(begins[1]) or re.search(r"[=:(]", more):
                break
            names += more.split()
        yield at + 1, names


def attributes(text):
    """Each `unfolding(..)` of an attribute with the line it stands in: the names in the brackets."""
    for found in re.finditer(r"\bunfolding\(([^)]*)\)", text):
        yield text.count("\n", 0, found.start()) + 1, [path.strip().rpartition("::")[2] for path in found[1].split(",")]


def may_name(crate, inside):
    """Whether a file may name VC-12's kind."""
    arrives = crate == "receiver" and inside.parts[0] == "proofs" and ("arrive" in inside.parts or inside.name == "Arriving.antt")
    sized = crate == "phases" and inside.parts[0] == "proofs" and "is_sized" in inside.parts
    read = crate == "recording" and inside.name in ("Pairs.antt", "Reading.antt", "Times.antt") or crate == "mending" and inside.name == "Following.antt"
    return crate in CASES or computed(inside) or arrives or sized or read


def named_at(text, name):
    """The lines in which a name stands."""
    whole = re.compile(rf"(?<![\w'-]){re.escape(name)}(?![\w'-])")
    return [at + 1 for at, line in enumerate(text.splitlines()) if whole.search(line)]


def aliases(text):
    """What the file calls a number by another name."""
    return {new: old for old, new in re.findall(r"(?<![\w'-])(\w+) as ([^\s,}]+)", text) if old in NUMBERS}


def openers(text):
    """The names that the file brings in from a file Opened."""
    listed = re.findall(r"(?m)^use \S+\.Opened\.\{([^}]*)\}", text)
    return {name.split()[-1]: name.split()[0] for names in listed for name in names.split(",") if name.split()}


def check(top):
    wrong, count = [], 0
    for crate in sorted(top.glob("crates/*")):
        for path in sorted(crate.glob("src/**/*.rt")) if crate.name not in OWN else ():
            for line, names in attributes(code(path)):
                count += 1
                wrong += [f"{path.relative_to(top)}:{line}\tunfolds {name}" for name in names if name in NUMBERS]
        for path in sorted(p for part in ("specs", "proofs") for p in crate.glob(f"{part}/**/*.antt")):
            inside = path.relative_to(crate)
            text = code(path)
            if not may_name(crate.name, inside):
                wrong += [f"{path.relative_to(top)}:{line}\tnames {VC12}" for line in named_at(text, VC12)]
            if crate.name in OWN or computed(inside):
                continue
            named = {**{n: n for n in NUMBERS}, **aliases(text), **openers(text)}
            for line, names in clauses(text):
                count += 1
                for name in names:
                    number = named.get(name.rpartition(".")[2])
                    if number:
                        wrong.append(f"{path.relative_to(top)}:{line}\tunfolds {number}")
    if count == 0:
        wrong.append("no clause was found")
    return f"outside packet no proof unfolds the numbers of a clock, nor names VC-12\tclauses {count}", wrong
