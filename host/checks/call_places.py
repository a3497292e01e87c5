"""call-places [FOLDER]: CONTRIBUTING.md says where a C call has its places, and has one set of seconds.

- Under 'A new call in C' each file is named, by itself or by a folder above it, in which the name of a C call stands; and what is
  named there is there.
- Each crate of crates.txt has its seconds once on the page, as 'NAME 12' or as 'NAME (12 s)'; and none that takes 30 or more
  has a must-fail edit, since the gate pays a whole check for each.
"""
import re

PATH = re.compile(r"(?<![\w/.-])(?:crates|docs|host|include|debian)/[\w./-]*\w|\b[A-Z]+\.md\b|`(?:run|install)`")


def files(top):
    """The files of the folder, but what is built, what git and rt keep, and patches that are not part of the tree."""
    found = (p.relative_to(top) for p in top.rglob("*") if p.is_file())
    return sorted(p.as_posix() for p in found if p.suffix != ".patch" and p.parts[0] not in ("target", ".git", "wip") and not (p.parts[0] == "crates" and p.parts[2:3] == ("out",)))


def text_of(path):
    return path.read_bytes().decode("utf-8", "replace")


def places(top, page):
    """What is wrong with the section on calls."""
    parts = re.split(r"^## ", page, flags=re.M)
    section = next((p for p in parts if p.startswith("A new call in C")), "")
    named = {p.strip("`") for p in PATH.findall(section)}
    calls = re.findall(r"^uint8_t (levelspruce_\w+)\(", text_of(top / "include/levelspruce.h"), flags=re.M)
    if not calls or not named:
        return ["no call or no place found\tthis check would hold of anything"], 0
    call = re.compile(r"\b(?:" + "|".join(calls) + r")\b")
    there = files(top)
    holds = lambda f: any(f == n or f.startswith(n + "/") for n in named)
    wrong = [f"{f}\thas the name of a call, and 'A new call in C' does not name it" for f in there if not holds(f) and call.search(text_of(top / f))]
    wrong += [f"{n}\tis named under 'A new call in C' and is not there" for n in sorted(named) if not any(f == n or f.startswith(n + "/") for f in there)]
    return wrong, len(named)


def seconds(top, page):
    """What is wrong with the seconds of crates."""
    crates = re.findall(r"^(\w+):", text_of(top / "crates.txt"), flags=re.M)
    times = {c: re.findall(rf"(?<!\w){c}\s\(?(\d+)(?: s\))?(?=[\s,.:;)])", page) for c in crates}
    wrong = [f"{c}\thas its seconds {len(n)} times" for c, n in times.items() if len(n) != 1]
    wrong += [f"{c}\ttakes {n[0]} seconds and has a must-fail edit" for c, n in times.items() if n and int(n[0]) >= 30 and any((top / "crates" / c).glob("must-fail/*"))]
    return wrong if any(times.values()) else ["no seconds found\tthis check would hold of anything"]


def check(top):
    page = (top / "CONTRIBUTING.md").read_text()
    wrong, count = places(top, page)
    wrong += seconds(top, page)
    return f"CONTRIBUTING.md names each place of a C call, and each crate's seconds once\tplaces {count}", wrong
