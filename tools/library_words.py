#!/usr/bin/env python3
"""Takes if◌then◌else◌ and ◌==◌ from the library's Prelude, in place of ground's Plain, which had its own.

usage: tools/library_words.py      at the top of the repository; a second run changes nothing

The library's ◌==◌ is eqb and its choice is cond, as ours were, so that each text means what it meant.
"""
import os
import re

WORDS = ("if◌then◌else◌", "◌==◌")
PRELUDE = "Rattle.std.specs.Prelude"


def turned(text, mark):
    """mark: what ends an import, ';' in .rt files."""
    pattern = re.compile(r"(?m)^((?:pub |ghost )*use) Rattle\.ground\.specs\.Plain\.\{([^}]*)\}" + mark + r"\n")
    moved = []

    def cut(m):
        names = [n.strip() for n in m[2].split(",") if n.strip()]
        gone = [n for n in names if n in WORDS]
        if not gone or m[1].startswith("pub"):
            return m[0]
        moved.extend(gone)
        rest = [n for n in names if n not in WORDS]
        return f"{m[1]} Rattle.ground.specs.Plain.{{{', '.join(rest)}}}{mark}\n" if rest else "\0"

    new = pattern.sub(cut, text)
    if not moved:
        return text
    head = "ghost use" if mark else "use"
    have = re.search(r"(?m)^" + head + r" " + re.escape(PRELUDE) + r"\.\{([^}]*)\}" + mark + r"$", new)
    if have:
        names = [n.strip() for n in have[1].split(",")]
        names += [n for n in moved if n not in names]
        new = new[: have.start()] + f"{head} {PRELUDE}.{{{', '.join(names)}}}{mark}" + new[have.end():]
        return new.replace("\0", "")
    line = f"{head} {PRELUDE}.{{{', '.join(dict.fromkeys(moved))}}}{mark}\n"
    if "\0" in new:
        new = new.replace("\0", line, 1)
    else:
        at = re.search(r"(?m)^" + head + " ", new).start()
        new = new[:at] + line + new[at:]
    return new.replace("\0", "")


def main():
    n = 0
    for folder, dirs, files in os.walk("crates"):
        dirs[:] = [d for d in dirs if d != "out"]
        for f in files:
            p = os.path.join(folder, f)
            if f.endswith((".antt", ".rt")) and not p.endswith("ground/specs/Plain.antt"):
                with open(p, encoding="utf-8") as it:
                    t = it.read()
                new = turned(t, ";" if f.endswith(".rt") else "")
                if new != t:
                    n += 1
                    with open(p, "w", encoding="utf-8") as it:
                        it.write(new)
    print(n, "files")


main()
