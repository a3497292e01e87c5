#!/usr/bin/env python3
"""Spells the names of this repository's own definitions and lemmas as PORTING.md, part 3, asks: words in snake case.

usage: tools/plain_names.py [--check] [--table FILE]      at the top of the repository, once, right behind port.py

A definition fooBar becomes foo_bar, a lemma foo-bar becomes foo_bar, and getD, which the library calls get_or, becomes
get_or within a name. Where a lemma would get the name of a definition, it ends in _lem. Names of facts and types keep
their capitals. What a walk (proofs/F/Proof.antt) declares for itself, and the names that the check makes, stay. It turns
the code and the comments of .antt and .rt files; with --check it writes nothing. --table writes the names, old and new.
"""
import collections
import glob
import os
import re
import sys

NAME = r"[^\s(){}.;,@\"«»:⟦⟧]+"
HEAD = r"(?:(?:pub|unfoldable|abbrev|record|data|opaque|private|constructor|rule|instance) )*"
LINE = re.compile(r"( *)(" + HEAD + r")(" + NAME + r")((?: [({].*?)? ?:(?= |$)| *$)")
WALK = re.compile(r"/proofs/.+/(Proof|Answers|Invariants)\.antt$")
NOT = set("where let in module use record data pub abbrev unfoldable unfolding rw refl λ".split())
CAMEL = re.compile(r"[a-z][a-z0-9]*(?:[A-Z]+[a-z0-9]*)+'*")
TOKEN = re.compile(r"\"(?:[^\"\\\n]|\\.)*\"|" + NAME)
# Below these folders a name stays, since there it is a definition's and not a lemma's.
STAYS = {("crates/orders/", "in_order")}


def texts(kinds):
    for folder, dirs, files in os.walk("crates"):
        dirs[:] = sorted(d for d in dirs if d != "out")
        for f in sorted(files):
            if f.endswith(kinds):
                yield os.path.join(folder, f)


def read(p):
    with open(p, encoding="utf-8") as f:
        return f.read()


def declared(code):
    """The names that are declared in the text: (word before it, name). A colon may stand on the next line."""
    lines = code.split("\n")
    for i, line in enumerate(lines):
        m = LINE.match(line)
        if m and (m[4].strip() or (i + 1 < len(lines) and re.match(r" +:", lines[i + 1]))):
            yield m[2].strip(), m[3]


def no_comments(t):
    return re.sub(r"(?m)(^|(?<=\s))--.*$", "", t)


def snake(n):
    n = re.sub(r"getD(?![a-z])", "get_or", n)
    n = re.sub(r"get_d(?=_|-|$)", "get_or", n)
    n = re.sub(r"([a-z0-9])([A-Z])", r"\1_\2", n)
    n = re.sub(r"([A-Z]+)([A-Z][a-z])", r"\1_\2", n)
    return n.lower().replace("-", "_")


def from_libraries():
    """The names that some file takes from a library that is none of ours."""
    ours = set(os.listdir("crates"))
    names = set()
    for p in texts((".antt", ".rt")):
        for path, items in re.findall(r"\buse ([\w.+'-]+?)\.?(?:\{([^}]*)\}|(?=[\s;]))", read(p)):
            steps = path.split(".")
            if not (steps[0] == "Rattle" and steps[1] in ours):
                for it in items.split(","):
                    names.add(it.split(" as ")[0].strip())
                    names.add(it.split(" as ")[-1].strip())
    return names


def main(argv):
    check = "--check" in argv
    own = collections.defaultdict(set)
    every = set()
    free = set()
    for p in texts((".antt",)):
        t = no_comments(read(p))
        code = re.sub(r"\"(?:[^\"\\\n]|\\.)*\"", "", t)
        every.update(re.findall(NAME, code))
        code2 = re.sub(r"(?m)^ *(?:pub )?use [^\n{]*", "", code)
        free.update(re.findall(r"(?<![.\w'-])" + NAME + r"(?!\.)", code2))
        if WALK.search(p):
            continue
        for kind, n in declared(code):
            if n not in NOT:
                own[n].add(kind)
    kit = from_libraries()
    camel = {n for n in every if CAMEL.fullmatch(n) and n not in kit}
    # a dash joins words of which one is in camel case, or it is one of ours
    mixed = {n for n in every if n not in kit and re.fullmatch(r"[a-z][\w'₀-₉-]*", n) and "-" in n and any(CAMEL.fullmatch(x) for x in n.split("-"))}
    words = {n for n in own if re.match(r"[a-z]", n) and re.fullmatch(r"[\w'₀-₉-]+", n) and n not in kit} | camel | {n for n in mixed if n in own}
    table = {}
    groups = collections.defaultdict(list)
    for n in sorted(words):
        groups[snake(n)].append(n)
    for new, olds in groups.items():
        if len(olds) == 1:
            table[olds[0]] = new
            continue
        keep = min(olds, key=lambda n: (not CAMEL.fullmatch(n), "-" in n, n))
        table[keep] = new
        for n in olds:
            if n != keep:
                table[n] = new + "_lem"
                if len(olds) > 2 or any("abbrev" in k or "unfoldable" in k for k in own.get(n, ())):
                    print("by hand:", new, olds, {o: own.get(o) for o in olds})
    kept = sorted(n for n in own if n in kit and n != snake(n) and re.match(r"[a-z]", n))
    print("also the library's:", kept)
    table = {a: b for a, b in table.items() if a != b}
    new = collections.Counter(table.values())
    for b in sorted(b for b in new if b in free and b not in table and b not in own):
        print("a local or the library's name:", b, [a for a in table if table[a] == b])
    for b in sorted(b for b in new if b in own and b not in table and new[b] and [a for a in table if table[a] == b]):
        print("falls together:", b, [a for a in table if table[a] == b])
    for b, n in new.items():
        if n > 1:
            print("twice:", b, [a for a in table if table[a] == b])
    for a, b in table.items():
        if b in kit:
            print("the library has:", a, b)
    if "--table" in argv:
        with open(argv[argv.index("--table") + 1], "w") as f:
            f.writelines(f"{a}\t{b}\n" for a, b in sorted(table.items()))
    print(len(table), "names")
    n = 0
    for p in texts((".antt", ".rt")):
        t = read(p)
        walk = WALK.search(p)
        local = set()
        if walk:
            code = re.sub(r"\"(?:[^\"\\\n]|\\.)*\"", "", no_comments(t))
            local = {n for _, n in declared(code)}
        rust = p.endswith(".rt")

        def turned(m):
            w = m[0]
            if w[0] == '"' or w not in table:
                return w
            dot = m.start() and t[m.start() - 1] == "."
            if rust and not CAMEL.fullmatch(w) or any(p.startswith(f) and w == n for f, n in STAYS):
                return w
            if walk and not CAMEL.fullmatch(w):
                if w in local or dot:
                    return w
            return table[w]

        new_text = TOKEN.sub(turned, t)
        if new_text != t:
            n += 1
            if not check:
                with open(p, "w", encoding="utf-8") as f:
                    f.write(new_text)
    print(n, "files")
    return 0


if __name__ == "__main__":
    raise SystemExit(main(sys.argv[1:]))
