#!/usr/bin/env python3
"""Counts the places of src/ that read like an older Rattle, by the points of docs/DESIGN-PASS.md.

usage: tools/old_forms.py [--places] [POINT..]

A line a count: point, form, places. With --places each place besides: point, form, file, line, what stands there.
A place that stays has a line beside it that begins '// Kept:'; such places count apart, as kept.
It reads text, so that it finds forms and does not judge them: docs/DESIGN-PASS.md says what each count holds.
"""
import collections
import glob
import re
import sys

NAMED = r"[A-Za-z_][A-Za-z_0-9]*"
# Files of figures, where two rows that look alike say nothing.
TABLES = ("crates/packet/src/shares.rt",)


class Function:
    def __init__(self, path, line, name, head, body):
        self.path, self.line, self.name, self.head, self.body = path, line, name, head, body

    def parameters(self):
        inside = self.head[self.head.index("(") + 1 :]
        depth, end = 1, 0
        for end, mark in enumerate(inside):
            depth += (mark in "([<") - (mark in ")]" or mark == ">" and inside[end - 1] != "-")
            if depth == 0:
                break
        parts, depth, part = [], 0, ""
        for mark in inside[:end]:
            depth += (mark in "([<") - (mark in ")]>")
            if mark == "," and depth == 0:
                parts.append(part)
                part = ""
            else:
                part += mark
        return [" ".join(p.split()) for p in parts + [part] if p.strip()]


def bare(text):
    """Without comments, each line kept."""
    return re.sub(r"//[^\n]*", "", text)


def functions(path, text):
    """The functions of a file: a head with its clauses, and a body."""
    found = []
    lines = bare(text).split("\n")
    at = 0
    while at < len(lines):
        m = re.match(r"^(\s*)(?:pub(?:\([a-z]+\))? )?(?:final )?(?:const )?fn (" + NAMED + r")\b", lines[at])
        if not m:
            at += 1
            continue
        indent, start = m[1], at
        if lines[at].rstrip().endswith(("}", ";")):
            found.append(Function(path, at + 1, m[2], lines[at], ""))
            at += 1
            continue
        opens = at if lines[at].rstrip().endswith("{") else None
        while at < len(lines) and lines[at].rstrip() not in (indent + "}", indent + "{}"):
            if opens is None and lines[at].rstrip() == indent + "{":
                opens = at
            if lines[at].rstrip().endswith(";") and opens is None:
                break
            at += 1
        opens = at if opens is None else opens
        found.append(Function(path, start + 1, m[2], "\n".join(lines[start : opens + 1]), "\n".join(lines[opens + 1 : at])))
        at += 1
    return found


def types(path, text):
    """The structs and enums of a file: line, word, name, body."""
    clean = bare(text)
    for m in re.finditer(r"(?m)^(?:pub(?:\([a-z]+\))? )?(enum|struct) (" + NAMED + r")[^\n;{]*\{(.*?)^\}", clean, re.S):
        yield clean.count("\n", 0, m.start()) + 1, m[1], m[2], m[3]


def fields(body):
    return re.findall(r"(?m)^    (?:pub(?:\([a-z]+\))? )?(" + NAMED + r"): ([^\n]+),$", body)


def variants(body):
    return re.findall(r"(?m)^    (" + NAMED + r")(\([^\n]*\))?,?$", body)


# ---- the points: each gives (form, path, line, what) ----

DONE = {"Done", "Nothing", "Unreadable", "None", "Same"}
FLAG = {"answer", "good", "accepted", "ended", "goes_on", "wrote", "kept", "wants", "counted", "begun", "readable"}
CODE = {"kind", "state", "cause", "mark", "state_number", "answer"}


def point_1(files, all_functions):
    for path, text in files:
        for line, word, name, body in types(path, text):
            if word == "enum":
                vs = variants(body)
                with_value = [v for v, p in vs if p]
                if DONE & {v for v, _ in vs} or (len(with_value) == 1 and len(vs) > 1):
                    yield "an enum of the shape of Option or Result", path, line, name
            else:
                fs = fields(body)
                flags = [f for f, t in fs if f in FLAG and (t in ("bool", "u8") or t.endswith("Answer"))]
                if flags and len(fs) > len(flags):
                    yield "a flag or an answer with a value beside it", path, line, name + " " + " ".join(flags)
                codes = [f for f, t in fs if f in CODE - {"answer"} and t == "u8"]
                if codes:
                    yield "a number for a kind or a state in a struct", path, line, name + " " + " ".join(codes)
    for f in all_functions:
        codes = [p for p in f.parameters() if re.fullmatch(r"(kind|state|cause|mark): u8", p)]
        if codes:
            yield "a number for a kind or a state among the parameters", f.path, f.line, f.name
        if re.search(r"\) -> u8\s", f.head) and len(re.findall(r"(?m)return \d+;|^\s*\d+$|=> \d+,", f.body)) >= 2:
            yield "a function that gives numbers for answers", f.path, f.line, f.name


def shape(body):
    """A body with each name by the order in which it comes, and each number as N."""
    order = {}
    keep = {"if", "else", "while", "for", "in", "let", "mut", "match", "return", "as", "true", "false", "loop", "break", "self"}

    def turned(m):
        w = m[0]
        if w in keep:
            return w
        if w[0].isdigit():
            return "N"
        return order.setdefault(w, "x%d" % len(order))

    return re.sub(r"0x[0-9A-Fa-f]+|\d[\d_]*(?:[ui]\d+|usize)?|" + NAMED, turned, re.sub(r"\s+", " ", body))


def point_2(files, all_functions):
    alike = collections.defaultdict(list)
    for f in all_functions:
        if len(f.body.split("\n")) >= 4 and f.path not in TABLES:
            alike[shape(f.body)].append(f)
    for group in alike.values():
        if len(group) > 1:
            for f in group:
                yield "functions whose bodies have one shape", f.path, f.line, f.name + " like " + " ".join(g.name for g in group if g is not f)


def point_3(files, all_functions):
    for f in all_functions:
        lines = f.body.split("\n")
        for k, l in enumerate(lines):
            if re.match(r"\s*(while\b|(let \w+ = )?loop\b)", l):
                yield "a while or a loop", f.path, f.line + len(f.head.split("\n")) + k, f.name + ": " + l.strip()


def point_4(files, all_functions):
    for f in all_functions:
        at = f.line + len(f.head.split("\n"))
        lines = f.body.split("\n")
        arms = [l for l in lines if re.search(r"=> (true|false),", l)]
        if arms:
            yield "a match that lists which variants are so", f.path, at, f.name
        told = [l for l in lines if re.search(r"(\w+)::\w+ => \w+::\w+,", l)]
        if len(told) >= 2:
            yield "an enum turned into another by hand", f.path, at, f.name
        if re.search(r"/ 256\)? as u8|% 256\)? as u8|as u16 \* 256|<< 8", f.body):
            yield "the bytes of a number by hand", f.path, at, f.name
        if re.search(r"\bone_if\(", f.body):
            yield "a flag turned into a number by hand", f.path, at, f.name
        for m in re.finditer(r"\{\n((?:[ ]+[^\s{}][^\n{}]*,\n)+)[ ]*\}", f.body):
            same = collections.Counter(o for n, o, p in re.findall(r"(?m)^\s+(\w+): (\w+)\.(\w+),$", m[1]) if n == p)
            if same and max(same.values()) >= 2:
                yield "a struct's fields copied one by one", f.path, at + f.body.count("\n", 0, m.start()), f.name
        ands = re.findall(r"(\w+)\.(\w+) == (\w+)\.(\w+)", f.body)
        if len([1 for a, b, c, d in ands if b == d and a != c]) >= 2:
            yield "equality field by field", f.path, at, f.name


def clauses(f):
    return re.findall(r"requires(?: \w+)? \{ (.*?) \}(?=\n|$)", f.head, re.S)


def point_5(files, all_functions):
    crate = lambda f: f.path.split("/")[1]
    asked = collections.defaultdict(list)
    for f in all_functions:
        for c in clauses(f):
            for part in re.split(r" × ", re.sub(r"[()]", "", " ".join(c.split()))):
                asked[crate(f), part].append(f)
    for (_, part), group in asked.items():
        if len(group) >= 3:
            for f in group:
                yield "a fact asked by three or more functions", f.path, f.line, f.name + ": " + part
    together = collections.defaultdict(list)
    for f in all_functions:
        ps = f.parameters()
        if len(ps) >= 4:
            together[crate(f), tuple(sorted(ps))].append(f)
    for (_, ps), group in together.items():
        if len(group) >= 3:
            for f in group:
                yield "four or more parameters that three or more functions take alike", f.path, f.line, f.name


def point_6(files, all_functions):
    for path, text in files:
        for line, word, name, body in types(path, text):
            fs = fields(body) if word == "struct" else []
            arrays = [f for f, t in fs if t.startswith("[") and not f == "spare"]
            if arrays and any(f in ("count", "len", "start", "n", "used") for f, _ in fs):
                yield "a fixed buffer with a length beside it", path, line, name
            if len(arrays) >= 2:
                yield "arrays side by side", path, line, name
    for f in all_functions:
        ps = f.parameters()
        if any(re.search(r": &?(mut )?\[.*; ?\w+\]$", p) for p in ps) and any(re.fullmatch(r"(n|count): (usize|u8)", p) for p in ps):
            yield "an array and how much of it among the parameters", f.path, f.line, f.name


def point_7(files, all_functions):
    for f in all_functions:
        for m in re.finditer(r"match [^\n]*\{\n(.*?)\n(\s*)\}", f.body, re.S):
            calls = re.findall(r"=> (?:\{\s*)?(?:return )?[a-z_]+(?:(?:::|\.)[a-z_]+)*\(", m[1])
            if len(calls) >= 3:
                yield "a match that chooses which step to run", f.path, f.line + len(f.head.split("\n")) + f.body.count("\n", 0, m.start()), f.name


POINTS = {"1": point_1, "2": point_2, "3": point_3, "4": point_4, "5": point_5, "6": point_6, "7": point_7}


def kept_beside(texts, path, line):
    """Whether a 'Kept:' line stands right above the place, or on it, or above its function."""
    lines = texts[path].split("\n")
    near = range(line - 1, max(-1, line - 30), -1)
    for k in near:
        if k < len(lines) and "// Kept:" in lines[k]:
            return True
        if k < line - 1 and k < len(lines) and re.match(r"^\s*\}$", lines[k]) and len(lines[k]) - len(lines[k].lstrip()) <= 4:
            return False
    return False


def main():
    words = sys.argv[1:]
    show = "--places" in words
    chosen = [w for w in words if w in POINTS] or list(POINTS)
    files = [(p, open(p, encoding="utf-8").read()) for p in sorted(glob.glob("crates/*/src/**/*.rt", recursive=True))]
    texts = dict(files)
    every = [f for p, t in files for f in functions(p, t)]
    for point in chosen:
        counts, kept = collections.Counter(), collections.Counter()
        for form, path, line, what in POINTS[point](files, every):
            held = kept_beside(texts, path, line)
            counts[form] += 1
            kept[form] += held
            if show:
                print(f"point {point}\t{form}\t{path}:{line}\t{what}" + ("\tkept" if held else ""))
        for form, n in counts.items():
            print(f"point {point}\t{form}\tplaces {n}\tkept {kept[form]}")
        print(f"point {point}\tall\tplaces {sum(counts.values())}\tkept {sum(kept.values())}")


main()
