#!/usr/bin/env python3
"""Turns a crate's hand-written walks, proofs/F/Proof.antt, to today's Invariants.antt and Answers.antt.

usage: turn_proofs.py CRATE NAMES.json [F ..]      NAMES.json: of 'rt check --generated DIR --old-names' in the crate's folder

An answer that the check finds by itself (omega arith, search rules) is left out. What it cannot turn stays in a comment
that begins 'LEFT'. Beside the script may lie names.tsv, which tools/plain_names.py --table writes: by it the names of own
fields are spelled.
"""
import json
import os
import re
import sys

NAME = r"[^\s(){}.;,@\"«»⟦⟧]+"
TRIVIAL = re.compile(r"^(omega arith|search rules|refl|tt|\(\))$")


OWN = {}
if os.path.exists(os.path.join(os.path.dirname(os.path.realpath(__file__)), "names.tsv")):
    with open(os.path.join(os.path.dirname(os.path.realpath(__file__)), "names.tsv"), encoding="utf-8") as it:
        OWN = dict(line.rstrip("\n").split("\t") for line in it)


def norm(n):
    return re.sub(r"^(overflow|bounds|slice_bounds|nonzero)[-_]", "", n).replace("_", "-").lower()


def blocks(text):
    """The declarations: each the lines of one name at column 0, with comments above it."""
    out, cur, name, pending = [], [], None, []
    for line in text.split("\n"):
        if not line.strip():
            if cur:
                cur.append(line)
            continue
        if line[0] == " ":
            cur.append(line)
            continue
        if line.startswith("--"):
            if cur:
                out.append((name, cur))
                cur, name = [], None
            pending.append(line)
            continue
        if line.startswith("use "):
            if cur:
                out.append((name, cur))
            cur, name = pending + [line], "use"
            pending = []
            continue
        if line.startswith("unfolding") and name not in (None, "use"):
            cur.append(line)
            continue
        head = re.sub(r"^(abbrev|unfoldable|pub|opaque|private) ", "", line)
        head = re.sub(r"^(abbrev|unfoldable|pub|opaque|private) ", "", head)
        n = re.match(NAME, head)[0]
        if n == name and not pending:
            cur.append(line)
            continue
        if cur:
            out.append((name, cur))
        cur, name = pending + [line], n
        pending = []
    if cur:
        out.append((name, cur))
    return out, pending


def equation(name, text):
    """The lines of unfolding before a name's equation, the rest, and the match of its head with its parameters."""
    unfolding, text = "", text.lstrip("\n")
    while text.startswith("unfolding"):
        line, _, text = text.partition("\n")
        unfolding += line + "\n"
    return unfolding, text, re.match(re.escape(name) + r"((?: " + NAME + r")*) =", text)


class Walk:
    def __init__(self, data):
        self.d = data
        self.places = {p[0]: p for p in data["places"]}
        self.order = [p[0] for p in data["places"]]
        self.needs = {norm(o): n for o, n in data["needs"]}
        self.asked = {}
        for (o, n), (place, _) in zip(data["needs"], data["asked_at"]):
            self.asked[n] = place
        self.settled = {norm(x) for x in data.get("settled", [])}
        self.loops = {norm(l[0][0]): (l[0][1], l[1], c) for l, c in zip(data["loops"], data["changed"])}
        self.clauses = {}
        for p, c in zip(data["places"], data["clauses"]):
            if c:
                self.clauses[p[0]] = c.get("fields")
        self.arms = {p[0]: a for p, a in zip(data["places"], data["arms"]) if a}
        self.params = []
        self.left = []
        self.locals = {}
        self.today = {p[0]: n for p, n in zip(data["places"], data["places_by_name"])}
        self.spelled = {norm(p): p for p in self.today}

    def chain(self, place):
        out = []
        while place is not None and place in self.places:
            out.append(place)
            place = self.places[place][1]
        return out

    def path(self, chain, n, rest):
        """c, n times .before, then the fields of rest, as today's path."""
        if not rest:
            return None
        f = norm(rest[0])
        if f == "start" and len(rest) > 1 and rest[1] in ("args", "requires"):
            rest = rest[1:]
            f = norm(rest[0]) if rest else ""
        if f == "args" and len(rest) > 1:
            a = rest[1]
            m = re.fullmatch(r"t(\d+)", a)
            if m and a not in self.params and 0 < int(m[1]) <= len(self.params):
                a = self.params[int(m[1]) - 1]
            elif a not in self.params and a.replace("-", "_") in self.params:
                a = a.replace("-", "_")
            return "c." + ".".join([f, a] + rest[2:])
        if f in ("args", "requires", "ranges", "utf8", "type-inv", "well-formed"):
            return "c." + ".".join([f.replace("-", "_")] + rest[1:])
        best = None
        for g in dict.fromkeys((f, re.sub(r"-lem$", "", f), re.sub(r"(?<=[a-z-])\d+$", "", f), {"copy": "copy-from-slice"}.get(f, f))):
            for i, p in enumerate(chain):
                if norm(self.places[p][2][0]) == g:
                    d = abs(i - n)
                    if best is None or d < best[0]:
                        best = (d, p)
            if best:
                break
        if best is None:
            self.left.append(".".join(rest))
            return "c." + ".".join(rest)
        p = best[1]
        new = self.places[p][2][1]
        tail = rest[1:]
        step = norm(self.places[p][2][0])
        for q in chain[: chain.index(p) + 1][::-1]:
            arm = self.arms.get(q)
            for member, field, path in arm[2] if arm else []:
                if norm(field) == step and path and tail[: len(path)] == path:
                    return "c." + ".".join([arm[0], member] + tail[len(path):])
        if len(tail) >= 2 and tail[0] == "ensures" and tail[1].isdigit() and self.clauses.get(p):
            fields = self.clauses[p]
            if int(tail[1]) < len(fields):
                tail = ["ensures", fields[int(tail[1])]] + tail[2:]
        if f in self.loops and tail:
            _, names, changed = self.loops[f]
            for v, ch in zip(names, changed):
                if tail[0] == v and not ch:
                    return "c.args." + ".".join(tail)
        return "c." + ".".join([new] + tail)

    def body(self, text, ctx, place):
        """The body's contexts by today's paths: ctx is the old name of the context, place where it is asked."""
        chain = self.chain(place)
        alias = {ctx: 0}
        changed = True
        while changed:
            changed = False
            for m in re.finditer(r"let (" + NAME + r")(?: : " + NAME + r")? = (" + NAME + r")((?:\.before)*) in\s*\n?", text):
                if m[2] in alias and m[1] not in alias:
                    alias[m[1]] = alias[m[2]] + m[3].count(".before")
                    text = text[: m.start()] + text[m.end():]
                    changed = True
                    break
        # an alias of a step: let put = c.before.put in
        steps = {}
        changed = True
        while changed:
            changed = False
            for m in re.finditer(r"let (" + NAME + r") = (" + NAME + r")((?:\.before)*)((?:\." + NAME + r")+) in\s*\n?", text):
                if m[2] in alias and m[1] not in steps:
                    rest = m[4][1:].split(".")
                    if rest[0] == "before":
                        continue
                    if len(rest) == 1:
                        steps[m[1]] = self.path(chain, alias[m[2]] + m[3].count(".before"), rest)
                        text = text[: m.start()] + text[m.end():]
                        changed = True
                        break
        names = "|".join(re.escape(a) for a in sorted(alias, key=len, reverse=True))
        for local, at in self.locals.items():
            if at in chain:
                deep = "c" + ".before" * chain.index(at)
                text = re.sub(r"(?<![\w.'-])" + re.escape(local) + r" (?:" + names + r")(?:\.before)*(?![\w.'-])", "\0" + local + " " + deep + "\1", text)

        def turn(m):
            n = alias[m[1]] + len(re.findall(r"\.before(?![\w'-])", m[2]))
            rest = [x for x in m[2].split(".")[1:] if x != "before"]
            r = self.path(chain, n, rest)
            return r if r is not None else m[0]

        parts = re.split("(\0[^\1]*\1)", text)
        text = "".join(p[1:-1] if p[:1] == "\0" else re.sub(r"(?<![\w.'-])(" + names + r")((?:\." + NAME + r")+)", turn, p) for p in parts)
        for a, p in steps.items():
            text = re.sub(r"(?<![\w.'-])" + re.escape(a) + r"(?=\.)", p, text)
        made = {p[2][1] for p in self.places.values()} | {a[0] for a in self.arms.values()}
        return re.sub(r"(?<=\.)[a-z][\w']*(?:-[\w']+)+", lambda m: m[0] if m[0] in made else OWN.get(m[0], m[0]), text)


def params_of(crate, module):
    """The names of a function's parameters, by its source."""
    steps = module.split(".")
    name = steps[-1]
    for k in range(len(steps) - 1, -1, -1):
        p = os.path.join(crate, "src", *steps[:k]) + ".rt" if k else os.path.join(crate, "src", "lib.rt")
        if not os.path.exists(p) and not k:
            p = os.path.join(crate, "src", "main.rt")
        if os.path.exists(p):
            with open(p, encoding="utf-8") as f:
                t = f.read()
            m = re.search(r"\bfn " + re.escape(name) + r"(?:<[^>]*>)?\(", t)
            if not m:
                continue
            depth, i = 1, m.end()
            while depth and i < len(t):
                depth += t[i] in "([{"
                depth -= t[i] in ")]}"
                i += 1
            args = t[m.end(): i - 1]
            flat, depth = "", 0
            for ch in args:
                depth += ch in "([{<"
                depth -= ch in ")]}>"
                flat += "\0" if ch == "," and depth == 0 else ch
            out = []
            for a in flat.split("\0"):
                a = a.strip()
                if not a:
                    continue
                out.append("self" if re.fullmatch(r"&?(?:mut )?self", a) else re.sub(r"^mut ", "", a.split(":")[0].strip()))
            return out
    return []


def turn(crate, folder, data):
    where = os.path.join(folder, "Proof.antt")
    with open(where, encoding="utf-8") as f:
        text = f.read()
    bl, _ = blocks(text)
    w = Walk(data)
    module = os.path.relpath(folder, os.path.join(crate, "proofs")).replace(os.sep, ".")
    cname = os.path.basename(os.path.abspath(crate))
    w.params = params_of(crate, module)
    for m in re.finditer(r"(?m)^(" + NAME + r") : (?:\(" + NAME + r" : )?tie\.(?!Need-|invariant-|decreases-)(" + NAME + r")", text):
        if norm(m[2]) in w.spelled:
            w.locals[m[1]] = w.spelled[norm(m[2])]
    comments = []
    for line in text.split("\n"):
        if line.startswith("--"):
            comments.append(line)
        else:
            break
    uses, invariants, answers, locals_ = [], [], [], []
    for name, lines in bl:
        while lines and not lines[-1].strip():
            lines.pop()
        note = [l for l in lines if l.startswith("--")]
        lines = [l for l in lines if not l.startswith("--")]
        if name == "use":
            for l in lines:
                if not re.search(r"\.(Statement|Tie|Lts|Code)\b", l):
                    uses.append(l)
            continue
        if not lines:
            continue
        whole = "\n".join(lines)
        sig = re.match(r"(?:(?:abbrev|unfoldable|pub|opaque|private) )*" + NAME + r" *:\s*([^\n]*(?:\n    [^\n=]*)*?)(?=\n(?:unfolding|" + re.escape(name) + r"))", whole)
        ty = sig[1] if sig else ""
        m = re.match(r"tie\.invariant-(\S+)", ty)
        m2 = re.match(r"tie\.decreases-(\S+)", ty)
        if m or m2:
            key = norm((m or m2)[1])
            kind = "invariant" if m else "decreases"
            if key not in w.loops:
                invariants.append("-- LEFT\n" + re.sub("(?m)^", "-- ", whole))
                continue
            new, names, changed = w.loops[key]
            unf, eq, mm = equation(name, whole[sig.end():])
            params = mm[1].split()
            body = eq[mm.end():]
            vals = [("l.initial." + v if ch else "l." + v) for v, ch in zip(names, changed)] + ["l." + v for v, ch in zip(names, changed) if ch]
            sub = dict(zip(params, vals))
            if len(vals) != len(params):
                w.left.append(f"params of {name}: {params} {vals}")

            def put(t):
                return sub.get(t[0], t[0])

            body = re.sub(r"(?<![\w.'₀-])" + NAME, put, body)
            invariants.append(f"{unf}abbrev pub {kind}-{new} : goal.{kind}-{new}\n{kind}-{new} l ={body}")
            continue
        m = re.match(r"tie\.Need-(\S+)", ty)
        if m:
            old = norm(m[1])
            if old not in w.needs:
                if old in w.settled or re.search(r"=\s*(omega arith|search rules)\s*$", whole):
                    continue
                answers.append((None, "-- LEFT no goal " + m[1] + "\n" + re.sub("(?m)^", "-- ", whole)))
                w.left.append("no goal " + m[1])
                continue
            new = w.needs[old]
            unf, eq, mm = equation(name, whole[sig.end():])
            if not mm:
                w.left.append("form of " + name)
                answers.append((None, "-- LEFT\n" + re.sub("(?m)^", "-- ", whole)))
                continue
            params = mm[1].split()
            body = eq[mm.end():]
            if TRIVIAL.match(body.strip()) and not unf:
                continue
            ctx = params[0] if params else "c"
            if not new.startswith("returns") and re.match(r"\s*omega \(arith(, (\(?test\d+ )?c[\w.'-]*\)?[\w.'-]*)*\)\s*$", body) and not unf:
                continue
            body = w.body(body, ctx, w.asked[new])
            body = re.sub(r"\bnot-(?:true|false) (?:_|[\w.'-]+) (c\.if-not[\w.'-]*)", r"\1", body)
            extra = [p for p in params[1:] if p != "κs"]
            if TRIVIAL.match(body.strip()) and not unf:
                continue
            sep = "" if body.startswith("\n") or body.startswith(" ") else " "
            answers.append((new, "".join(n + "\n" for n in note) + f"pub {new} : goal.{new}\n{unf}{new} {' '.join(['c'] + extra)} ={sep}{body}"))
            continue
        if re.search(r"statement M|-spec\b", ty + name) and ("statement" in ty):
            continue
        if re.search(r"\btie\.(After|Else|Then|In|At)-", whole) and re.fullmatch(r"test\d+", name):
            continue
        if name in w.locals:
            place = w.locals[name]
            m = re.search(r"(?m)^" + re.escape(name) + r" (" + NAME + r")((?: " + NAME + r")*) =", whole)
            cut = m.start() if m else len(whole)
            sig, eq = whole[:cut], whole[cut:]
            k = re.search(r"\((" + NAME + r") : tie\." + NAME + r"[^)]*\)", sig)
            if k:
                sig = sig[: k.start()] + "(\2 : goal.\3)" + w.body(sig[k.end():], k[1], place)
                sig = sig.replace("\2", "c").replace("\3", w.today[place])
            else:
                sig = re.sub(r"tie\." + NAME + r"(?: (?:invariant|decreases)-" + NAME + r")*", "goal." + w.today[place], sig, count=1)
            if m:
                eq = name + " c" + m[2] + " =" + w.body(eq[m.end() - cut:], m[1], place)
            whole = sig + eq
        if "tie." in whole:
            w.left.append("local on a context: " + name)
        locals_.append("".join(n + "\n" for n in note) + whole)
    head = "\n".join(comments)
    usel = "\n".join(dict.fromkeys(uses))
    base = f"Rattle.{cname}.proofs.{module}"
    made = []
    for f in ("Invariants", "Answers"):
        p = os.path.join(folder, f + ".antt")
        if os.path.exists(p):
            os.remove(p)
    if invariants:
        t = (head + "\n" if head else "") + usel + f"\nuse {base}.Given as goal\n\n" + "\n\n".join(invariants) + "\n"
        with open(os.path.join(folder, "Invariants.antt"), "w", encoding="utf-8") as f:
            f.write(t)
        made.append("I")
    if answers:
        t = (head + "\n" if head and not invariants else "") + usel + f"\nuse {base}.Goals as goal\n\n" + "\n\n".join(locals_ + [a for _, a in answers]) + "\n"
        with open(os.path.join(folder, "Answers.antt"), "w", encoding="utf-8") as f:
            f.write(t)
        made.append("A")
    os.remove(where)
    return made, w.left


def main(argv):
    crate, names, only = argv[0], argv[1], argv[2:]
    with open(names) as f:
        data = json.load(f)
    cname = os.path.basename(os.path.abspath(crate))
    for key, d in sorted(data.items()):
        m = re.fullmatch(r"Rattle-" + cname + r"-proofs\.(.*)\.Lts", key)
        if not m:
            continue
        folder = os.path.join(crate, "proofs", *m[1].split("."))
        if not os.path.exists(os.path.join(folder, "Proof.antt")) or (only and m[1] not in only):
            continue
        try:
            made, left = turn(crate, folder, d)
            print(m[1], "+".join(made) or "none", "; ".join(left))
        except Exception as e:
            print(m[1], "FAILED", type(e).__name__, e)
    return 0


if __name__ == "__main__":
    raise SystemExit(main(sys.argv[1:]))
