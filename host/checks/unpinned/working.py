"""Works definitions out: each becomes a function of Python."""
import re

from checks.unpinned.reading import OPERATORS, Node, Parser, parsed
from checks.unpinned.values import LIBRARY, VALUES, A, Con, F, Fun, Later, Rec, Trouble, field, power, same


class Made:
    """The definitions as functions, each by its number, and what a run has reached."""

    def __init__(self, house):
        self.house, self.reached, self.kept, self.texts = house, set(), {}, {}
        self.names = {"F": F, "A": A, "Later": Later, "Con": Con, "Rec": Rec, "Fun": Fun, "field": field, "power": power, "Trouble": Trouble,
            "K": self.constant, "G": self.function, "L": LIBRARY, "same": same}
        self.arities = {}

    def arity(self, d):
        if d.number not in self.arities:
            if not d.clauses:
                raise Trouble(f"{d.title()} has no clause")
            p = Parser(d.clauses[0][0])
            count = 0
            while p.peek().kind != "end":
                if p.peek().kind == "{":
                    p.take()
                    p.skip("}")
                else:
                    p.atom()
                    count += 1
            self.arities[d.number] = count + len(d.parameters)
        return self.arities[d.number]

    def function(self, number):
        made = self.texts.get(number)
        if made is None:
            made = self.texts[number] = self.compiled(self.house.definitions[number])
        return made

    def constant(self, number):
        if number not in self.kept:
            self.kept[number] = Later(self.function(number))
        return F(self.kept[number])

    def compiled(self, d, clauses=None):
        c = Compiler(self, d)
        text = c.definition(clauses or d.clauses)
        space = dict(self.names)
        space["reached"] = self.reached
        exec(compile(text, d.title(), "exec"), space)
        return space["made"]


class Compiler:
    def __init__(self, made, d):
        self.made, self.house, self.d, self.m = made, made.house, d, d.module
        self.count, self.lines = 0, []

    def fresh(self):
        self.count += 1
        return f"v{self.count}"

    def definition(self, clauses):
        n = self.made.arity(self.d)
        args = [f"a{k}" for k in range(n)]
        out = [f"def made({', '.join(args)}):", f" reached.add({self.d.number})"]
        for left, right in clauses:
            env = {name: args[k] for k, name in enumerate(self.d.parameters)}
            p, pats = Parser(left), []
            while p.peek().kind != "end":
                if p.peek().kind == "{":
                    p.take()
                    p.skip("}")
                else:
                    pats.append(p.atom())
            if len(pats) + len(self.d.parameters) != n:
                raise Trouble(f"{self.d.title()} has clauses of different lengths")
            self.lines = []
            for k, pat in enumerate(pats):
                self.pattern(pat, args[k + len(self.d.parameters)], env)
            body = self.value(parsed(right), env)
            out.append(" while True:")
            out += ["  " + line for line in self.lines]
            out.append(f"  return {body}")
        out.append(f" raise Trouble('no clause of {self.d.name} fits')")
        return "\n".join(out)

    def pattern(self, p, arg, env):
        while p.kind == "parens":
            p = p.kids[0]
        if p.kind == "name" and p.value == "_":
            return
        if p.kind == "number":
            self.lines.append(f"if F({arg}) != {p.value}: break")
            return
        if p.kind == "operator" and p.value == "∷":
            v, h, t = self.fresh(), self.fresh(), self.fresh()
            self.lines += [f"{v} = F({arg})", f"if not {v}: break", f"{h} = {v}[0]", f"{t} = {v}[1:]"]
            self.pattern(p.kids[0], h, env)
            self.pattern(p.kids[1], t, env)
            return
        head, kids = (p.kids[0], p.kids[1:]) if p.kind == "application" else (p, [])
        if p.kind == "tuple":
            for k, kid in enumerate(p.kids):
                v = self.fresh()
                self.lines.append(f"{v} = field(F({arg}), '{k}')")
                self.pattern(kid, v, env)
            return
        if head.kind != "name":
            raise Trouble("a pattern")
        name = head.value
        if name == "suc":
            v = self.fresh()
            self.lines += [f"{v} = F({arg})", f"if {v} == 0: break", f"{v} = {v} - 1"]
            self.pattern(kids[0], v, env)
            return
        if name in VALUES:
            self.lines.append(f"if F({arg}) != {VALUES[name]}: break")
            return
        what = self.house.look(self.m, name)
        if type(what) is tuple and what[0] == "constructor":
            v = self.fresh()
            self.lines += [f"{v} = F({arg})", f"if {v}.name != {what[1]!r}: break"]
            for k, kid in enumerate(kids):
                w = self.fresh()
                self.lines.append(f"{w} = {v}.args[{k}]")
                self.pattern(kid, w, env)
            return
        env[name] = arg

    def name(self, text, env):
        """The value of a name: code, and how many arguments the function takes that it names, with its code."""
        if text in env:
            return f"F({env[text]})", None, None
        if text in VALUES:
            return VALUES[text], None, None
        what = self.house.look(self.m, text)
        if type(what) is tuple:
            kind, own = what
            if kind == "constructor":
                return f"Con({own!r})", None, None
            if own in VALUES:
                return VALUES[own], None, None
            if own in LIBRARY:
                arity = LIBRARY[own][0]
                return f"Fun({arity}, L[{own!r}][1])", arity, f"L[{own!r}][1]"
            raise Trouble(f"{own} is not known ({self.d.title()})")
        n = self.made.arity(what)
        inside = 0
        if what.module is self.m and what.parameters:
            while inside < len(what.parameters) and inside < len(self.d.parameters) and what.parameters[inside] == self.d.parameters[inside]:
                inside += 1
        if n == 0:
            return f"K({what.number})", None, None
        given = ", ".join(f"a{k}" for k in range(inside))
        if inside == n:
            return f"G({what.number})({given})", None, None
        call = f"G({what.number})" if not inside else f"(lambda *x: G({what.number})({given}, *x))"
        return f"Fun({n - inside}, lambda *x: {call}(*x))", n - inside, call

    def later(self, e, env):
        while e.kind == "parens":
            e = e.kids[0]
        if e.kind in ("number", "string", "lambda", "record", "tuple"):
            return self.value(e, env)
        if e.kind == "name" and e.value in env:
            return env[e.value]
        if e.kind == "name" and e.value in VALUES:
            return VALUES[e.value]
        return f"Later(lambda: {self.value(e, env)})"

    def value(self, e, env):
        if e.kind == "parens":
            return self.value(e.kids[0], env)
        if e.kind == "number":
            return str(e.value)
        if e.kind == "string":
            return repr(re.sub(r"\\(.)", lambda m: {"t": "\t", "n": "\n", "r": "\r"}.get(m[1], m[1]), e.value[1:-1]))
        if e.kind == "name":
            return self.name(e.value, env)[0]
        if e.kind == "lambda":
            inner, names = dict(env), []
            for n in e.value:
                v = self.fresh()
                names.append(v)
                if n != "_":
                    inner[n] = v
            return f"Fun({len(names)}, lambda {', '.join(names)}: {self.value(e.kids[0], inner)})"
        if e.kind == "let":
            v = self.fresh()
            return f"(lambda {v}: {self.value(e.kids[1], {**env, e.value: v})})({self.later(e.kids[0], env)})"
        if e.kind == "projection":
            return f"field({self.value(e.kids[0], env)}, {e.value!r})"
        if e.kind == "record":
            return "Rec({" + ", ".join(f"{n!r}: {self.later(k, env)}" for n, k in zip(e.value, e.kids)) + "})"
        if e.kind == "tuple":
            return "Rec({" + ", ".join(f"'{n}': {self.later(k, env)}" for n, k in enumerate(e.kids)) + "})"
        if e.kind == "choice":
            test, one, other = (self.value(k, env) for k in e.kids)
            return f"({one} if {test} else {other})"
        if e.kind == "operator":
            return self.operator(e, env)
        return self.applied(e, env)

    def operator(self, e, env):
        if e.value == "∷":
            firsts, rest = [], e
            while rest.kind == "operator" and rest.value == "∷":
                firsts.append(self.later(rest.kids[0], env))
                rest = rest.kids[1]
            return f"(({', '.join(firsts)},) + {self.value(rest, env)})"
        a, b = (self.value(k, env) for k in e.kids)
        forms = {"≤": "({} <= {})", "<": "({} < {})", "==": "({} == {})", "<?": "({} < {})", "≤?": "({} <= {})", "&&": "({} and {})", "||": "({} or {})", "+": "({} + {})", "-": "max(0, {} - {})", "*": "({} * {})", "++": "({} + {})", "^": "power({}, {})",
            "/": "(lambda x, y: x // y if y else 0)({}, {})", "%": "(lambda x, y: x % y if y else x)({}, {})", "≡": "same({}, {})"}
        if e.value not in forms:
            raise Trouble(f"the operator {e.value}")
        return forms[e.value].format(a, b)

    def applied(self, e, env):
        head, args = e.kids[0], e.kids[1:]
        while head.kind == "parens":
            head = head.kids[0]
        if head.kind != "name":
            return f"A({self.value(head, env)}, {', '.join(self.later(k, env) for k in args)})"
        if head.value.strip("◌") in OPERATORS or head.value.split(".")[-1].strip("◌") in OPERATORS:
            sign = head.value.split(".")[-1].strip("◌")
            return self.operator(Node("operator", sign, args, e.start, e.end), env)
        code, n, call = self.name(head.value, env)
        if n is None or len(args) < n:
            return f"A({code}, {', '.join(self.later(k, env) for k in args)})"
        own, more = args[:n], args[n:]
        if head.value not in env:
            what = self.house.look(self.m, head.value)
            if what == ("library", "cond"):
                done = f"({self.value(own[1], env)} if {self.value(own[0], env)} else {self.value(own[2], env)})"
                return f"A({done}, {', '.join(self.later(k, env) for k in more)})" if more else done
            if type(what) is tuple and what[1] in ("eqb", "ltb", "leb", "not"):
                return {"eqb": "({} == {})", "ltb": "({} < {})", "leb": "({} <= {})", "not": "(not {})"}[what[1]].format(*(self.value(k, env) for k in own))
        done = f"{call}({', '.join(self.later(k, env) for k in own)})"
        return f"A({done}, {', '.join(self.later(k, env) for k in more)})" if more else done
