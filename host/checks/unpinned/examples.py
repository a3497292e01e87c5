"""The examples that are computed: rows of tables, and closed equations."""
import signal

from checks.unpinned.reading import parsed
from checks.unpinned.values import F, Trouble, same
from checks.unpinned.working import Compiler


class Example:
    def __init__(self, title, run):
        self.title, self.run, self.seconds, self.reached = title, run, 0, set()


def equations(node):
    while node.kind == "parens":
        node = node.kids[0]
    if node.kind == "operator" and node.value == "×":
        return equations(node.kids[0]) + equations(node.kids[1])
    last = node
    while last.kind in ("let", "parens"):
        last = last.kids[-1]
    if last.kind == "operator" and last.value == "≡":
        return [node]
    raise Trouble("no equation")


def examples(house, made, quick):
    for d in list(house.definitions):
        if d.signature is None or d.parameters or quick and d.module.crate in ("link", "groups"):
            continue
        # a law may say a thing in the definition's own words
        if "Laws" in d.module.parts or "Proofs" in d.module.parts:
            continue
        words = [t.text for t in d.signature]
        if words in (["List", "Row"], ["Pinned"]) and d.clauses:
            def row(k, d=d):
                r = F(made.constant(d.number)[k])
                return same(r.fields["given"], r.fields["said"])
            try:
                rows = made.constant(d.number)
            except Trouble as e:
                yield d.title(), str(e)
                continue
            if not all({"name", "given", "said"} <= set(F(r).fields) for r in rows):
                yield d.title(), "rows that are no equations"
                continue
            for k, r in enumerate(rows):
                yield Example(f"{d.title()} \"{F(F(r).fields['name'])}\"", lambda k=k, row=row: row(k)), None
        elif "≡" in words and "→" not in words and d.clauses:
            try:
                found = equations(parsed(d.signature))
                for k, e in enumerate(found):
                    c = Compiler(made, d)
                    code = c.value(e, {})
                    space = dict(made.names)
                    yield Example(f"{d.title()} {k + 1}", lambda code=compile(code, d.title(), "eval"), space=space: eval(code, space)), None
            except Trouble as e:
                yield d.title(), str(e)


class Slow(Exception):
    pass


def slow(*_):
    raise Slow()


def tried(made, example, most):
    made.kept.clear()
    signal.setitimer(signal.ITIMER_REAL, most)
    try:
        return bool(example.run())
    finally:
        signal.setitimer(signal.ITIMER_REAL, 0)
