"""Changes of a definition in one place: each is where it begins and ends in the file's text, and the text instead."""
import re

from checks.unpinned.files import Definition
from checks.unpinned.reading import Parser, parsed, tokens
from checks.unpinned.values import VALUES

# functions that give the same with two arguments exchanged
EITHER = ("same_bytes", "same_row", "same_bits", "apart", "plus")
# a comparison, and the one that is put for it
COMPARISONS = {"<?": "≤?", "≤?": "<?", "==": "≤?"}
# types of numbers, of definitions and of structs
NUMBERS = ("ℕ", "u8", "u16", "u32", "u64", "usize")


def variables(node, found):
    if node.kind == "name":
        found.add(node.value)
    for kid in node.kids:
        variables(kid, found)
    return found


def plain_type(house, m, words):
    """A type's words, with what a name of a type stands for in its place."""
    plain = []
    for w in words:
        what = house.look(m, w) if re.match(r"[A-Z]", w) else None
        if type(what) is Definition and len(what.clauses) == 1 and [t.text for t in what.signature or []] == ["Type", "0"]:
            own = plain_type(house, what.module, [t.text for t in what.clauses[0][1]])
            plain += own if len(own) == 1 or len(words) == 1 else ["(", *own, ")"]
        else:
            plain.append(w)
    return plain


def types_in(house, m, signature):
    """The types of the arguments and of the answer as texts, from a signature of a module, with names that it binds left out."""
    parts, depth, current = [], 0, []
    for t in signature:
        depth += t.kind in ("(", "{")
        depth -= t.kind in (")", "}")
        if depth == 0 and t.text == "→":
            parts.append(current)
            current = []
        else:
            current.append(t.text)
    types = []
    for words in parts + [current]:
        while words:
            close = next((k for k in range(len(words)) if sum((w in "({") - (w in ")}") for w in words[:k + 1]) == 0), len(words) - 1)
            if words[0] not in ("(", "{") or ":" not in words[:close]:
                types.append(" ".join(plain_type(house, m, words[1:-1] if words[0] == "(" and close == len(words) - 1 else words)))
                break
            mark = words.index(":")
            if words[0] == "(":
                types += [" ".join(plain_type(house, m, words[mark + 1:close]))] * (mark - 1)
            words = words[close + 1:]
    return types


def types_of(house, d):
    return types_in(house, d.module, d.signature or [])


def argument_types(house, d):
    return types_of(house, d)[:-1]


def taken(house, m, name):
    """The types of what a definition or a constructor takes, by its name in a module; none where they are not known."""
    what = house.look(m, name)
    if type(what) is Definition:
        return argument_types(house, what)
    said = dict(house.variants.get(house.type_of(m, name), [])).get(what[1], "").strip() if what[0] == "constructor" else ""
    # an enum of the code has its types in brackets, a choice of the definitions a signature
    if said.startswith("(") and said.endswith(")") and "→" not in said:
        return [kind.strip() for kind in said[1:-1].split(",")]
    return types_in(house, m, tokens(said))[:-1]


def changes(house, d):
    """Each change of a definition: where, and the text instead."""
    text = d.module.text
    kinds = argument_types(house, d)
    bodies = []
    for left, right in d.clauses:
        p, pats = Parser(left), []
        while p.peek().kind != "end":
            pats.append(p.atom())
        bodies.append((pats, parsed(right)))
    for n, (pats, body) in enumerate(bodies):
        bound = {}
        if len(pats) == len(kinds):
            for pat, kind in zip(pats, kinds):
                if pat.kind == "name" and pat.value != "_":
                    bound[pat.value] = kind
        yield from inside(house, d, body, bound, text)
        here = set()
        for pat in pats:
            variables(pat, here)
        for k, (others, other) in enumerate(bodies):
            if k != n and abs(k - n) == 1:
                wanted = {v for pat in others for v in variables(pat, set()) if type(house.look(d.module, v)) is tuple and house.look(d.module, v)[0] == "library" and v not in VALUES}
                new = text[other.start:other.end]
                if (wanted & variables(other, set())) <= here and new != text[body.start:body.end]:
                    yield body.start, body.end, new


def constants(house, d):
    """Changes that put a constant for a truth or a number: for a whole answer, for what a call or a constructor takes, for a
    field of a record."""
    text = d.module.text
    answer = [t.text for t in d.signature][-2:]
    for _, right in d.clauses:
        body = parsed(right)
        if answer[-1:] == ["Bool"] and answer != ["List", "Bool"]:
            yield from put_for(body, "Bool", text)
        yield from constants_in(house, d, body, text)


def put_for(node, kind, text):
    # all kinds of packets have one clock today: a kind says nothing
    if text[node.start:node.end].strip("()").endswith("kind") or node.kind == "number":
        return
    for new in {"Bool": ("true", "false"), "bool": ("true", "false")}.get(kind, ("0", "1") if kind in NUMBERS else ()):
        if text[node.start:node.end] != new:
            yield node.start, node.end, new


def constants_in(house, d, e, text):
    if e.kind == "record":
        fields = house.structs.get(frozenset(n.strip("«»") for n in e.value)) or {}
        for name, kid in zip(e.value, e.kids):
            yield from put_for(kid, fields.get(name.strip("«»")), text)
    elif e.kind == "application":
        types = taken(house, d.module, e.kids[0].value) if e.kids[0].kind == "name" else []
        if len(types) == len(e.kids) - 1:
            for kind, kid in zip(types, e.kids[1:]):
                yield from put_for(kid, kind, text)
    for kid in e.kids:
        yield from constants_in(house, d, kid, text)


def others(house, d):
    """Changes that halve or double a number, or call another definition of the same signature that the module has or brings in."""
    m = d.module
    by_signature = {}
    for name in [*m.definitions, *m.imports]:
        what = house.look(m, name)
        if type(what) is Definition and what.signature and what is not d:
            by_signature.setdefault(" → ".join(types_of(house, what)), []).append(name)
    for left, right in d.clauses:
        p, here = Parser(left), set()
        while p.peek().kind != "end":
            variables(p.atom(), here)
        yield from others_in(house, m, parsed(right), here, by_signature)


def others_in(house, m, e, here, by_signature):
    if e.kind == "number" and e.value > 2:
        yield e.start, e.end, str(e.value // 2)
        yield e.start, e.end, str(e.value * 2)
    elif e.kind == "name" and e.value not in here:
        what = house.look(m, e.value)
        if type(what) is Definition and what.signature:
            for name in by_signature.get(" → ".join(types_of(house, what)), []):
                if house.look(m, name) is not what:
                    yield e.start, e.end, name
    for kid in e.kids:
        yield from others_in(house, m, kid, here, by_signature)


def inside(house, d, e, bound, text):
    def of(node):
        return text[node.start:node.end]

    def wrapped(node):
        return of(node) if node.kind in ("parens", "number", "name", "string", "record", "tuple") else f"({of(node)})"

    if e.kind == "number":
        yield e.start, e.end, str(e.value + 1)
        if e.value > 1:
            yield e.start, e.end, str(e.value - 1)
    elif e.kind == "string":
        yield e.start, e.end, e.value[:-1] + 'x"'
    elif e.kind == "name":
        yield from renamed(house, d, e, bound)
    elif e.kind == "operator":
        a, b = e.kids
        if e.value in ("&&", "||"):
            yield e.start, e.end, of(a)
            yield e.start, e.end, of(b)
            yield e.start, e.end, f"{wrapped(a)} {'||' if e.value == '&&' else '&&'} {wrapped(b)}"
        elif e.value in COMPARISONS:
            yield e.start, e.end, f"{of(a)} {COMPARISONS[e.value]} {of(b)}"
        elif e.value in ("+", "-", "++", "%", "/", "*"):
            yield e.start, e.end, of(a)
            if e.value in ("+", "++", "-"):
                yield e.start, e.end, of(b)
            if e.value == "++":
                yield e.start, e.end, f"{wrapped(b)} ++ {wrapped(a)}"
    elif e.kind == "projection":
        # of a struct that has all fields which are asked of the same thing here
        same_kind, own, base = set(), e.value.strip("«»"), of(e.kids[0])
        asked = {f.strip("«»") for left, right in d.clauses for f in re.findall(re.escape(base) + r"\.(\w+|«\w+»)", text[right[0].start:right[-1].end])}
        for fields in house.structs.values():
            if own in fields and asked <= set(fields):
                names = [f for f in fields if fields[f] == fields[own]]
                if len(names) > 1:
                    same_kind.add(names[(names.index(own) + 1) % len(names)])
        for f in sorted(same_kind):
            yield e.kids[0].end, e.end, f".{f}"
    elif e.kind == "record":
        fields = house.structs.get(frozenset(n.strip("«»") for n in e.value))
        for k, name in enumerate(e.value):
            for j in range(k + 1, len(e.value)):
                if fields and fields[name.strip("«»")] == fields[e.value[j].strip("«»")] and of(e.kids[k]) != of(e.kids[j]):
                    yield e.kids[k].start, e.kids[k].end, of(e.kids[j])
                    yield e.kids[j].start, e.kids[j].end, of(e.kids[k])
                    break
    elif e.kind == "choice":
        yield e.start, e.end, of(e.kids[1])
        yield e.start, e.end, of(e.kids[2])
    elif e.kind == "application":
        head, args = e.kids[0], e.kids[1:]
        what = house.look(d.module, head.value) if head.kind == "name" and head.value not in bound else None
        if what == ("library", "not"):
            yield e.start, e.end, of(args[0])
        elif type(what) is Definition or what and what[0] == "constructor":
            types = taken(house, d.module, head.value)
            own = types if type(what) is tuple or not what.parameters or len(types) == len(args) else []
            for k in range(min(len(args), len(own)) - 1):
                if own[k] == own[k + 1] and of(args[k]) != of(args[k + 1]) and head.value not in EITHER:
                    yield args[k].start, args[k + 1].end, f"{of(args[k + 1])} {of(args[k])}"
        elif what == ("library", "get_or") and len(args) == 3:
            # what stands for a place beyond the list is left as it is
            for kid in args[:2]:
                yield from inside(house, d, kid, bound, text)
            return
    for kid in e.kids:
        yield from inside(house, d, kid, bound, text)


def renamed(house, d, e, bound):
    if e.value in bound:
        others = [v for v in bound if bound[v] == bound[e.value]]
        if len(others) > 1:
            yield e.start, e.end, others[(others.index(e.value) + 1) % len(others)]
        return
    swaps = {"true": "false", "false": "true"}
    if e.value in swaps:
        yield e.start, e.end, swaps[e.value]
        return
    what = house.look(d.module, e.value)
    if type(what) is tuple and what[0] == "constructor":
        kinds = dict(house.variants.get(house.type_of(d.module, e.value), []))
        alike = [v for v in kinds if what[1] in kinds and kinds[v].strip() == kinds[what[1]].strip()]
        if len(alike) > 1:
            yield e.start, e.end, e.value[:len(e.value) - len(what[1])] + alike[(alike.index(what[1]) + 1) % len(alike)]


def changed(d, start, end, new):
    """The clauses of a definition with a text instead of another."""
    text = d.module.text
    clauses = []
    for left, right in d.clauses:
        if right and right[0].start <= start and end <= right[-1].end:
            piece = text[right[0].start:start] + new + text[end:right[-1].end]
            clauses.append((left, tokens(piece)))
        else:
            clauses.append((left, right))
    return clauses
