"""Values as this program has them: numbers, truth as Python's, lists as tuples of values or of what is still to be worked
out; and the library's functions."""


class Trouble(Exception):
    """What this program cannot read, or cannot work out."""


class Later:
    __slots__ = ("make", "value")

    def __init__(self, make):
        self.make = make


def F(x):
    while type(x) is Later:
        if x.make is not None:
            x.value = x.make()
            x.make = None
        x = x.value
    return x


class Con:
    __slots__ = ("name", "args")

    def __init__(self, name, args=()):
        self.name, self.args = name, args


class Rec:
    __slots__ = ("fields",)

    def __init__(self, fields):
        self.fields = fields


class Fun:
    __slots__ = ("arity", "body")

    def __init__(self, arity, body):
        self.arity, self.body = arity, body


def A(f, *args):
    while args:
        if type(f) is Fun:
            n = f.arity
            if len(args) < n:
                g = f.body
                return Fun(n - len(args), lambda *more: g(*args, *more))
            f, args = f.body(*args[:n]), args[n:]
        elif type(f) is Con:
            return Con(f.name, f.args + tuple(args))
        else:
            raise Trouble(f"{f!r} is no function")
    return f


def field(r, name):
    if type(r) is not Rec or name not in r.fields:
        raise Trouble(f"no field {name}")
    return F(r.fields[name])


def same(a, b):
    a, b = F(a), F(b)
    if type(a) is tuple:
        return type(b) is tuple and len(a) == len(b) and all(same(x, y) for x, y in zip(a, b))
    if type(a) is Con:
        return type(b) is Con and a.name == b.name and len(a.args) == len(b.args) and all(same(x, y) for x, y in zip(a.args, b.args))
    if type(a) is Rec:
        return type(b) is Rec and a.fields.keys() == b.fields.keys() and all(same(a.fields[k], b.fields[k]) for k in a.fields)
    if type(a) is Fun or type(b) is Fun:
        raise Trouble("functions compared")
    return type(a) is type(b) and a == b


def length(l):
    return len(F(l))


def at(l, i, d):
    l, i = F(l), F(i)
    return F(l[i]) if i < len(l) else F(d)


def put(l, i, v):
    l, i = F(l), F(i)
    return l[:i] + (v,) + l[i + 1:] if i < len(l) else l


def puts(l, i, vs):
    l, i, vs = F(l), F(i), F(vs)
    for k, v in enumerate(vs):
        l = put(l, i + k, v)
    return l


def tabulated(n, f):
    n, f = F(n), F(f)
    return tuple(Later(lambda k=k: F(A(f, k))) for k in range(n))


def drawn(t, f, d):
    t, f, d = F(t), F(f), F(d)
    return tuple(Later(lambda k=k, x=x: F(A(f, k)) if F(A(t, k)) else F(x)) for k, x in enumerate(d))


def index(b, l):
    b, l = F(b), F(l)
    return next((k for k, x in enumerate(l) if F(x) == b), len(l))


def power(a, b):
    if b > 4096:
        raise Trouble("a power too high")
    return a ** b


# the library's functions: how many arguments, and what they give
LIBRARY = {
    "not": (1, lambda a: not F(a)),
    "eqb": (2, lambda a, b: F(a) == F(b)),
    "ltb": (2, lambda a, b: F(a) < F(b)),
    "leb": (2, lambda a, b: F(a) <= F(b)),
    "beq": (2, lambda a, b: F(a) is F(b)),
    "cond": (3, lambda c, a, b: F(a) if F(c) else F(b)),
    "suc": (1, lambda a: F(a) + 1),
    "min": (2, lambda a, b: min(F(a), F(b))),
    "bit_xor": (2, lambda a, b: F(a) ^ F(b)),
    "length": (1, length),
    "get_or": (3, at),
    "slice_index_or": (3, at),
    "slice_index": (2, lambda l, i: at(l, i, 0)),
    "set": (3, put),
    "slice_set": (3, put),
    "sets": (3, puts),
    "take": (2, lambda n, l: F(l)[:F(n)]),
    "drop": (2, lambda n, l: F(l)[F(n):]),
    "slice": (3, lambda f, t, l: F(l)[:F(t)][F(f):]),
    "replicate": (2, lambda n, x: (x,) * F(n)),
    "reverse": (1, lambda l: F(l)[::-1]),
    "index_of": (2, index),
    "ascii": (1, lambda s: tuple(F(s).encode("latin-1"))),
    "tabulate": (2, tabulated),
    "drawn": (3, drawn),
    # crates/tables: a row, and rows that pin a sentence
    "row": (4, lambda name, given, said, holds: Rec({"name": name, "given": given, "said": said})),
    "pins": (2, lambda sentence, rows: F(rows)),
}
VALUES = {"true": "True", "false": "False", "zero": "0", "[]": "()", "tt": "()", "refl": "()", "same": "()"}
