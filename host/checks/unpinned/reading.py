"""Reads terms of antt: words, and what they make together."""
import re

from checks.unpinned.values import Trouble

OPERATORS = {"×": (2, "R"), "≡": (4, "N"), "≢": (4, "N"), "||": (30, "L"), "∙": (30, "R"), "&&": (35, "L"), "≤": (50, "N"), "<": (50, "N"), "==": (50, "N"), "<?": (50, "N"), "≤?": (50, "N"),
    "+": (65, "L"), "-": (65, "L"), "++": (65, "L"), "∷": (67, "R"), "*": (70, "L"), "/": (70, "L"), "%": (70, "L"), "^": (75, "R")}
# what follows `else` goes on as far as this level
CHOICE = 5
KEYWORDS = {"λ", "let", "in", "if", "then", "else", "record", "→", ":", "=", "where", "∀", "rw", "omega", "simp", "search", "absurd"}

WORD = re.compile(r'--[^\n]*|\s+|"(?:\\.|[^"\\])*"|[(){};,]|[^\s(){};,"]+')


class Token:
    __slots__ = ("kind", "text", "start", "end")

    def __init__(self, kind, text, start, end):
        self.kind, self.text, self.start, self.end = kind, text, start, end


def parts(names, at_):
    """What is taken of a thing, part of part: each begins with a dot."""
    for name in names:
        yield Token("projection", name, at_, at_ + 1 + len(name))
        at_ += 1 + len(name)


def tokens(text, start=0, end=None, aliases=()):
    """The words of a text. What stands behind a dot is a part that is taken of a thing, but in a path, whose first name is a type's or an alias."""
    found, at_, end = [], start, len(text) if end is None else end
    while at_ < end:
        m = WORD.match(text, at_, end)
        w, a = m[0], at_
        at_ = m.end()
        if w.isspace() or w.startswith("--"):
            continue
        if w[0] == '"':
            found.append(Token("string", w, a, at_))
        elif w in "(){};,":
            found.append(Token(w, w, a, at_))
        elif re.fullmatch(r"\d+|0x[0-9A-Fa-f]+", w):
            found.append(Token("number", w, a, at_))
        elif w in OPERATORS:
            found.append(Token("operator", w, a, at_))
        elif w == ".":
            found.append(Token("dot", w, a, at_))
        elif w[0] == ".":
            found += parts(w[1:].split("."), a)
        elif w[0] == "λ" and len(w) > 1:
            found.append(Token("word", "λ", a, a + 1))
            at_ = a + 1
        elif w[-1] == "." and len(w) > 1:
            found.append(Token("word", w[:-1], a, at_ - 1))
            found.append(Token("dot", ".", at_ - 1, at_))
        elif "." in w and w[0].islower() and w.partition(".")[0] not in aliases:
            first, *taken = w.split(".")
            found.append(Token("word", first, a, a + len(first)))
            found += parts(taken, a + len(first))
        else:
            found.append(Token("word", w, a, at_))
    return found


class Node:
    __slots__ = ("kind", "value", "kids", "start", "end")

    def __init__(self, kind, value, kids, start, end):
        self.kind, self.value, self.kids, self.start, self.end = kind, value, kids, start, end


class Parser:
    def __init__(self, toks):
        self.toks, self.at = toks, 0

    def peek(self):
        return self.toks[self.at] if self.at < len(self.toks) else Token("end", "", 0, 0)

    def take(self, text=None):
        t = self.peek()
        if t.kind == "end" or text is not None and t.text != text:
            raise Trouble(f"'{text}' and not '{t.text}'")
        self.at += 1
        return t

    def expression(self, least=0):
        t = self.peek()
        if t.text == "λ" and t.kind == "word":
            left = self.abstraction()
        elif t.text == "let" and t.kind == "word":
            left = self.binding()
        elif t.text == "if" and t.kind == "word":
            left = self.choice()
        else:
            left = self.application()
        while True:
            t = self.peek()
            if t.kind != "operator" or OPERATORS[t.text][0] < least:
                return left
            level, side = OPERATORS[t.text]
            self.at += 1
            right = self.expression(level if side == "R" else level + 1)
            left = Node("operator", t.text, [left, right], left.start, right.end)

    def abstraction(self):
        start, names = self.take("λ").start, []
        while self.peek().kind != "dot":
            t = self.take()
            if t.text in ("(", "{"):
                while self.peek().text != ":":
                    names.append(self.take().text)
                self.skip(")" if t.text == "(" else "}")
            else:
                names.append(t.text)
        self.take(".")
        body = self.expression()
        return Node("lambda", names, [body], start, body.end)

    def skip(self, close):
        depth = 0
        while True:
            t = self.take()
            if t.text in "({" and t.kind != "string":
                depth += 1
            elif t.text in (")", "}") and t.kind != "string":
                if depth == 0:
                    return
                depth -= 1

    def binding(self):
        start, name = self.take("let").start, self.take().text
        if self.peek().text == ":":
            while self.peek().text != "=":
                self.take()
        self.take("=")
        made = self.expression()
        self.take("in")
        body = self.expression()
        return Node("let", name, [made, body], start, body.end)

    def choice(self):
        start, test = self.take("if").start, self.expression()
        self.take("then")
        one = self.expression()
        self.take("else")
        other = self.expression(CHOICE)
        return Node("choice", None, [test, one, other], start, other.end)

    def application(self):
        head = self.atom()
        args, start = [], head.start
        while True:
            t = self.peek()
            if t.text == "{" and t.kind == "{":
                self.at += 1
                self.skip("}")
            elif t.kind in ("number", "string", "(") or t.kind == "word" and (t.text not in KEYWORDS or t.text == "record"):
                args.append(self.atom())
            else:
                return Node("application", None, [head] + args, start, args[-1].end) if args else head

    def atom(self):
        """A thing with the parts that are taken of it."""
        node = self.thing()
        while self.peek().kind == "projection" and self.peek().start == node.end:
            t = self.take()
            node = Node("projection", t.text, [node], node.start, t.end)
        return node

    def thing(self):
        t = self.take()
        if t.kind == "number":
            return Node("number", int(t.text, 0), [], t.start, t.end)
        if t.kind == "string":
            return Node("string", t.text, [], t.start, t.end)
        if t.kind == "(":
            kids = []
            while self.peek().kind != ")":
                kids.append(self.expression())
                if self.peek().kind == ",":
                    self.take()
            end = self.take(")").end
            if len(kids) == 1:
                return Node("parens", None, kids, t.start, end)
            return Node("tuple", None, kids, t.start, end)
        if t.text == "record":
            self.take("{")
            names, kids = [], []
            while self.peek().kind != "}":
                names.append(self.take().text)
                self.take("=")
                kids.append(self.expression())
                if self.peek().kind == ";":
                    self.take()
            return Node("record", names, kids, t.start, self.take("}").end)
        if t.kind == "word" and t.text not in KEYWORDS:
            return Node("name", t.text, [], t.start, t.end)
        raise Trouble(f"'{t.text}' here")


def parsed(toks):
    p = Parser(toks)
    node = p.expression()
    if p.peek().kind != "end":
        raise Trouble(f"'{p.peek().text}' is left")
    return node
