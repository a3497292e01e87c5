"""Reads the public functions of Rattle's source files, with their contracts."""
import collections
import re

# name: crate::module::function; parameters: their text; result: whether it has one; clauses: pairs of requires, ensures
# or ghost and the text in the braces; contract: the whole text before the body, each gap one space
Function = collections.namedtuple("Function", "name parameters result clauses contract")


def without_comments(text):
    """The text with comments and the insides of literals blanked, so that braces count."""
    literal = r"""//[^\n]*|/\*.*?\*/|b?"(?:\\.|[^"\\])*"|b'(?:\\.|[^'\\])'"""
    return re.sub(literal, lambda m: '"' if m[0][-1] == '"' else " ", text, flags=re.S)


def closing(text, start):
    """Where the bracket that opens at start is closed."""
    pairs = {"(": ")", "{": "}", "[": "]"}
    depth = 0
    for i in range(start, len(text)):
        if text[i] == text[start]:
            depth += 1
        elif text[i] == pairs[text[start]]:
            depth -= 1
            if depth == 0:
                return i
    raise ValueError(f"a {text[start]} is never closed")


ITEM = re.compile(
    r"""[{}]
    | \b(?:mod|impl)\b(?:\s*<[^>]*>)?\s+(?P<scope>\w+)[^{};]*\{
    | \b(?P<public>pub\s+)?(?P<foreign>extern\s*"\s*)?\bfn\s+(?P<function>\w+)""",
    re.X,
)
CLAUSE = re.compile(r"\b(requires|ensures|ghost)\b(?:\s+\w+)?\s*$")


def header(text, at):
    """Reads on from a function's name to its body: the parameters, whether there is a result, the clauses, and where
    the body starts."""
    start = text.index("(", at)
    after = closing(text, start) + 1
    result = re.match(r"\s*->\s*(?!\(\s*\))", text[after:])
    clauses, part, i = [], after, after
    while i < len(text):
        if text[i] in "([":
            i = closing(text, i)
        elif text[i] in "{;":
            clause = CLAUSE.search(text[part:i])
            if not clause:
                return text[start:after], bool(result), clauses, i
            end = closing(text, i)
            clauses.append((clause[1], text[i + 1 : end]))
            i, part = end, end + 1
        i += 1
    raise ValueError("a function has no body")


def functions(text, path):
    """Gives each public function of a file; path is the crate and the module that the file is."""
    text = without_comments(text)
    scopes, at = [], 0
    while True:
        item = ITEM.search(text, at)
        if not item:
            return
        at = item.end()
        if item["scope"]:
            scopes.append(item["scope"])
        elif item[0] == "{":
            scopes.append(None)
        elif item[0] == "}":
            if not scopes:
                raise ValueError("a } closes nothing")
            scopes.pop()
        else:
            parameters, result, clauses, at = header(text, at)
            if item["public"] or item["foreign"]:
                name = "::".join(path + [s for s in scopes if s] + [item["function"]])
                yield Function(name, parameters, result, clauses, " ".join(text[item.start() : at].split()))


def module_path(file, src):
    """crate::module of a source file."""
    parts = list(file.relative_to(src).with_suffix("").parts)
    if parts[-1] in ("lib", "main", "mod"):
        parts.pop()
    return [src.parent.name] + parts


def parted(clause):
    """The parts of the clause that × joins."""
    body = clause.strip()
    parts, depth, start = [], 0, 0
    for i, sign in enumerate(body):
        depth += (sign in "({") - (sign in ")}")
        if sign == "×" and depth == 0:
            parts.append(body[start:i])
            start = i + 1
    parts.append(body[start:])
    return [unwrapped(p.strip()) for p in parts]


def unwrapped(part):
    """The part without a pair of brackets round the whole of it."""
    while part.startswith("(") and closing(part, 0) == len(part) - 1:
        part = part[1:-1].strip()
    return part


def lent(parameters):
    """The names of the parameters that are lent to be changed."""
    if re.search(r"&\s*('\w+\s+)?mut\s+self\b", parameters):
        yield "self"
    yield from (m[1] for m in re.finditer(r"(\w+)\s*:\s*&\s*(?:'\w+\s+)?mut\b", parameters))
