"""refusals [FOLDER]: each row of the table of refusals is of its entry point's contract.

The table (crates/conformance/specs/Refusals.antt) has rows `row "NAME" CALL PROOF`. A call is defined in a file beside
it, by `stateless REFUSALS ANSWER LENT LEFT` or `stateful REFUSALS ANSWER LENT LEFT GIVEN RETURNED EMPTY`, or by another
definition there that ends so. What is proved of it says something of the entry point only if these are the contract's
own terms. So, with the call's parameters named by place as the function's are, and x.old and x.now of a lent one read as x:
- the answer is the result of the `ensures`, or its part .answer or .number, under a function that a method `number` of
  the crates promises or that is `number_told` of one, or bare; a result told X, an Ok or an Err by the answer in the record X, counts as X, and so
  does a part of X alone where a law NAME_done says that the answer of that function is Done;
- each slice lent to be changed is in LENT, and what stands for it in LEFT is what the `ensures` has for it afterwards; or
  it is GIVEN, and RETURNED is; of several numbers that are lent so, GIVEN and RETURNED are tuples, in one order;
- any other RETURNED, or each part of a tuple, is a part of the result, and where the answer is a part there is a RETURNED. A
  result told X has no value under a refusal: then the GIVEN is a parameter, which the caller keeps, or the contract says
  `result_unwrap_or result GIVEN ≡ RETURNED`, of whoever takes the GIVEN where the call is refused.
"""
import re

from checks.contracts import functions, lent, module_path, parted
from checks.exports import EXPORTS, LIBRARIES

# under such a name a definition tells an answer, or a record that has one, as a Result
TOLD = re.compile(r"(?:[a-z]+_)?told(?:_[a-z]+)?")
TOKEN = re.compile(r"\(|\)|,|\.\w+|[^\s(),.]+|\.")


def term(text):
    """The text as a list of words and of lists, which stand for what is in brackets, and for a thing with the part that is taken of it."""
    open_lists = [[]]
    for word in TOKEN.findall(text.replace("«", "").replace("»", "")):
        if word == "(":
            open_lists.append([])
        elif word == ")":
            inner = open_lists.pop()
            open_lists[-1].append(plain(inner))
        elif word.startswith(".") and len(word) > 1 and open_lists[-1]:
            open_lists[-1].append([open_lists[-1].pop(), word])
        else:
            open_lists[-1].append(word)
    return plain(open_lists[0])


def plain(items):
    """A list of one thing is that thing."""
    return items[0] if len(items) == 1 else list(items)


def put(items, values):
    """The term with values for its variables."""
    if isinstance(items, str):
        return values.get(items, items)
    return plain([put(item, values) for item in items])


def split(items, sign):
    """The parts of a list that the sign joins."""
    parts, now = [], []
    for item in items if isinstance(items, list) else [items]:
        if item == sign:
            parts.append(plain(now))
            now = []
        else:
            now.append(item)
    return parts + [plain(now)]


def elements(items):
    """The elements of a ∷ b ∷ []; of anything else, which is a list itself, that."""
    if items == "[]":
        return []
    parts = split(items, "∷")
    return parts[:-1] if parts[-1] == "[]" else [items]


def definitions(folder):
    """Each definition with one clause, by file and name: its parameters and its term."""
    for file in sorted(folder.glob("*.antt")):
        lines = [line for line in file.read_text().splitlines() if not line.lstrip().startswith("--")]
        # a state's type that is written out, {S = ..}, says nothing of the call
        text = re.sub(r"\{\w+ = [^{}]*\} ", "", "\n".join(lines) + "\n")
        clauses = re.findall(r"^(\w\S*) ([^:=\n]+) =((?:[^\n]*\n)(?:[ ]+[^\n]*\n)*)", text, re.M)
        names = [name for name, _, _ in clauses]
        for name, left, right in clauses:
            if names.count(name) == 1:
                parameters = term(left)
                yield (file.stem, name), (parameters if isinstance(parameters, list) and "," not in parameters else [parameters], term(right))


def bound(parameter, value):
    """What a parameter, or each name of a tuple, stands for."""
    if isinstance(parameter, str):
        return {parameter: value}
    return dict(zip(split(parameter, ","), split(value, ",")))


def opened(made, file, call):
    """The term of a call, opened down to stateless or stateful."""
    while isinstance(call, list) and (file, call[0]) in made and call[0] not in ("stateless", "stateful"):
        parameters, body = made[file, call[0]]
        if len(parameters) != len(call) - 1:
            break
        values = {}
        for parameter, value in zip(parameters, call[1:]):
            values.update(bound(parameter, value))
        call = put(body, values)
    return call


def short(name):
    """crate::function or crate::Type::function: a name without its modules. A C call has its bare name."""
    parts = name.split("::")
    if parts[0] in LIBRARIES:
        return parts[-1]
    return "::".join(parts[:1] + [p for p in parts[1:-1] if p[0].isupper()] + parts[-1:])


def contracts(top):
    """The public functions by short name, and the functions that give an answer its number."""
    found, numbers = {}, set()
    for src in sorted(top.glob("crates/*/src")):
        # an export has its library's contract (exports.py)
        for file in sorted(src.rglob("*.rt")) if src.parent.name not in EXPORTS else ():
            for f in functions(file.read_text(), module_path(file, src)):
                found.setdefault(short(f.name), []).append(f)
                if f.name.endswith("::number"):
                    numbers |= {told[0] for told in [result(f)] if isinstance(told, list) and len(told) == 2 and isinstance(told[0], str)}
    # and the numbers of an answer as `number_told`, which ground gives of any, has them: by definition, or by a law over what is told
    for file in sorted(top.glob("crates/*/specs/**/*.antt")):
        text = file.read_text()
        numbers |= set(re.findall(r"^(\w+) = number_told \w+$", text, re.M))
        numbers |= set(re.findall(r"^pub \w+ : .*number_told \w+ \(.*\) ≡ (\w+) \w+$", text, re.M))
    return found, numbers


def behind(parameters):
    """The names of the parameters that stand behind a reference."""
    if re.search(r"&\s*(?:'\w+\s+)?(?:mut\s+)?self\b", parameters):
        yield "self"
    yield from re.findall(r"(\w+)\s*:\s*&", parameters)


def read(f, text):
    """What stands in a clause as a term: x.old and x.now of what is lent is x."""
    borrowed = re.compile(rf"(?<![\w.])(«?(?:{'|'.join(behind(f.parameters)) or '(?!)'})»?)\.(?:old|now)\b")
    return term(borrowed.sub(r"\1", text))


def equations(f):
    """Each equation of the contract: its left side, and its right side as a term."""
    for kind, clause in f.clauses:
        if kind == "ensures":
            for part in parted(clause):
                sides = re.split(r"\s≡\s", part, maxsplit=1)
                if len(sides) == 2:
                    yield sides[0].strip(), read(f, sides[1])


def is_told(returned):
    return isinstance(returned, list) and len(returned) == 2 and isinstance(returned[0], str) and bool(TOLD.fullmatch(returned[0]))


def result(f):
    returned = dict(equations(f)).get("result")
    return returned[1] if is_told(returned) else returned


def kept(f):
    """Pairs of what a caller takes where the call is refused, and what it then has of any call."""
    taken = [(re.fullmatch(r"result_unwrap_or result (.+)", left), right) for left, right in equations(f)]
    return [(read(f, found[1]), right) for found, right in taken if found]


def names(f):
    """The names of the parameters."""
    return [p.split(":")[0].strip() for p in f.parameters.strip("()").split(",") if p.strip()]


def afterwards(f, name):
    sides = [right for left, right in equations(f) if re.fullmatch(rf"«?{re.escape(name)}»?\.new", left)]
    return sides[0] if sides else None


def whole(items, parts):
    """A term without the part that is taken of it, and which part that is."""
    if isinstance(items, list) and isinstance(items[-1], str) and items[-1] in parts:
        return plain(items[:-1]), items[-1]
    return items, None


def never_refused(top):
    """The functions of which a law NAME_done says that the answer is Done."""
    return {name for file in sorted(top.glob("crates/*/specs/**/*.antt")) for name in re.findall(r"^pub (\w+)_done : .*\.answer ≡ Done$", file.read_text(), re.M)}


def faults(f, call, numbers, done=()):
    """What in the opened call is not of the contract."""
    if not isinstance(call, list) or (call[0], len(call)) not in (("stateless", 5), ("stateful", 8)):
        return ["does not end in stateless or stateful"]
    wrong, told = [], result(f)
    if f.name.split("::")[-1] in done and isinstance(told, list) and len(told) == 2 and isinstance(told[1], str) and told[1].startswith("."):
        told = told[0]
    answer = call[2][1] if isinstance(call[2], list) and len(call[2]) == 2 and isinstance(call[2][0], str) and call[2][0] in numbers else call[2]
    # a contract may give the answer itself as a field of the call's outcome; then it is no part of the result
    answer, part = (answer, None) if answer == told else whole(answer, (".answer", ".number"))
    if answer != told:
        wrong.append("the answer is not the result of the contract")
    if part and call[0] == "stateless":
        wrong.append("the answer is a part of the result, and the rest of it is nowhere")
    slices, left = elements(call[3]), elements(call[4])
    given, returned = [split(side, ",") for side in call[5:7]] if call[0] == "stateful" else ([], [])
    changed = list(lent(f.parameters))
    if len(given) != len(returned):
        wrong.append("as many are not returned as are given")
    for name in changed:
        if name in slices and slices.index(name) < len(left):
            if left[slices.index(name)] != afterwards(f, name):
                wrong.append(f"what is left of {name} is not what the contract leaves")
        elif name in given and given.index(name) < len(returned):
            if returned[given.index(name)] != afterwards(f, name):
                wrong.append(f"what is returned for {name} is not what the contract leaves")
        else:
            wrong.append(f"{name} is lent to be changed and not in the row")
    wrong += [f"{name} is not lent to be changed" for name in slices if name not in changed]
    if len(left) != len(slices):
        wrong.append("as many slices are not left as are lent")
    for taken, part in [(g, r) for g, r in zip(given, returned) if g not in changed]:
        rest, of = whole(part, [w for w in part if isinstance(w, str) and w.startswith(".")])
        if is_told(dict(equations(f)).get("result")) and taken not in names(f):
            if (taken, part) not in kept(f):
                wrong.append("what is returned is not what the contract says of a refused result")
        elif rest != told or not of:
            wrong.append("what is returned is no part of the result of the contract")
    return wrong


def check(top):
    table = top / "crates/conformance/specs/Refusals.antt"
    text = table.read_text() if table.exists() else ""
    files = {short: file for file, short in re.findall(r"^use (\w+) as (\w+)$", text, re.M)}
    made = dict(definitions(table.parent / "Refusals"))
    found, numbers = contracts(top)
    done = never_refused(top)
    rows = re.findall(r'\brow "([^"]+)" (\w+)\.(\S+)', text)
    wrong = []
    for name, file, call in rows:
        these, definition = found.get(name, []), made.get((files.get(file), call))
        if len(these) != 1:
            wrong.append(f"{name}\tis the name of {len(these)} public functions")
        elif definition is None or len(definition[0]) != 1:
            wrong.append(f"{name}\t{file}.{call} is not defined with one clause of one parameter or tuple")
        else:
            own = names(these[0])
            places = split(definition[0][0], ",")
            if len(places) != len(own):
                wrong.append(f"{name}\tthe row has {len(places)} parameters, the function {len(own)}")
                continue
            renamed = put(opened(made, files[file], definition[1]), dict(zip(places, own)))
            wrong += [f"{name}\t{fault}" for fault in faults(these[0], renamed, numbers, done)]
    wrong += [f"{name}\thas two rows" for name in sorted({n for n, _, _ in rows if [m for m, _, _ in rows].count(n) > 1})]
    if not rows:
        wrong.append("no row found\tthis check would hold of anything")
    return f"each row of the table of refusals is of its entry point's contract\trows {len(rows)}", wrong
