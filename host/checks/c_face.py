"""c-face [FOLDER]: the C header says of each call what the crates of exports have: c_face_c, c_receiver_c, c_cards_c and c_recordings_c.

A contract names its parameters and C passes them by place, so nothing proved holds the two together. This does: for
each `pub extern "C" fn` of their src/, include/levelspruce.h declares the same parameters in the same order, with
the mark that its answer must be used, and the table of refusals in crates/conformance has a row of its name; and the
header declares nothing else but texts, which are C (host/library) and return no number.
"""
import re

from checks.contracts import functions, module_path, without_comments
from checks.exports import EXPORTS

NUMBERS = {"u8": "uint8_t", "u16": "uint16_t", "u32": "uint32_t", "u64": "uint64_t", "usize": "size_t"}
SLICE = re.compile(r"&\s*(?P<mut>mut\s+)?\[\s*(?:\[\s*(?P<row>\w+)\s*;\s*(?P<size>\d+)\s*\]|(?P<number>\w+))\s*\]")


def as_c(name, kind):
    """A parameter of Rattle's as C has it: one of a number or of a number lent to be changed, two of a slice of numbers or
    of rows of numbers. The length counts what the slice counts, so rows of a slice of rows."""
    lent = SLICE.fullmatch(kind)
    of = lent and NUMBERS.get(lent["row"] or lent["number"])
    if of:
        start = f"*{name}" if lent["number"] else f"(*{name})[{lent['size']}]"
        return [f"{'' if lent['mut'] else 'const '}{of} {start}", f"size_t {name}_length"]
    told = re.fullmatch(r"&\s*mut\s+(\w+)", kind)
    if told and told[1] in NUMBERS:
        return [f"{NUMBERS[told[1]]} *{name}"]
    return [f"{NUMBERS[kind]} {name}" if kind in NUMBERS else f"no C type for {kind}"]


def called(top):
    """Each C call of the crates, with its parameters as C has them. None of them stands in any other crate."""
    for src in sorted(top.glob("crates/*/src")):
        for file in sorted(src.rglob("*.rt")):
            for f in functions(file.read_text(), module_path(file, src)):
                if 'extern "' in f.contract:
                    pairs = [p.split(":", 1) for p in f.parameters.strip("()").split(",") if p.strip()]
                    yield src.parent.name, f.name.split("::")[-1], [c for n, k in pairs for c in as_c(n.strip(), k.strip())]


def declared(top):
    """Each call that the header declares, with its parameters; sizes of rows by their number. And whether it has the mark."""
    text = without_comments((top / "include/levelspruce.h").read_text())
    numbers = dict(re.findall(r"^#define\s+(\w+)\s+(\d+)\s*$", text, flags=re.M))
    text = re.sub(r"\[(\w+)\]", lambda size: f"[{numbers.get(size[1], size[1])}]", re.sub(r"^\s*#.*$", "", text, flags=re.M))
    for call in re.finditer(r"(\bLEVELSPRUCE_MUST_USE\s+)?\buint8_t\s+(\w+)\s*\(((?:[^()]|\([^()]*\))*)\)\s*;", text):
        yield call[2], ([" ".join(p.split()) for p in call[3].split(",") if p.strip() != "void"], bool(call[1]))


def check(top):
    found, header = list(called(top)), dict(declared(top))
    calls = {n: p for _, n, p in found}
    rows = "".join(p.read_text() for p in sorted((top / "crates/conformance/specs").rglob("*.antt")))
    wrong = [f"{n}\tis a C call of {crate}, of which the library is not made" for crate, n, _ in found if crate not in EXPORTS]
    wrong += [f"{n}\tis a C call twice" for n in sorted(calls) if [m for _, m, _ in found].count(n) > 1]
    wrong += [f"{n}\tis not in the header" for n in calls if n not in header]
    wrong += [f"{n}\tis in the header alone" for n in header if n not in calls]
    wrong += [f"{n}\tthe header has ({', '.join(header[n][0])}), the crate ({', '.join(p)})" for n, p in calls.items() if n in header and header[n][0] != p]
    wrong += [f"{n}\tlacks the mark LEVELSPRUCE_MUST_USE" for n, (_, marked) in header.items() if not marked]
    wrong += [f"{n}\thas no row in the table of refusals" for n in calls if f'row "{n}"' not in rows]
    if not calls:
        wrong.append("no C call found\tthis check would hold of anything")
    return f"the header is the crates' C face\tcalls {len(calls)}", wrong
