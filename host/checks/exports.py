"""exports [FOLDER]: each C call is an export over its library's function, with the same parameters, result and clauses.
exports -w [FOLDER]: writes the crates of exports; `rt fmt` in each then lays them out.

A crate is a library or an archive and not both, so the functions stand in the libraries c_face, c_receiver, c_cards and c_recordings, which others
cite, and a thin crate over each, NAME_c, exports them for C. Each file of a library that has `pub fn levelspruce_..` has its exports in a file of its
name. All that is in it follows from the library's text: what it imports, and of each function the head and one call.
"""
import re

from checks.contracts import header, without_comments

LIBRARIES = ("c_face", "c_receiver", "c_cards", "c_recordings")
EXPORTS = tuple(f"{crate}_c" for crate in LIBRARIES)  # as host/tools/platform.sh has them
CALL = re.compile(r"(?m)^pub fn (levelspruce_\w+)\(")
IMPORT = re.compile(r"(?m)^ghost use ([\w.']+)\.\{([^}]*)\};$")
PARTED = re.compile(r"[\s(){}\[\],;.]+")


def exports(text, crate, file):
    """The file of exports of a library's file, but for its layout; None where it has no C call."""
    text, calls, cited = without_comments(text), [], set()
    for found in CALL.finditer(text):
        parameters, _, clauses, body = header(text, found.end() - 1)
        names = re.findall(r"(\w+)\s*:", re.sub(r"\[[^\]]*\]", "", parameters))
        cited |= {word for _, clause in clauses for word in PARTED.split(clause)}
        head = text[found.start() + len("pub "):body].rstrip()
        calls.append(f'#[unsafe(no_mangle)]\npub extern "C" {head}\n{{\n    {crate}::{file}::{found[1]}({", ".join(names)})\n}}\n')
    if not calls:
        return None
    imports = []
    for path, listed in IMPORT.findall(text):
        kept = [name for name in (n.strip() for n in listed.split(",")) if name.strip("◌") in cited]
        imports += [f"ghost use {path}.{{{', '.join(kept)}}};\n"] * bool(kept)
    return f"// {crate}::{file} for C.\n{''.join(imports)}\n" + "\n".join(calls)


def made(top, crate):
    """The files of a library's crate of exports."""
    files = {}
    for path in sorted((top / "crates" / crate / "src").glob("*.rt")):
        text = exports(path.read_text(), crate, path.stem)
        if text:
            files[path.name] = text
    modules = "".join(f"mod {name[:-len('.rt')]};\n" for name in files)
    return {**files, "lib.rt": f"// The C calls of {crate}, exported.\n#![tactic(auto)]\n\n{modules}"} if files else {}


def words(text):
    """The text but for its layout, which may put a comma behind the last of several lines."""
    return re.sub(r",(?=[)\]])", "", re.sub(r"\s+", "", text))


def libraries(top):
    return [crate for crate in LIBRARIES if (top / "crates" / crate).is_dir()]


def write(top):
    for crate in libraries(top):
        folder = top / "crates" / f"{crate}_c" / "src"
        folder.mkdir(parents=True, exist_ok=True)
        for path in folder.glob("*.rt"):
            path.unlink()
        for name, text in made(top, crate).items():
            (folder / name).write_text(text)
    return True


OPTIONS = {"-w": (0, write)}


def check(top):
    wrong, count = [], 0
    for crate in libraries(top):
        folder = top / "crates" / f"{crate}_c" / "src"
        wanted = made(top, crate)
        there = {p.name: p.read_text() for p in sorted(folder.glob("*.rt"))}
        count += sum(text.count("#[unsafe(no_mangle)]") for text in wanted.values())
        wrong += [f"crates/{crate}_c/src/{name}\tis not what crates/{crate} gives: host/check exports -w" for name in sorted(wanted.keys() | there.keys())
                  if words(wanted.get(name, "")) != words(there.get(name, ""))]
    if count == 0:
        wrong.append("no C call found\tthis check would hold of anything")
    return f"each C call is an export over its library's function\texports {count}", wrong
