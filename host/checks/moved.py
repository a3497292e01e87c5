"""moved OLD NEW: what differs between two commits, crate by crate.
moved --check OLD NEW: the same, and proves both from nothing (`rt ci --anew`) for the seconds; that takes long.

One fact a line, fields parted by tabs: crate, kind, what happened, name, file. Kinds:
    definition  a definition of specs/ that others may unfold, or a type
    contract    a public function's parameters, result, requires and ensures
    law         the statement of a law of specs/, with the parameters of the modules round it
    proof       the proof of such a law, if the law stands in both, or a file under proofs/
Behind --check a last line has the seconds that both took, all crates together: rt does not say those of each.
"""
import collections
import pathlib
import re
import subprocess
import sys
import tempfile
import time

from checks.contracts import functions, module_path

START = re.compile(r"((?:unfoldable |abbrev |axiom |pub )*)(?:(data|record) )?(\S+)(?: \{[^}]*\})?(?: \(.*?\))* :(?: |$)")


def git(*words):
    return subprocess.run(["git", *words], stdout=subprocess.PIPE, check=True).stdout.decode()


def declarations(text):
    """Gives marks, name, statement and proof of each declaration of a specs file, comments left out. The statement of one
    in a module begins with the module's parameters."""
    found, modules = [], []
    in_header = False
    for line in text.splitlines():
        if not line.strip() or line.lstrip().startswith("--"):
            continue
        indent = len(line) - len(line.lstrip())
        if in_header:
            modules[-1][1].append(line)
            in_header = not line.endswith("where")
            continue
        while modules and indent <= modules[-1][0]:
            modules.pop()
        inner = modules[-1][0] + 2 if modules else 0
        start = START.match(line.lstrip()) if indent == inner else None
        if re.match(r"\s*(pub )?module ", line):
            modules.append((indent, [line]))
            in_header = not line.endswith("where")
        elif re.match(r"\s*(pub |unfoldable )*(use|mod) ", line):
            continue
        elif start:
            round_it = [l for _, header in modules for l in header]
            found.append(((start[1] + (start[2] or "")).split(), start[3], indent, round_it, [line]))
        elif found:
            found[-1][4].append(line)
    for marks, name, indent, round_it, lines in found:
        ends = next((i for i, l in enumerate(lines) if i and not l.startswith(" " * (indent + 1))), 1)
        yield marks, name, "\n".join(round_it + lines[:ends]), "\n".join(lines[ends:])


def facts(commit):
    """All that a commit says: (crate, kind, name, file) and its text."""
    said = collections.defaultdict(str)  # modules of a file may hold the same name
    for path in git("ls-tree", "-r", "--name-only", commit, "crates/").splitlines():
        parts = path.split("/")
        if len(parts) < 4 or not path.endswith((".antt", ".rt")):
            continue
        crate, folder, file = parts[1], parts[2], "/".join(parts[2:])
        text = git("show", f"{commit}:{path}")
        if folder == "proofs":
            said[crate, "proof", re.sub(r"^proofs/|/(?:Proof|Answers|Invariants)\.antt$|\.antt$", "", file).replace("/", "::"), file] = text
        elif folder == "src":
            src = pathlib.PurePath(*parts[:3])
            for f in functions(text, module_path(pathlib.PurePath(path), src)):
                said[crate, "contract", f.name, file] = f.contract
        elif folder == "specs":
            for marks, name, signature, body in declarations(text):
                if set(marks) & {"unfoldable", "abbrev", "data", "record"}:
                    said[crate, "definition", name, file] += signature + body
                else:
                    said[crate, "law", name, file] += signature
                    said[crate, "proof", name, file] += body
    return said


def seconds(commit):
    """What proving a commit from nothing takes."""
    with tempfile.TemporaryDirectory() as room:
        packed = subprocess.run(["git", "archive", commit], stdout=subprocess.PIPE, check=True).stdout
        subprocess.run(["tar", "-x", "-C", room], input=packed, check=True)
        print(f"proving {commit} from nothing: this takes long", file=sys.stderr)
        said, begun = [], time.monotonic()
        done = subprocess.Popen(["rt", "ci", "--anew"], cwd=room, stdout=subprocess.PIPE, stderr=subprocess.STDOUT)
        for line in done.stdout:
            said.append(line.decode(errors="replace"))
            if re.match(r"rt: \w+ proved", said[-1]):
                sys.stderr.write(said[-1])
        if done.wait() != 0:
            sys.exit(f"{commit} is not proved:\n" + "".join(said[-20:]))
        return round(time.monotonic() - begun)


def main(words):
    check = words[:1] == ["--check"]
    commits = words[check:]
    if len(commits) != 2 or any(c.startswith("-") for c in commits):
        sys.exit(__doc__)
    for commit in commits:
        if subprocess.run(["git", "rev-parse", "-q", "--verify", commit + "^{commit}"], stdout=subprocess.DEVNULL).returncode:
            sys.exit(f"there is no commit '{commit}' here")
    old, new = (facts(c) for c in commits)
    for key in sorted(old.keys() | new.keys()):
        crate, kind, name, file = key
        law = (crate, "law", name, file)
        with_its_law = kind == "proof" and (law in old) != (law in new)
        if old.get(key) != new.get(key) and not with_its_law:
            print(crate, kind, "added" if key not in old else "removed" if key not in new else "changed", name, file, sep="\t")
    sys.stdout.flush()
    if check:
        before, after = (seconds(c) for c in commits)
        print("all", "seconds", before, "then", after, sep="\t")
