"""unpinned [-q] [-c|-o] [-v] [WORD..]: which clauses of the definitions could be changed, with their code, and no computed example would notice?

A definition of specs/ is changed in one place: a number, a comparison, a branch, an order, a field, a constructor. Then the
examples that are computed are worked out again: the rows of every table of crates/conformance and crates/pinned, and every closed equation of
specs/ but those of laws. One fact is a line of the output, fields parted by tabs:
    unpinned   FILE:LINE  DEFINITION  what it was -> what it became  how many examples reach it, which all stay as they were
    unreached  FILE:LINE  DEFINITION  (no example does)
    left out   EXAMPLE or DEFINITION  why this program cannot work it out
The last line counts. With words: those definitions whose file or name has one of them.
    -q    leaves out examples that take long
    -c    instead of the other changes, constants in place of what calls, constructors and records take
    -o    instead of them, numbers halved and doubled, and other definitions called of the same signature that the file names
    -v    also prints what notices the other changes
unpinned -l prints the examples, each with its seconds. A change that cannot be worked out any more counts as noticed.

What is said is no verdict. This program works the definitions out by itself (numbers, lists, records, cases). That it works
them out as the checker does is seen by every example's being equal before anything is changed, and by nothing else. A line
may be of a change that no call can tell from what was there, or that a theorem or a contract refuses: docs/RULES.md says what
pins each definition. Not part of the gate: a few minutes a crate.

values.py has what is worked out, reading.py reads terms, files.py the files of specs/, working.py makes functions of
definitions, examples.py finds what is tried, changes.py what could be otherwise.
"""
import pathlib
import re
import signal
import sys
import time

from checks.unpinned.changes import changed, changes, constants, others
from checks.unpinned.examples import Slow, examples, slow, tried
from checks.unpinned.files import House
from checks.unpinned.values import Trouble
from checks.unpinned.working import Made

# crates whose files are examples, and crates of plain words, which those above try
EXAMPLES, WORDS = ("conformance", "pinned", "tables"), ("ground",)
# seconds of the longest example that `-q` takes
QUICK = 0.3


UNWORKABLE = (Trouble, RecursionError, Slow, AttributeError, TypeError, IndexError)


def line_of(m, start):
    return m.text.count("\n", 0, start) + 1


def worked_out(house, made, flags):
    """The examples that hold as the definitions are, the quickest first, each with its seconds and what it reaches; and those left out."""
    found, left_out = [], []
    for example, why in examples(house, made, "-q" in flags):
        if why:
            left_out.append((example, why))
            continue
        made.reached.clear()
        begun = time.process_time()
        try:
            held = tried(made, example, 120)
        except UNWORKABLE as e:
            left_out.append((example.title, f"{type(e).__name__}: {e}"))
            continue
        if not held:
            left_out.append((example.title, "NOT EQUAL"))
            continue
        example.seconds, example.reached = time.process_time() - begun, set(made.reached)
        if "-q" not in flags or example.seconds <= QUICK:
            found.append(example)
    return sorted(found, key=lambda e: e.seconds), left_out


def noticed_by(made, reaching):
    """The first example that notices the change that is made, or None."""
    for example in reaching:
        try:
            if not tried(made, example, 10 * example.seconds + 5):
                return example.title
        except UNWORKABLE as error:
            return f"{example.title} ({type(error).__name__})"
    return None


def told(top, flags, words):
    """The lines of the output."""
    house = House(top)
    made = Made(house)
    signal.signal(signal.SIGALRM, slow)
    found, left_out = worked_out(house, made, flags)
    if "-l" in flags:
        yield from (f"example\t{example.title}\t{example.seconds:.2f}" for example in found)
    yield from (f"left out\t{title}\t{why}" for title, why in left_out)
    if "-l" in flags:
        yield f"{len(found)} examples, {len(left_out)} left out"
        return
    counts = {"changes": 0, "unpinned": 0, "unreached": 0}
    changed_by = constants if "-c" in flags else others if "-o" in flags else changes
    for d in house.definitions:
        m = d.module
        file = f"crates/{m.crate}/specs/{'/'.join(m.parts)}.antt"
        if m.apart() or m.crate in EXAMPLES + WORDS or not d.clauses or d.signature is None or words and not any(w in f"{file} {d.name}" for w in words):
            continue
        try:
            made.arity(d)
            todo = list(dict.fromkeys(changed_by(house, d)))
        except Trouble as e:
            if flags:
                yield f"left out\t{d.title()}\t{e}"
            continue
        reaching = [e for e in found if d.number in e.reached]
        if todo and not reaching:
            counts["unreached"] += 1
            yield f"unreached\t{file}:{line_of(m, d.clauses[0][1][0].start)}\t{d.name}"
            continue
        plain = made.texts.get(d.number)
        for start, end, new in todo:
            try:
                made.texts[d.number] = made.compiled(d, changed(d, start, end, new))
            except (Trouble, SyntaxError, IndexError):
                continue
            counts["changes"] += 1
            by = noticed_by(made, reaching)
            what = re.sub(r"\s+", " ", f"{m.text[start:end]} -> {new}")
            if not by:
                counts["unpinned"] += 1
                yield f"unpinned\t{file}:{line_of(m, start)}\t{d.name}\t{what}\t{len(reaching)}"
            elif "-v" in flags:
                yield f"noticed\t{file}:{line_of(m, start)}\t{d.name}\t{what}\t{by}"
        if plain is None:
            made.texts.pop(d.number, None)
        else:
            made.texts[d.number] = plain
        made.kept.clear()
    yield f"{counts['changes']} changes, {counts['unpinned']} unpinned, {counts['unreached']} definitions unreached"


def main(words):
    sys.setrecursionlimit(1000000)
    for line in told(pathlib.Path("."), [w for w in words if w.startswith("-")], [w for w in words if not w.startswith("-")]):
        print(line, flush=True)
    return 0
