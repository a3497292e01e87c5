"""check [NAME..]                  checks of the tree, all of them or those named, each counted
check NAME [WORD..] [FOLDER]    one of them; check NAME --help says what it asks for, and its other words
check --tests [NAME..]          shows that each check, or those named, catches what it is there to catch, and nothing else

FOLDER is the repository's top; where it is not given, the current folder. A check is a module of this package with
    check(top)    gives what holds, in words and numbers, the faults, one a line, and at times lines that are none
    OPTIONS       other words that it knows: how many values stand behind each, and a function of the top and these; where that
                  gives True, the check follows
A module with main(words) in place of check is no check, but a tool that reads the tree as they do. The tests of a module
are in the module of its name in tests/: CASES for a check (tests/cases.py), results() for anything else.
"""
import importlib
import pathlib
import traceback

CHECKS = ("entry-points", "c-face", "exports", "refusals", "promised-names", "rules", "pages", "clock-numbers", "uncited", "opened", "believed", "call-places")
TOOLS = ("moved", "unpinned")
TESTED = ("runner",) + CHECKS + TOOLS


def module(name, folder="checks"):
    return importlib.import_module(f"{folder}.{name.replace('-', '_')}")


def tally(held):
    """The last line of what is printed, and the exit status."""
    print(f"{held.count(True)} passed, {held.count(False)} failed")
    return 0 if held and all(held) else 1


def holds(name, top):
    """Prints what a check says of a tree, and gives whether it holds. One that cannot be worked out does not."""
    try:
        what, wrong, *notes = module(name).check(top)
    except Exception:
        traceback.print_exc()
        what, wrong, notes = f"{name} cannot be worked out", ["see above"], []
    for line in sum(notes, []):
        print(line)
    for line in wrong:
        print(f"wrong\t{line}")
    print(f"{'failed' if wrong else 'ok'}\t{what}", flush=True)
    return not wrong


def one(name, words):
    options = getattr(module(name), "OPTIONS", {})
    follows = True
    if words and words[0] in options:
        many, function = options[words[0]]
        values, words = words[1:1 + many], words[1 + many:]
        if len(values) < many:
            print(module(name).__doc__, end="")
            return 2
        follows = function(pathlib.Path(*words[:1]), *values)
    if len(words) > 1 or words and words[0].startswith("-"):
        print(module(name).__doc__, end="")
        return 2
    return tally([holds(name, pathlib.Path(*words))]) if follows else 0


def tests(names):
    from checks.tests import cases

    held = []
    for name in names:
        of = module(name, "checks.tests")
        results = of.results() if hasattr(of, "results") else cases.results(module(name).check, of.CASES)
        for case, fits, said in results:
            print(f"{'ok' if fits else 'failed'}\t{name} on {case}", flush=True)
            if not fits:
                print(said)
            held.append(fits)
    return tally(held)


def main(words):
    name = words[0] if words else ""
    if name in ("--help", "-h"):
        print(__doc__)
        for one_name in CHECKS + TOOLS:
            print(f"{one_name}\t{module(one_name).__doc__.splitlines()[0].split(': ', 1)[1]}")
        return 0
    if name == "--tests":
        names = words[1:] or TESTED
        unknown = {*names} - {*TESTED}
    else:
        unknown = {name} - {"", *CHECKS, *TOOLS}
    if unknown:
        print(f"there is no check {', '.join(sorted(unknown))}; host/check --help names them")
        return 2
    if name == "--tests":
        return tests(names)
    if all(word in CHECKS for word in words):
        return tally([holds(one_name, pathlib.Path(".")) for one_name in words or CHECKS])
    if words[1:] in (["--help"], ["-h"]):
        print(module(name).__doc__, end="")
        return 0
    return module(name).main(words[1:]) if name in TOOLS else one(name, words[1:])
