"""Shows that call-places catches what it is there to catch, and nothing else."""
FILES = {
    "crates.txt": "# NAME: DEP\none:\ntwo: one\n",
    "include/levelspruce.h": "uint8_t levelspruce_call(uint32_t x);\n",
    "host/c/call_test.c": "levelspruce_call(1);\n",
    "host/other.c": "levelspruce_calls(1);\n",
    "target/host/x.c": "levelspruce_call(1);\n",
    "crates/one/out/stdout": "levelspruce_call(1);\n",
}
LOOP = "# Changing it\n\nSeconds: one 3, two 40.\n\n"
CALL = "## A new call in C\n\nIts declaration in include/levelspruce.h, its test in host/c.\n\n## How it reads\n\nhost/fuzz\n"

# name; the page; more files; what the check must say ('' if all is well)
TEXTS = [
    ("a page that fits", LOOP + CALL, {}, ""),
    ("a file by itself", LOOP + CALL.replace("host/c", "host/c/call_test.c"), {}, ""),
    ("a script at the top", LOOP + CALL.replace("host/c.", "host/c, and `run`."), {"run": "levelspruce_call"}, ""),
    ("a file that is not named", LOOP + CALL, {"host/fuzz/card.c": "x = levelspruce_call(2);"}, "host/fuzz/card.c\thas the name of a call"),
    ("a page that is not named", LOOP + CALL, {"docs/MANUAL.md": "`levelspruce_call`"}, "docs/MANUAL.md\thas the name of a call"),
    ("a place that is not there", LOOP + CALL.replace("host/c.", "host/c and host/gone."), {}, "host/gone\tis named"),
    ("no such section", LOOP + CALL.replace("A new call", "An old call"), {}, "no call or no place found"),
    ("seconds twice", LOOP + "Go up: two (45 s).\n\n" + CALL, {}, "two\thas its seconds 2 times"),
    ("no seconds", CALL, {}, "no seconds found"),
    ("a crate with none", LOOP.replace(", two 40", "") + CALL, {}, "two\thas its seconds 0 times"),
    ("a must-fail edit in a quick crate", LOOP + CALL, {"crates/one/must-fail/x.edit": "x"}, ""),
    ("a must-fail edit in a slow one", LOOP + CALL, {"crates/two/must-fail/x.edit": "x"}, "two\ttakes 40 seconds and has a must-fail edit"),
    ("a number behind another word", LOOP + "phase_two 7, twos 8.\n\n" + CALL, {}, ""),
]

CASES = [(name, {**FILES, **more, "CONTRIBUTING.md": page}, wanted) for name, page, more, wanted in TEXTS]
