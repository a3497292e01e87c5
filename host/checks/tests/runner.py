"""Shows that the runner counts what a check says, and knows its words."""
import pathlib
import subprocess
import sys

from checks.tests.cases import folder

CHECK = pathlib.Path(__file__).resolve().parents[2] / "check"
WELL = {"README.md": "words\n"}
LONG = {"README.md": "- " + "word " * 30 + "\n"}
ODD = {"crates/one/src/lib.rt": "", "docs/RULES.md/page": ""}

# name; files of a folder; words, to which the folder is added; the exit status, and how the last line ends
TEXTS = [
    ("a check that holds", WELL, ["pages"], 0, "1 passed, 0 failed"),
    ("a check that does not", LONG, ["pages"], 1, "0 passed, 1 failed"),
    ("a check that cannot be worked out", ODD, ["rules"], 1, "0 passed, 1 failed"),
    ("what writes, and then checks", LONG, ["pages", "-w"], 0, "1 passed, 0 failed"),
    ("what only prints", {**WELL, "docs/RULES.md": "", "docs/PROMISES.md": ""}, ["believed", "-s"], 0, ""),
    ("a word that a check does not know", WELL, ["rules", "-q"], 2, "leads from each rule to what states, proves and tries it."),
    ("a check that is not there", WELL, ["none"], 2, "there is no check none; host/check --help names them"),
]


def results():
    """Each test's name, whether it held, and what was said."""
    for name, files, words, status, last in TEXTS:
        with folder(files) as top:
            done = subprocess.run([sys.executable, str(CHECK), *words, str(top)], stdout=subprocess.PIPE, stderr=subprocess.STDOUT, universal_newlines=True)
        lines = done.stdout.splitlines() or [""]
        yield name, done.returncode == status and (lines[0] if status == 2 else lines[-1]).endswith(last), done.stdout
