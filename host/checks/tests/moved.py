"""Shows that moved tells what differs between two commits of a made-up repository, and nothing else."""
import os
import pathlib
import subprocess
import sys
import tempfile

CHECK = pathlib.Path(__file__).resolve().parents[2] / "check"
SPECS, SOURCE, PROOF = "crates/one/specs/Laws.antt", "crates/one/src/lib.rt", "crates/one/proofs/call/Proof.antt"
LAW = "pub law : (n : ℕ) → n ≡ n\nlaw n = refl\n"
BOXED = "pub record Said : Type 0 where\n  pub it : ℕ\n\nmodule _ (n : ℕ)\n    (h : n ≡ 1)\n  where\n  pub inner : n ≡ 1\n  inner = h\n\n  module _ (m : ℕ) where\n    pub deep : m ≡ m\n    deep = refl\n"
CALL = "pub fn call(x: u8) -> u8\n    ensures { result ≡ x }\n{\n    x\n}\n"

# name; the files before and after; what must be said, crate and file left out
CASES = [
    ("nothing moved", {SPECS: LAW, SOURCE: CALL}, {}, []),
    ("a comment", {SPECS: LAW}, {SPECS: "-- why\n" + LAW}, []),
    ("a law's statement", {SPECS: LAW}, {SPECS: LAW.replace("n ≡ n", "n ≡ (n)")}, ["law changed law"]),
    ("a law's proof", {SPECS: LAW}, {SPECS: LAW.replace("refl", "(refl)")}, ["proof changed law"]),
    ("a law added", {SPECS: ""}, {SPECS: LAW}, ["law added law"]),
    ("a law removed", {SPECS: LAW}, {SPECS: ""}, ["law removed law"]),
    ("a definition", {SPECS: "unfoldable pub d : ℕ\nd = 1\n"}, {SPECS: "unfoldable pub d : ℕ\nd = 2\n"}, ["definition changed d"]),
    ("a record's field", {SPECS: BOXED}, {SPECS: BOXED.replace("it : ℕ", "it : Bool")}, ["definition changed Said"]),
    ("a statement in a module", {SPECS: BOXED}, {SPECS: BOXED.replace("inner : n ≡ 1", "inner : 1 ≡ n")}, ["law changed inner"]),
    ("a proof in a module", {SPECS: BOXED}, {SPECS: BOXED.replace("inner = h", "inner = (h)")}, ["proof changed inner"]),
    ("a statement in an inner module", {SPECS: BOXED}, {SPECS: BOXED.replace("m ≡ m", "m ≡ 0")}, ["law changed deep"]),
    ("a module's parameter", {SPECS: BOXED}, {SPECS: BOXED.replace("(h : n ≡ 1)", "(h : n ≡ 2)")}, ["law changed deep", "law changed inner"]),
    ("a law behind a module", {SPECS: BOXED + LAW}, {SPECS: BOXED.replace("m ≡ m", "m ≡ 0") + LAW}, ["law changed deep"]),
    ("one of two laws of a name", {SPECS: BOXED + BOXED}, {SPECS: BOXED + BOXED.replace("m ≡ m", "m ≡ 0")}, ["law changed deep"]),
    ("a contract", {SOURCE: CALL}, {SOURCE: CALL.replace("result ≡ x", "result ≡ 0")}, ["contract changed one::call"]),
    ("code alone", {SOURCE: CALL}, {SOURCE: CALL.replace("    x\n", "    x + 0\n")}, []),
    ("a proof of the code", {PROOF: "p = refl\n"}, {PROOF: "p = (refl)\n"}, ["proof changed call"]),
]

# stands for rt: where a law is inner, which the later commit alone has, it takes a second
RT = """#!/bin/sh
[ "$*" = 'ci --anew' ] && if grep -q inner crates/one/specs/Laws.antt; then sleep 1; fi && echo 'rt: one proved'
"""
WRONG = """#!/bin/sh
echo 'rt: one NOT PROVED' && exit 1
"""


def git(room, *words):
    who = ["-c", "user.name=a", "-c", "user.email=a@example"]
    subprocess.run(["git", "-C", room, *who, *words], stdout=subprocess.DEVNULL, stderr=subprocess.DEVNULL, check=True)


def commit(room, files):
    for name, text in files.items():
        path = pathlib.Path(room, name)
        path.parent.mkdir(parents=True, exist_ok=True)
        path.write_text(text)
    git(room, "add", "-A")
    git(room, "commit", "--allow-empty", "-m", "one")


def moved(room, *words):
    path = f"{room}/bin:{os.environ['PATH']}"
    return subprocess.run([sys.executable, str(CHECK), "moved", *words], cwd=room, env={**os.environ, "PATH": path}, stdout=subprocess.PIPE,
                          stderr=subprocess.PIPE, universal_newlines=True)


def in_repository(before, after, *words, rt=RT):
    with tempfile.TemporaryDirectory() as room:
        git(room, "init")
        commit(room, before)
        commit(room, after)
        pathlib.Path(room, "bin").mkdir()
        pathlib.Path(room, "bin/rt").write_text(rt)
        pathlib.Path(room, "bin/rt").chmod(0o755)
        return moved(room, *words)


def results():
    """Each test's name, whether it held, and what was said."""
    for name, before, after, wanted in CASES:
        done = in_repository(before, after, "HEAD~1", "HEAD")
        said = [" ".join(line.split("\t")[1:4]) for line in done.stdout.splitlines()]
        yield name, done.returncode == 0 and said == wanted, done.stdout + done.stderr
    done = in_repository({SPECS: LAW}, {SPECS: LAW + BOXED}, "--check", "HEAD~1", "HEAD")
    yield "the seconds of both", "all\tseconds\t0\tthen\t1\n" in done.stdout, done.stdout + done.stderr
    done = in_repository({SPECS: LAW}, {SPECS: LAW + BOXED}, "--check", "HEAD~1", "HEAD", rt=WRONG)
    yield "a commit that is not proved", done.returncode == 1 and "HEAD~1 is not proved" in done.stderr, done.stdout + done.stderr
    done = in_repository({}, {}, "HEAD", "other")
    yield "a commit that is not there", done.returncode == 1 and done.stderr == "there is no commit 'other' here\n", done.stdout + done.stderr
