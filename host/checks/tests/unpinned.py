"""Shows that unpinned makes each kind of change, on made-up definitions, and says which of them no example notices."""
from checks import unpinned
from checks.tests.cases import folder

RULE, EXAMPLE, CODE = "crates/one/specs/Rule.antt", "crates/conformance/specs/Clauses.antt", "crates/one/src/lib.rt"
USE = "use Rattle.std.specs.Prelude.{length}\nuse Rattle.one.specs.Rule.{%s}\n\n"
LESS = "abbrev pub is_low : ℕ → Bool\nis_low n = n <? 3\n"
CHOICE = "abbrev pub most : ℕ → ℕ → ℕ\nmost m n = if m <? n then n else m\n"
STEP = "pub data Step : Type 0 where\n  Add : ℕ → ℕ → Step\n  Rest : Step\n\nabbrev pub step_of : ℕ → ℕ → Step\nstep_of port slot = Add port slot\n"
COUNTED = "abbrev pub count : Step → ℕ\ncount (Add m n) = m\ncount Rest = 0\n"
ENUM = "pub enum Call {\n    Frame(u32, u32),\n    Tell(bool),\n    Rest,\n}\n"
CALLS = "use Rattle.one.specs.declared.Call.{Call}\n\nabbrev pub asked : ℕ → Bool → Call\nasked n last = if last then Call.Tell last else Call.Frame n 7\n"
RECORD = "pub struct Pair {\n    pub low: u8,\n    pub high: u8,\n}\n"
PAIRED = "abbrev pub paired : ℕ → ℕ → Pair\npaired m n = record { low = m; high = n }\n"


def of(rule, *equations, brings="", code=""):
    """Definitions, and equations that are computed with those of them that are brought in."""
    said = "\n".join(f"pub e{k} : {e}\ne{k} = refl\n" for k, e in enumerate(equations))
    return {RULE: rule, EXAMPLE: USE % brings + said, CODE: code}


# name; files; flags; lines that must be there, without their files; and changes that must not be there
TEXTS = [
    ("a bound that is tried on both sides", of(LESS, "is_low 2 ≡ true", "is_low 3 ≡ false", brings="is_low"), "", ["3 changes, 0 unpinned, 0 definitions unreached"], []),
    ("a bound that is tried from below", of(LESS, "is_low 2 ≡ true", brings="is_low"), "", ["unpinned is_low 3 -> 4 1", "unpinned is_low n <? 3 -> n ≤? 3 1"], ["3 -> 2"]),
    ("a definition that nothing reaches", of(LESS + "\n" + CHOICE, "most 1 2 ≡ 2", brings="most"), "", ["unreached is_low"], []),
    ("a branch", of(CHOICE, "most 1 2 ≡ 2", brings="most"), "", ["unpinned most if m <? n then n else m -> n 1"], ["n else m -> m"]),
    ("what notices", of(CHOICE, "most 1 2 ≡ 2", brings="most"), "-v", ["noticed most if m <? n then n else m -> m conformance.Clauses.e0 1"], []),
    ("an example that does not hold", of(LESS, "is_low 5 ≡ true", brings="is_low"), "", ["left out conformance.Clauses.e0 1 NOT EQUAL"], []),
    ("a word of another file", of(LESS, "is_low 2 ≡ true", brings="is_low"), "other", ["0 changes, 0 unpinned, 0 definitions unreached"], []),
    ("numbers doubled", of(LESS, "is_low 0 ≡ true", brings="is_low"), "-o", ["unpinned is_low 3 -> 6 1", "unpinned is_low 3 -> 1 1"], ["3 -> 4"]),
    ("a constant for what a call takes", of(CHOICE + "\nabbrev pub all : ℕ → ℕ\nall n = most n 1\n", "all 0 ≡ 1", brings="all, most"), "-c", ["unpinned all n -> 0 1", "unpinned all n -> 1 1"], []),
    ("what a constructor takes, exchanged", of(STEP + "\n" + COUNTED, "count (step_of 4 4) ≡ 4", brings="count, step_of"), "", ["unpinned step_of port slot -> slot port 1"], []),
    ("the same where it is noticed", of(STEP + "\n" + COUNTED, "count (step_of 4 5) ≡ 4", brings="count, step_of"), "", [], ["port slot -> slot port"]),
    ("a constant for what a constructor takes", of(STEP + "\n" + COUNTED, "count (step_of 1 5) ≡ 1", brings="count, step_of"), "-c",
     ["unpinned step_of port -> 1 1", "unpinned step_of slot -> 0 1", "unpinned step_of slot -> 1 1"], ["port -> 0"]),
    ("what a constructor of the code takes", of(CALLS, "asked 3 true ≡ Call.Tell true", "asked 3 false ≡ Call.Frame 3 7", brings="Call, asked", code=ENUM), "-c",
     ["unpinned asked last -> true 2"], ["n -> 0", "last -> false"]),
    ("a field of a record", of(PAIRED, "paired 1 2 ≡ record { low = 1; high = 2 }", brings="paired", code=RECORD), "-c", ["unpinned paired m -> 1 1"], ["n -> "]),
    ("two fields of a record", of(PAIRED, "paired 2 2 ≡ record { low = 2; high = 2 }", brings="paired", code=RECORD), "", ["unpinned paired m -> n 1"], []),
]


def results():
    """Each test's name, whether it held, and what was said."""
    for name, files, words, there, not_there in TEXTS:
        flags, others = [w for w in words.split() if w[0] == "-"], [w for w in words.split() if w[0] != "-"]
        with folder(files) as top:
            lines = [line.split("\t") for line in unpinned.told(top, flags, others)]
        said = [" ".join(field for k, field in enumerate(line) if k != 1 or not field.startswith("crates/")) for line in lines]
        held = all(line in said for line in there) and not any(line.startswith("unpinned") and part in line for line in said for part in not_there)
        yield name, held, "\n".join(said)
