"""Shows that believed catches what it is there to catch, and nothing else."""
from checks import believed
from checks.tests.cases import folder

RULES, PROMISES, PAGE, MOVE = "docs/RULES.md", "docs/PROMISES.md", "docs/BELIEVED.md", "host/data/still-to-move.txt"
RULE, THEOREM, LAWS = "crates/one/specs/Rule.antt", "crates/one/specs/Theorems/Sums.antt", "crates/one/specs/Laws/Sums.antt"
SAYS = "# Rules\n\n## The demands\n\n| Rule | Stated | Proved | Tried |\n|---|---|---|---|\n| **Demand 1.** Sums. | | `sums` of [one/%s](../crates/one/specs/%s.antt) | |\n"
NAMED = SAYS % ("Theorems/Sums", "Theorems/Sums")
TWICE = "abbrev pub twice : ℕ → ℕ\ntwice n = n + n\n"
PROVED = "use Rattle.one.specs.%s.{twice}\n\npub sums : (n : ℕ) → twice n ≡ n + n\nsums n = refl\n"
WELL = {RULES: NAMED, PROMISES: "# Promises\n", RULE: TWICE, THEOREM: PROVED % "Rule"}
AMONG = "must be believed, and stands among proofs"


def listed(files):
    """The files with the page that -w writes of them."""
    with folder(files) as top:
        believed.write(top)
        return {**files, PAGE: (top / PAGE).read_text()}


def with_files(**changed):
    """What is well with some files otherwise."""
    return {**WELL, **changed}


IN_LAWS = {RULES: NAMED, PROMISES: "# Promises\n", LAWS: TWICE, THEOREM: PROVED % "Laws.Sums"}
IN_THEOREM = {RULES: NAMED, PROMISES: "# Promises\n", THEOREM: TWICE + "\npub sums : (n : ℕ) → twice n ≡ n + n\nsums n = refl\n"}
DEEP = with_files(**{RULE: "use Rattle.one.specs.Laws.Sums.{plus}\n\nabbrev pub twice : ℕ → ℕ\ntwice n = plus n n\n", LAWS: "abbrev pub plus : ℕ → ℕ → ℕ\nplus m n = m + n\n"})
TYPED = with_files(**{THEOREM: "use Rattle.one.specs.declared.pair.Pair.{Pair}\n\npub sums : (p : Pair) → p.sum ≡ p.sum\nsums p = refl\n", "crates/one/src/pair.rt": "pub struct Pair {\n    pub sum: u8,\n}\n"})

CONTRACT = with_files(**{"crates/one/src/lib.rt": "ghost use Rattle.one.specs.Laws.Sums.{plus};\n\n%sfn add(n: u8) -> u8\n    ensures { result ≡ plus n n }\n{\n    n\n}\n", LAWS: "abbrev pub plus : ℕ → ℕ → ℕ\nplus m n = m + n\n"})


def of_a_function(public):
    return listed({**CONTRACT, "crates/one/src/lib.rt": CONTRACT["crates/one/src/lib.rt"] % public})


# name; files and their texts; what the check must say ('' if all is well)
CASES = [
    ("a definition among definitions", listed(WELL), ""),
    ("a definition among laws", listed(IN_LAWS), f"crates/{LAWS[7:]}: twice {AMONG}"),
    ("a definition in a file of theorems", listed(IN_THEOREM), f"crates/{THEOREM[7:]}: twice {AMONG}"),
    ("a definition below that of the statement", listed(DEEP), f"crates/{LAWS[7:]}: plus {AMONG}"),
    ("a record in a file of theorems", listed(with_files(**{THEOREM: "pub record Twice (n : ℕ) : Type 0 where\n  pub is : n + n ≡ n\n\npub sums : Twice 0\nsums = record { is = refl }\n"})), f"Twice {AMONG}"),
    ("a thing that is not unfolded, in a file of theorems", listed(with_files(**{THEOREM: "pub table : List ℕ\ntable = []\n\npub sums : length table ≡ 0\nsums = refl\n"})), f"table {AMONG}"),
    ("a definition that only the proof needs", listed(with_files(**{THEOREM: "abbrev half : ℕ → ℕ\nhalf n = n / 2\n\npub sums : (n : ℕ) → n ≡ n\nsums n = ap half refl\n"})), ""),
    ("a parameter of a definition's name", listed(with_files(**{THEOREM: "abbrev half : ℕ → ℕ\nhalf n = n / 2\n\npub sums : (half : ℕ) → half ≡ half\nsums n = refl\n"})), ""),
    ("a name of a module for its own statements", listed(with_files(**{THEOREM: "module _ (n : ℕ) where\n  abbrev half : ℕ\n  half = n / 2\n\n  pub sums : half ≡ half\n  sums = refl\n"})), ""),
    ("such a name that is public", listed(with_files(**{THEOREM: "module _ (n : ℕ) where\n  abbrev pub half : ℕ\n  half = n / 2\n\n  pub sums : half ≡ half\n  sums = refl\n"})), f"half {AMONG}"),
    ("a definition in the parameters of a module", listed(with_files(**{THEOREM: "use Rattle.one.specs.Laws.Sums.{plus}\n\nmodule _ (n : ℕ) (e : plus n n ≡ n) where\n  pub sums : n ≡ n\n  sums = refl\n", LAWS: "abbrev pub plus : ℕ → ℕ → ℕ\nplus m n = m + n\n"})), f"plus {AMONG}"),
    ("an operator among laws", listed(with_files(**{THEOREM: "use Rattle.one.specs.Laws.Sums.{◌⊕◌}\n\npub sums : (n : ℕ) → n ⊕ n ≡ n\nsums n = refl\n", LAWS: "abbrev pub ◌⊕◌ : ℕ → ℕ → ℕ\nm ⊕ n = m + n\n"})), f"◌⊕◌ {AMONG}"),
    ("a file by another name", listed(with_files(**{THEOREM: "use Rattle.one.specs.Laws.Sums as S\n\npub sums : (n : ℕ) → S.plus n n ≡ n\nsums n = refl\n", LAWS: "abbrev pub plus : ℕ → ℕ → ℕ\nplus m n = m + n\n"})), f"plus {AMONG}"),
    ("a theorem among laws", listed({RULES: SAYS % ("Laws/Sums", "Laws/Sums"), PROMISES: "", RULE: TWICE, LAWS: PROVED % "Rule"}), "sums is a theorem that the pages name, and stands among laws"),
    ("a law that no page names", listed(with_files(**{LAWS: "pub law : 0 ≡ 0\nlaw = refl\n"})), ""),
    ("what is tried", listed(with_files(**{RULES: NAMED.replace("| |\n", "| `tried` of [one/Laws/Sums](../crates/one/specs/Laws/Sums.antt) |\n"), LAWS: "pub tried : 0 ≡ 0\ntried = refl\n"})), ""),
    ("a stray that is known", listed({**IN_LAWS, MOVE: "# known\none/specs/Laws/Sums.antt twice\n"}), ""),
    ("a known one that is no stray any more", listed({**WELL, MOVE: "one/specs/Laws/Sums.antt twice\n"}), "one/specs/Laws/Sums.antt twice is no stray any more"),
    ("no page", WELL, "docs/BELIEVED.md is not current"),
    ("a page of another tree", {**WELL, RULE: "abbrev pub twice : ℕ → ℕ\ntwice zero = 0\ntwice (suc n) = twice n + 2\n", PAGE: listed(WELL)[PAGE]}, "docs/BELIEVED.md is not current"),
    ("a type of the code", {**TYPED, PAGE: listed(TYPED)[PAGE]}, ""),
    ("a type of the code that has grown", {**TYPED, "crates/one/src/pair.rt": "pub struct Pair {\n    pub sum: u8,\n    pub other: u8,\n}\n", PAGE: listed(TYPED)[PAGE]}, "docs/BELIEVED.md is not current"),
    ("a definition among laws in a public contract", of_a_function("pub "), f"plus {AMONG}"),
    ("a definition among laws in another contract", of_a_function(""), ""),
    ("pages that name nothing", listed({RULES: "# Rules\n", PROMISES: "", RULE: TWICE}), "the pages name no demand and no request"),
]
