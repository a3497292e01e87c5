"""Shows that opened catches what it is there to catch, and nothing else."""
FILE, OPENED = "crates/one/specs/Rule.antt", "crates/one/specs/Opened.antt"
RULE = "unfoldable pub twice : ℕ → ℕ\ntwice n = n + n\n"
OPENER = "use Rattle.one.specs.Rule.{%s}\n\nunfoldable pub one_open : ℕ\nunfolding %s\none_open = 0\n"
WHOLE = OPENER % ("twice", "twice")
KIT = "use Rattle.std.specs.Prelude.{eqb}\n\n" + RULE + "\nabbrev pub is_none : ℕ → Bool\nis_none n = eqb n 0\n"

# name; files and their texts; what the check must say ('' if all is well)
CASES = [
    ("an opener that is whole", {FILE: RULE, OPENED: WHOLE}, ""),
    ("a definition that is not opened", {FILE: RULE + "\nunfoldable pub thrice : ℕ → ℕ\nthrice n = n + n + n\n", OPENED: WHOLE}, f"{FILE}:4\tthrice is in no Opened.antt"),
    ("a name that is brought in and not opened", {FILE: RULE + "\nunfoldable pub none : ℕ\nnone = 0\n", OPENED: OPENER % ("none, twice", "twice")}, "none is in no Opened.antt"),
    ("another file's definition of the same name", {FILE: RULE, "crates/one/specs/Other.antt": RULE, OPENED: WHOLE}, "crates/one/specs/Other.antt:1\ttwice is in no"),
    ("a name opened by another", {FILE: RULE, OPENED: OPENER % ("twice as two", "two")}, ""),
    ("an opener over two lines", {FILE: RULE + "\nunfoldable pub none : ℕ\nnone = 0\n", OPENED: OPENER % ("none, twice", "twice\n    none")}, ""),
    ("a crate with no opener", {FILE: RULE}, "twice is in no Opened.antt"),
    ("a crate with no opener, opened above it", {FILE: RULE, "crates/two/specs/Opened.antt": WHOLE}, ""),
    ("a definition for the crate itself", {FILE: RULE + "\nunfoldable own : ℕ\nown = 0\n", OPENED: WHOLE}, ""),
    ("a definition of a module", {FILE: "module _ (n : ℕ) where\n  unfoldable pub twice : ℕ\n  twice = n + n\n", OPENED: OPENER % ("", "")}, "twice is in no Opened.antt"),
    ("a definition among laws", {FILE: RULE, OPENED: WHOLE, "crates/one/specs/Laws/Rule.antt": "unfoldable pub thrice : ℕ → ℕ\nthrice n = n + n + n\n"}, ""),
    ("a crate above which nothing computes", {FILE: RULE, OPENED: WHOLE, "crates/groups/specs/Rule.antt": "unfoldable pub thrice : ℕ → ℕ\nthrice n = n + n + n\n"}, ""),
    ("a definition in the kit's words", {FILE: KIT, OPENED: WHOLE}, f"{FILE}:6\tis_none is written with eqb"),
    ("a choice in the kit's words", {FILE: RULE + "\nabbrev pub most : ℕ → ℕ\nmost n = cond (n == 0) 1 n\n", OPENED: WHOLE}, "most is written with cond"),
    ("a choice between two statements", {FILE: RULE + "\nabbrev pub Most : (n : ℕ) → Type 0\nMost n = cond (n == 0) (n ≡ 1) (n ≡ 2)\n", OPENED: WHOLE}, ""),
    ("a record in the kit's words", {FILE: RULE + "\npub record Small (n : ℕ) : Type 0 where\n  pub is : ltb n 2 ≡ true\n", OPENED: WHOLE}, "Small is written with ltb"),
    ("a law in the kit's words", {FILE: RULE + "\nlaw : (n : ℕ) → eqb n n ≡ true\nlaw n = refl\n", OPENED: WHOLE}, ""),
    ("the kit's words in a comment", {FILE: "-- not eqb\n" + RULE, OPENED: WHOLE}, ""),
    ("the notation itself", {FILE: RULE, OPENED: WHOLE, "crates/ground/specs/Plain.antt": "abbrev pub ◌==◌ : ℕ → ℕ → Bool\nm == n = eqb m n\n"}, ""),
    ("no definition", {}, "no definition was found"),
]
