"""Shows that uncited catches what it is there to catch, and nothing else."""
LAW = "pub law : (n : ℕ) → n ≡ n\nlaw n = refl\n"
CITES = "use Rattle.one.specs.Laws.{law}\n\npub other : 0 ≡ 0\nother = law 0\n"
LAWS, THEOREM, CODE = "crates/one/specs/Laws.antt", "crates/two/specs/Theorems.antt", "crates/one/src/lib.rt"

# name; files and their texts; what the check must say ('' if all is well)
CASES = [
    ("a law that a theorem names", {LAWS: LAW, THEOREM: CITES}, ""),
    ("a law that nothing names", {LAWS: LAW}, f"{LAWS}:1\tnothing names the law\tlaw"),
    ("a law that only a comment names", {LAWS: LAW + "\n-- by law\n"}, "nothing names the law\tlaw"),
    ("a law that a function's proof takes", {LAWS: LAW, CODE: "#[tactic(auto, using(crate::specs::Laws::law))]\npub fn f() {}\n"}, ""),
    ("a law that a page names", {LAWS: LAW, "docs/RULES.md": "Proved: `law`.\n"}, ""),
    ("a law that its file names at the front of a line", {LAWS: LAW + "\npub two : 1 ≡ 1\ntwo =\n    law\n    1\n", THEOREM: "use Rattle.one.specs.Laws.{two}\n\npub t : 1 ≡ 1\nt = two\n"}, ""),
    ("a law of a module that nothing names", {LAWS: "module _ (n : ℕ) where\n  law : n ≡ n\n  law = refl\n"}, f"{LAWS}:2\tnothing names the law\tlaw"),
    ("a law kept for itself under another's name", {LAWS: "law : 0 ≡ 0\nlaw = refl\n", "crates/two/specs/Laws.antt": "pub law : 1 ≡ 1\nlaw = refl\n", "crates/two/specs/Theorems.antt": "use Rattle.two.specs.Laws.{law}\n\npub t : 1 ≡ 1\nt = law\n"}, f"{LAWS}:1\tnothing names the law\tlaw"),
    ("a field of a record", {"crates/one/specs/Rules.antt": "pub record Rules : Type 0 where\n  pub first : ℕ\n"}, ""),
    ("a theorem", {"crates/one/specs/Theorems/Demand2.antt": LAW}, ""),
    ("what rt keeps of a crate", {"crates/one/out/rlib/one.rlib/specs/Laws.antt": LAW}, ""),
    ("a sample", {"crates/one/specs/Samples.antt": LAW}, ""),
    ("a row of conformance", {"crates/pinned/specs/Receiving/Steps.antt": LAW}, ""),
    ("an example among definitions", {"crates/one/specs/Plain.antt": LAW}, ""),
    ("a law among definitions", {"crates/one/specs/Plain.antt": "pub law : (n : ℕ) → n ≡ n\nlaw n = omega arith\n"}, "nothing names the law\tlaw"),
    ("a name that is not used", {THEOREM: "use Rattle.std.specs.Prelude.{◌≡◌, refl, sym}\n\npub t : 0 ≡ 0\nt = refl\n"}, f"{THEOREM}\tbrings in and does not name\tsym of Rattle.std.specs.Prelude"),
    ("an operator that is not used", {THEOREM: "use Rattle.std.specs.Prelude.{◌+◌}\n\npub t : 0 ≡ 0\nt = refl\n"}, "◌+◌ of Rattle.std.specs.Prelude"),
    ("an operator that is used", {THEOREM: "use Rattle.std.specs.Prelude.{◌+◌}\n\npub t : 0 + 0 ≡ 0\nt = refl\n"}, ""),
    ("if, then and else", {THEOREM: "use Rattle.ground.specs.Plain.{if◌then◌else◌}\n\npub t : (if true then 0 else 1) ≡ 0\nt = refl\n"}, ""),
    ("a name by another name", {THEOREM: "use Rattle.std.specs.Prelude.{refl as same}\n\npub t : 0 ≡ 0\nt = refl\n"}, "same of Rattle.std.specs.Prelude"),
    ("a file by a name that is used", {THEOREM: "use Rattle.std.specs.Prelude as P\n\npub t : 0 ≡ 0\nt = P.refl\n"}, ""),
    ("a file by a name that is not used", {THEOREM: "use Rattle.std.specs.Prelude as P\n\npub t : 0 ≡ 0\nt = refl\n"}, "P of Rattle.std.specs.Prelude"),
    ("a name handed on", {"crates/one/specs/Lib.antt": "pub use Rattle.one.specs.Laws.{law}\n", LAWS: LAW}, ""),
    ("a name in a contract", {CODE: "ghost use Rattle.std.specs.Prelude.{◌≡◌};\n\npub fn one() -> u8\n    ensures { result ≡ 1 }\n{\n    1\n}\n"}, ""),
    ("a name that no contract has", {CODE: "ghost use Rattle.std.specs.Prelude.{length};\n\npub fn one() -> u8\n{\n    1\n}\n"}, "length of Rattle.std.specs.Prelude"),
    ("a function that is called", {CODE: "fn one() -> u8\n{\n    1\n}\n\npub fn two() -> u8\n{\n    one() + one()\n}\n"}, ""),
    ("a function that nothing calls", {CODE: "fn one() -> u8\n{\n    1\n}\n"}, f"{CODE}\tnothing calls\tone"),
]
