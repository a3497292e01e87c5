"""Shows that rules catches what it is there to catch, and nothing else."""
FILES = {
    "crates/one/specs/Table.antt": "-- 'Add, from IDLE' (01, 'The table')\nunfoldable pub table_of : ℕ → ℕ\n",
    "crates/one/specs/Lib.antt": "pub mod Table\n",
    "crates/one/specs/Helping.antt": "-- one more\nabbrev pub more : ℕ → ℕ\n",
    "crates/one/specs/Wrong.antt": "-- 'Add, from IDLE' the other way round\nabbrev pub wrong : ℕ → ℕ\n",
    "crates/one/specs/Laws/Table.antt": "-- of 'Add, from IDLE'\npub law : ℕ\n",
    "crates/one/src/lib.rt": "",
    "crates/conformance/specs/Examples/Paper.antt": '-- rows\npub table : List Row\ntable =\n    row "P1 written" [] (1 ∷ []) same\n    ∷ []\n',
    "crates.txt": "one:\nconformance: one\npinned: one\n",
}
SAID = "- Adding. Stated: `table_of` of crates/one/specs/Table.antt. "
MARK = "\n\n<!-- The table below is written by host/check rules -w. -->\n\n"
HEAD = "| Definitions of | Named rows | Wrong readings and samples | Theorems | Named by none of these |\n|---|---|---|---|---|\n"
NONE = "| [one](../crates/one) | | | | `more`, `table_of` |\n"
ROWS = "| [one](../crates/one) | `adds` 2 of [pinned/Sending](../crates/pinned/specs/Sending.antt) | | | `more` |\n"


def pinned(rows, sentence="'Add, from IDLE' (01)"):
    """A table of named rows of crates/pinned."""
    said = f'pins "{sentence}"\n    ' if sentence else ""
    return {"crates/pinned/specs/Sending.antt": f"use Rattle.one.specs.Table.{{table_of}}\n\nadds : Pinned\nadds =\n    {said}({rows}\n    ∷ [])\n"}


TWO = pinned('row "one" (table_of 1) 1 same\n    ∷ row "two" (table_of (1 + 1)) 2 same')

# name; the page; more files; what the check must say ('' if all is well)
TEXTS = [
    ("a rule with its definition", SAID, {}, ""),
    ("a row", SAID + 'Tried: "P1 written".', {}, ""),
    ("a row over two lines", SAID + 'Tried: "P1\n  written".', {}, ""),
    ("a row of a table", "| Rule | Stated | Tried |\n|---|---|---|\n| Adding. | `table_of` of [one/Table](../crates/one/specs/Table.antt) | \"P1 written\" |", {}, ""),
    ("a row of a table with another file", "| Adding. | `table_of` of [one/Helping](../crates/one/specs/Helping.antt) |", {}, "table_of is not declared in"),
    ("a row that is not there", SAID + 'Tried: "P1 read".', {}, "no row is named P1 read"),
    ("a name that is not there", SAID + "Proved: `law` of crates/one/specs/Table.antt", {}, "law is not declared in"),
    ("a file that is not there", SAID + "crates/one/specs/Gone.antt", {}, "crates/one/specs/Gone.antt is not there"),
    ("a page that leaves a file of definitions out", "- `more` of crates/one/specs/Helping.antt", {}, "crates/one/specs/Table.antt is not named"),
    ("a file that cites a request", SAID, {"crates/one/specs/More.antt": "-- of 2026-08\npub record More : Type 0 where\n"}, "crates/one/specs/More.antt is not named"),
    ("a file that cites a reading", SAID, {"crates/one/specs/More.antt": "-- as R-7 has it\nabbrev pub x : ℕ\n"}, "crates/one/specs/More.antt is not named"),
    ("a file of definitions in a folder", SAID, {"crates/one/specs/Kept/More.antt": "-- as R-7 has it\nabbrev pub x : ℕ\n"}, "crates/one/specs/Kept/More.antt is not named"),
    ("a file of theorems", SAID, {"crates/one/specs/Theorems/More.antt": "-- as R-7 has it\nabbrev pub x : ℕ\n"}, ""),
    ("a file that declares nothing", SAID, {"crates/one/specs/More.antt": "-- (01, 'Step')\npub mod Less\n"}, ""),
    ("a row of crates/pinned", SAID + 'Tried: "two".', TWO, ""),
    ("what pins a definition, by none", SAID + MARK + HEAD + NONE.rstrip(), {}, ""),
    ("what pins a definition, by rows", SAID + MARK + HEAD + ROWS.rstrip(), TWO, ""),
    ("a table of pins that is old", SAID + MARK + HEAD + NONE.rstrip(), TWO, "is not current in what pins a definition"),
    ("two rows of one name", SAID, pinned('row "one" (table_of 1) 1 same\n    ∷ row "one" (table_of 2) 2 same'), "two rows of adds are named one"),
    ("a table with no sentence", SAID, pinned('row "one" (table_of 1) 1 same', ""), "adds says no sentence that it pins"),
    ("a page that names nothing", "words", {"crates/one/specs/Table.antt": ""}, "names nothing"),
]

CASES = [(name, {**FILES, **more, "docs/RULES.md": page + "\n"}, wanted) for name, page, more, wanted in TEXTS]
