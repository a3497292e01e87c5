"""Shows that pages catches what it is there to catch, and nothing else."""
FILES = {"crates/one/specs/Table.antt": "", "crates/one/must-fail/wrong.edit": "", "docs/WORDS.md": "words\n"}
LONG = "word " * 30

# name; the page; what the check must say ('' if all is well)
TEXTS = [
    ("a page with no link", "words\n", ""),
    ("a link", "[crates/one/specs/Table.antt](../crates/one/specs/Table.antt)\n", ""),
    ("a link by a short name", "[one/Table](../crates/one/specs/Table.antt), [specs/Table.antt](../crates/one/specs/Table.antt)\n", ""),
    ("a link by words", "[the table of one/two](../crates/one/specs/Table.antt)\n", ""),
    ("a link to a folder", "[one](../crates/one)\n", ""),
    ("a link to a page beside it", "[docs/WORDS.md](WORDS.md), [words](WORDS.md#words)\n", ""),
    ("a link to an edit", "[must-fail/wrong](../crates/one/must-fail/wrong.edit)\n", ""),
    ("a link to another place", "[elsewhere](https://example.org/none)\n", ""),
    ("no link in a code block", "```c\nx[0](none);\n```\n", ""),
    ("no link in backticks", "`x[0](none)`\n", ""),
    ("a link to what is not there", "[one](../crates/one/specs/Gone.antt)\n", "../crates/one/specs/Gone.antt is not there"),
    ("a link from another folder", "[one](crates/one)\n", "crates/one is not there"),
    ("a link in a table", "| [one](gone) |\n", "gone is not there"),
    ("a link out of the tree", "[one](../../..)\n", "is not there"),
    ("a path that leads elsewhere", "[two/Table](../crates/one/specs/Table.antt)\n", "two/Table leads to crates/one/specs/Table.antt"),
    ("a name that ends like it", "[e/Table](../crates/one/specs/Table.antt)\n", "e/Table leads to crates/one/specs/Table.antt"),
    ("a long line", LONG + "\n", "docs/PAGE.md:1 has"),
    ("a long item", "- a\n- " + LONG + "\n", "docs/PAGE.md:2 has"),
    ("a long row of a table", "| " + LONG + "|\n", ""),
    ("a long line in a code block", "```c\n" + LONG + "\n```\n", ""),
    ("a long line behind a code block", "```c\nx\n```\n" + LONG + "\n", "docs/PAGE.md:4 has"),
]

CASES = [(name, {**FILES, "docs/PAGE.md": page}, wanted) for name, page, wanted in TEXTS]
