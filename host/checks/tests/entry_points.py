"""Shows that entry-points catches what it is there to catch, and nothing else."""
WHOLE = "pub fn whole(x: u8) -> u8\n    ensures { result ≡ x }\n{\n    x\n}\n"

# What stands in crates/one/src/lib.rt beside a whole promise; the page; what the check must say ('' if all is well).
TEXTS = [
    ("a whole promise", "", "", ""),
    ("a private function", "fn inner(x: u8) -> u8 {\n    x\n}", "", ""),
    ("a function of the crate alone", "pub(crate) fn inner(x: u8) -> u8 {\n    x\n}", "", ""),
    ("a function in a comment", "// pub fn gone(x: u8) -> u8 { x }", "", ""),
    ("braces in literals", "pub const OPEN: u8 = b'{';\npub const SHUT: &[u8] = b\"}}\";", "", ""),
    ("promises with names", "pub fn f(x: u8) -> u8\n    ensures small { result < 9 }\n    ensures said { result ≡ x }\n{\n    x\n}", "", ""),
    ("a part of the result", "pub fn f(x: u8) -> Pair\n    ensures { result.low ≡ x }\n{\n    x\n}", "", "one::f\tno ensures is an equation for its result"),
    ("what the result refers to", "pub fn f(x: &[u8]) -> &[u8]\n    ensures { result.now ≡ x.now }\n{\n    x\n}", "", ""),
    ("the result as a definition sees it", "pub fn f(x: u8) -> Pair\n    ensures { seen result ≡ x }\n{\n    x\n}", "", ""),
    ("an array of arrays as the result", "pub fn f(x: [u8; 2]) -> [[u8; 16]; 2]\n    ensures { result ≡ x }\n{\n    x\n}", "", ""),
    ("two promises, the second on the result",
     "pub fn f(s: &mut [u8]) -> u8\n    ensures { s.new ≡ s.old }\n    ensures { result ≡ 1 }\n{\n    1\n}", "", ""),
    ("a lent slice promised, and no result", "pub fn f(s: &mut [u8])\n    ensures { s.new ≡ [] }\n{}", "", ""),
    ("a quoted name", "pub fn f(the_h4: &mut [u8])\n    ensures { «the_h4».new ≡ [] }\n{}", "", ""),
    ("a requires", "pub fn f(x: u8) -> u8\n    requires { x < 9 }\n    ensures { result ≡ x }\n{\n    x\n}", "", "one::f\thas a requires"),
    ("a requires after an array", "pub fn f(x: u8) -> [u8; 2]\n    ensures { result ≡ x }\n    requires { x < 9 }\n{\n    x\n}", "", "one::f\thas a requires"),
    ("a requires with a name", "pub fn f(x: u8) -> u8\n    requires small { x < 9 }\n    ensures { result ≡ x }\n{\n    x\n}", "", "one::f\thas a requires"),
    ("a requires after the ensures", "pub fn f(x: u8) -> u8\n    ensures { result ≡ x }\n    requires { x < 9 }\n{\n    x\n}", "", "one::f\thas a requires"),
    ("no ensures", "pub fn f(x: u8) -> u8 {\n    x\n}", "", "one::f\thas no ensures"),
    ("an ensures in a comment", "pub fn f(x: u8) -> u8\n// ensures { result ≡ x }\n{\n    x\n}", "", "one::f\thas no ensures"),
    ("an ensures that names no result", "pub fn f(x: u8) -> u8\n    ensures { x ≡ x }\n{\n    x\n}", "", "one::f\tno ensures is an equation for its result"),
    ("an ensures that does not use its result", "pub fn f(x: u8) -> u8\n    ensures { r' ≡ r-x }\n{\n    x\n}", "", "one::f\tno ensures is an equation for its result"),
    ("an ensures that uses the ghost only", "pub fn f(x: u8) -> u8\n    ghost { ℕ }\n    ensures { g ≡ x }\n{\n    x\n}", "", "one::f\tno ensures is an equation for its result"),
    ("a result that is only bounded", "pub fn f(x: u8) -> u8\n    ensures { result < 16 }\n{\n    x\n}", "", "one::f\tno ensures is an equation for its result"),
    ("a result that equals itself", "pub fn f(x: u8) -> u8\n    ensures { result ≡ result }\n{\n    x\n}", "", "one::f\tno ensures is an equation for its result"),
    ("a lent slice of which only the length is promised",
     "pub fn f(s: &mut [u8])\n    ensures { length s.new ≡ length s.old }\n{}", "", "one::f\tno ensures is an equation for s afterwards"),
    ("a result and a lent slice in one clause",
     "pub fn f(s: &mut [u8]) -> u8\n    ensures { (result ≡ g s.old) × (s.new ≡ h s.old) }\n{\n    1\n}", "", ""),
    ("a function over lines", "pub fn f(\n    x: u8,\n    y: u8,\n) -> u8 {\n    x\n}", "", "one::f\thas no ensures"),
    ("a C function", "#[unsafe(no_mangle)]\npub extern \"C\" fn f(x: u8) -> u8 {\n    x\n}", "", "one::f\thas no ensures"),
    ("a C function that is not pub", "#[unsafe(no_mangle)]\nextern \"C\" fn f(x: u8) -> u8 {\n    x\n}", "", "one::f\thas no ensures"),
    ("a method", "impl Word {\n    pub const A: Word = Word { code: 1 };\n    pub fn f(self) -> u8 {\n        self.code\n    }\n}", "", "one::Word::f\thas no ensures"),
    ("a function after an impl block", "impl Word {}\npub fn f(x: u8) -> u8 {\n    x\n}", "", "one::f\thas no ensures"),
    ("a function in an inner module", "pub mod deep {\n    pub fn f(x: u8) -> u8 {\n        x\n    }\n}", "", "one::deep::f\thas no ensures"),
    ("a lent slice not promised", "pub fn f(s: &mut [u8]) -> u8\n    ensures { result ≡ s.old }\n{\n    1\n}", "", "one::f\tno ensures is an equation for s afterwards"),
    ("a lent slice promised under another name", "pub fn f(h4: &mut [u8])\n    ensures { the_h4.new ≡ [] }\n{}", "", "one::f\tno ensures is an equation for h4 afterwards"),
    ("one of two lent slices not promised",
     "pub fn f(s: &mut [u8], t: &'a mut [u8])\n    ensures { s.new ≡ [] }\n{}", "", "one::f\tno ensures is an equation for t afterwards"),
    ("a lent self not promised", "impl Word {\n    pub fn f(&mut self)\n        ensures { 1 ≡ 1 }\n    {}\n}", "", "one::Word::f\tno ensures is an equation for self afterwards"),
    ("neither a result nor a lent slice", "pub fn f(x: u8) {}", "", "one::f\thas neither a result nor a &mut"),
    ("a brace too many", "}", "", "cannot be read"),
    ("an exception with its reason", "pub fn f(x: u8) -> u8 {\n    x\n}", "## Exceptions\n\n- `one::f`: says nothing yet.\n", ""),
    ("an exception with no reason", "pub fn f(x: u8) -> u8 {\n    x\n}", "## Exceptions\n\n- `one::f`:\n", "with no name or no reason"),
    ("an exception outside its list", "pub fn f(x: u8) -> u8 {\n    x\n}", "## Exceptions\n\n## Others\n\n- `one::f`: no.\n", "names no exception"),
    ("an exception for another function", "pub fn f(x: u8) -> u8 {\n    x\n}", "## Exceptions\n\n- `one::g`: no.\n", "one::g\tan exception in docs/PROMISES.md that no public function needs"),
    ("a stale exception", "", "## Exceptions\n\n- `one::whole`: no.\n", "one::whole\tan exception in docs/PROMISES.md that no public function needs"),
]

BARE = "pub fn f(x: u8) -> u8 {\n    x\n}\n"
OTHERS = [
    ("a module's own file", {"crates/one/src/part.rt": BARE}, "one::part::f\thas no ensures"),
    ("a program's main", {"crates/one/src/lib.rt": WHOLE, "crates/two/src/main.rt": "pub fn main() {}"}, ""),
    ("no function at all", {"crates/one/src/lib.rt": ""}, "no public function found"),
]

beside = [(name, {"crates/one/src/lib.rt": WHOLE + source, "docs/PROMISES.md": page}, wanted) for name, source, page, wanted in TEXTS]
CASES = beside + OTHERS
