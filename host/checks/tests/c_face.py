"""Shows that c-face catches what it is there to catch, and nothing else."""
SOURCE = '#[unsafe(no_mangle)]\npub extern "C" fn f(x: u32, s: &[u8], t: &mut [u8]) -> u8 {\n    0\n}\nfn inner(x: u8) -> u8 {\n    x\n}\n'
HEADER = "/* uint8_t gone(uint32_t x); */\nLEVELSPRUCE_MUST_USE\nuint8_t f(uint32_t x, const uint8_t *s, size_t s_length,\n          uint8_t *t, size_t t_length);\n"
ROWS = 'rows = row "f" f f_copes ∷ []\n'
IN_ROWS = 'pub extern "C" fn f(\n    n: usize,\n    s: &[[u8; 16]],\n    t: &mut [[u8; 8]],\n) -> u8 {\n    0\n}\n'
IN_ROWS_HEADER = "LEVELSPRUCE_MUST_USE\nuint8_t f(size_t n, const uint8_t (*s)[16], size_t s_length,\n          uint8_t (*t)[8], size_t t_length);\n"
OF_WORDS = 'pub extern "C" fn f(s: &[[u32; 3]]) -> u8 {\n    0\n}\n'
OF_WORDS_HEADER = "LEVELSPRUCE_MUST_USE\nuint8_t f(const uint32_t (*s)[3], size_t s_length);\n"
TOLD = 'pub extern "C" fn f(s: &[u8], n: &mut usize) -> u8 {\n    0\n}\n'
TOLD_HEADER = "LEVELSPRUCE_MUST_USE\nuint8_t f(const uint8_t *s, size_t s_length, size_t *n);\n"

# name; source; header; rows; what the check must say ('' if all is well)
TEXTS = [
    ("a header that fits", SOURCE, HEADER, ROWS, ""),
    ("two buffers in another order", SOURCE, "uint8_t f(uint32_t x, uint8_t *t, size_t t_length, const uint8_t *s, size_t s_length);\n", ROWS, "the header has"),
    ("a buffer that is not const", SOURCE, HEADER.replace("const ", ""), ROWS, "the header has"),
    ("a narrower number", SOURCE, HEADER.replace("f(uint32_t", "f(uint8_t"), ROWS, "the header has"),
    ("rows and a size", IN_ROWS, IN_ROWS_HEADER, ROWS, ""),
    ("rows whose size has a name", IN_ROWS, "#define BYTES 8 /* of a row */\n" + IN_ROWS_HEADER.replace("[8]", "[BYTES]"), ROWS, ""),
    ("rows whose size has a name of another number", IN_ROWS, "#define BYTES 9\n" + IN_ROWS_HEADER.replace("[8]", "[BYTES]"), ROWS, "the header has"),
    ("a call whose answer may be left", SOURCE, HEADER.replace("LEVELSPRUCE_MUST_USE\n", ""), ROWS, "lacks the mark"),
    ("a text beside the calls", SOURCE, HEADER + "const char *text(uint32_t n);\n", ROWS, ""),
    ("rows of another length", IN_ROWS, IN_ROWS_HEADER.replace("[8]", "[16]"), ROWS, "the header has"),
    ("rows that are not const", IN_ROWS, IN_ROWS_HEADER.replace("const ", ""), ROWS, "the header has"),
    ("bytes for rows", IN_ROWS, IN_ROWS_HEADER.replace("(*t)[8]", "*t"), ROWS, "the header has"),
    ("a narrower size", IN_ROWS, IN_ROWS_HEADER.replace("size_t n", "uint32_t n"), ROWS, "the header has"),
    ("rows of no C type", IN_ROWS.replace("[u8; 8]", "[bool; 8]"), IN_ROWS_HEADER, ROWS, "no C type for"),
    ("rows of wider numbers", OF_WORDS, OF_WORDS_HEADER, ROWS, ""),
    ("rows of bytes for rows of wider numbers", OF_WORDS, OF_WORDS_HEADER.replace("uint32_t", "uint8_t"), ROWS, "the header has"),
    ("a number lent to be changed", TOLD, TOLD_HEADER, ROWS, ""),
    ("that number by value", TOLD, TOLD_HEADER.replace("*n", "n"), ROWS, "the header has"),
    ("a call that the header lacks", SOURCE, "", ROWS, "is not in the header"),
    ("a call that the crate lacks", SOURCE, HEADER + "uint8_t g(void);\n", ROWS, "is in the header alone"),
    ("a call with no row", SOURCE, HEADER, "", "has no row"),
    ("no call at all", "", "", "", "no C call found"),
]

PATHS = ("crates/c_face_c/src/lib.rt", "include/levelspruce.h", "crates/conformance/specs/Rows.antt")
TWO = dict(zip(PATHS, (SOURCE, HEADER + HEADER.replace("uint8_t f(", "uint8_t g("), ROWS.replace("[]", 'row "g" g g_copes ∷ []'))))
OTHER = SOURCE.replace("fn f(", "fn g(")
# name; files; what the check must say
OF_CRATES = [
    ("calls of two crates", {**TWO, "crates/c_cards_c/src/lib.rt": OTHER}, ""),
    ("one call of two crates", {**TWO, "crates/c_cards_c/src/lib.rt": OTHER + SOURCE}, "f\tis a C call twice"),
    ("a call of a crate of which the library is not made", {**TWO, "crates/one/src/lib.rt": OTHER}, "g\tis a C call of one"),
]
CASES = [(name, dict(zip(PATHS, texts)), wanted) for name, *texts, wanted in TEXTS] + OF_CRATES
