"""exports: its tests."""
LIBRARY = """// What it is for.
ghost use Rattle.std.specs.Prelude.{◌≡◌, ◌+◌, length};
ghost use Rattle.c_face.specs.Words.{told, other};

fn inner(x: u8) -> u8
    ensures { result ≡ other x }
{
    x
}

pub fn levelspruce_f(rows: &[[u8; 16]], x: u32, out: &mut [u8]) -> u8
    ensures { (result ≡ told x rows.now) × (length out.new ≡ length out.old) }
{
    inner(0)
}
"""
EXPORTS = """// c_face::packets for C.
ghost use Rattle.std.specs.Prelude.{◌≡◌, length};
ghost use Rattle.c_face.specs.Words.{told};

#[unsafe(no_mangle)]
pub extern "C" fn levelspruce_f(
    rows: &[[u8; 16]],
    x: u32,
    out: &mut [u8],
) -> u8
    ensures { (result ≡ told x rows.now)
        × (length out.new ≡ length out.old) }
{
    c_face::packets::levelspruce_f(rows, x, out)
}
"""
ROOT = "// The C calls of c_face, exported.\n#![tactic(auto)]\n\nmod packets;\n"
WRONG = "is not what crates/c_face gives"


def tree(exports, root=ROOT, **more):
    files = {"crates/c_face/src/packets.rt": LIBRARY, "crates/c_face_c/src/packets.rt": exports, "crates/c_face_c/src/lib.rt": root}
    return {**files, **{f"crates/c_face_c/src/{name}.rt": text for name, text in more.items()}}


CASES = [
    ("exports of the library's text, laid out", tree(EXPORTS), ""),
    ("a weaker clause", tree(EXPORTS.replace("told x rows.now", "told x rows")), WRONG),
    ("a clause that is left out", tree(EXPORTS.replace("\n        × (length out.new ≡ length out.old) }", " }")), WRONG),
    ("arguments exchanged", tree(EXPORTS.replace("(rows, x, out)", "(x, rows, out)")), WRONG),
    ("another kind of number", tree(EXPORTS.replace("x: u32", "x: u64")), WRONG),
    ("no export", tree(EXPORTS.replace("#[unsafe(no_mangle)]\n", "")), WRONG),
    ("another definition of the name", tree(EXPORTS.replace("specs.Words", "specs.Others")), WRONG),
    ("a module that is left out", tree(EXPORTS, ROOT.replace("mod packets;\n", "")), WRONG),
    ("a file of no library's file", tree(EXPORTS, more="// More.\n"), "crates/c_face_c/src/more.rt"),
    ("no library", {"crates/c_face_c/src/lib.rt": ROOT}, "would hold of anything"),
]
