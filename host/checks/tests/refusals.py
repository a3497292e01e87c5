"""Shows that refusals catches what it is there to catch, and nothing else."""
SOURCE = """impl Answer {
    pub fn number(self) -> u8
        ensures { result ≡ number_of self }
    {
        0
    }
}
pub fn write(fields: Fields, h4: &mut [u8]) -> Answer
    ensures { (result ≡ write_answer fields (length h4.old)) × (h4.new ≡ write_bytes fields h4.old) }
{
    x
}
pub fn frame(rows: &mut [u8], port: u32) -> u8
    ensures { (result ≡ (frame_of rows.old port).answer) × (rows.new ≡ (frame_of rows.old port).rows) }
{
    x
}
pub fn add(table: Table, slot: u32) -> Step
    ensures { result ≡ outcome_of table (AddSlot slot) }
{
    x
}
pub fn start(names: &[u8], count: u32) -> Result<Table, Refusal>
    ensures told { result ≡ table_told (start_of names.now count) }
    ensures left { result_unwrap_or result (start_of names.now 0).table ≡ (start_of names.now count).table }
{
    x
}
"""
FACE = """pub fn in_bytes(state: &mut [u8], the_slot: u32) -> u8
    ensures { (result ≡ answer_c true (AddSlot the_slot) state.old) × (state.new ≡ state_c true (AddSlot the_slot) state.old) }
{
    0
}
pub fn tells(text: &[u8], first: &mut usize, second: &mut usize) -> u8
    ensures { (result ≡ tell_answer text.now) × (first.new ≡ first_c text.now first.old) × (second.new ≡ second_c text.now second.old) }
{
    0
}
"""
TABLE = """use Packets as packet
entries =
    row "one::write" packet.write packet.write_copes
    ∷ row "one::add" packet.add packet.add_copes
    ∷ row "one::frame" packet.frame packet.frame_copes
    ∷ row "one::start" packet.start packet.start_copes
    ∷ row "in_bytes" packet.add_c packet.add_c_copes
    ∷ row "tells" packet.tells_c packet.tells_c_copes
    ∷ []
"""
CALLS = """abbrev pub write : Fields × List ℕ → Call
write (f, h4) =
    stateless (Unless 9 (length h4 == 16) ∷ [])
    (number_of (write_answer f (length h4))) (h4 ∷ []) (write_bytes f h4 ∷ [])

-- write (f, h4) = stateless
abbrev pub add : Table × ℕ → Call
add (table, slot) = stateful [] (number_of (outcome_of table (AddSlot slot)).answer) [] [] table (outcome_of table (AddSlot slot)).table table

abbrev pub frame : List ℕ × ℕ → Call
frame (rows, port) = stateful [] (frame_of rows port).answer [] [] rows (frame_of rows port).rows rows

abbrev pub start : List ℕ × ℕ → Call
start (names, n) = stateful [] (number_of (start_of names n).answer) [] [] (start_of names 0).table (start_of names n).table (empty_of names)

idle : State → Bool
idle Idle = true
idle Add = false

abbrev in_bytes : List ℕ → Bool → Call
in_bytes state fits call rs = stateful rs (answer_c fits call state) [] [] state (state_c fits call state) state

abbrev pub add_c : List ℕ × ℕ → Call
add_c (state, slot) = in_bytes state true (AddSlot slot) (add (table_of state, slot)).refusals

abbrev pub tells_c : List ℕ × ℕ × ℕ → Call
tells_c (text, a, b) = stateful {S = ℕ × ℕ} [] (tell_answer text) [] [] (a, b) (first_c text a, second_c text b) (a, b)
"""


# the same numbers by ground's `number_told`, and no method that promises them
TOLD = "pub number_of : Answered → ℕ\nnumber_of = number_told refused_number\n"


# a call that gives a part of its outcome alone
PART = SOURCE.replace("result ≡ outcome_of table (AddSlot slot)", "result ≡ (outcome_of table (AddSlot slot)).table")


# what a refused call leaves
LEFT = "    ensures left { result_unwrap_or result (start_of names.now 0).table ≡ (start_of names.now count).table }\n"


def files(source=SOURCE, face=FACE, table=TABLE, calls=CALLS, told=""):
    return {
        "crates/one/src/lib.rt": source,
        "crates/one/specs/Told.antt": told,
        "crates/c_face/src/lib.rt": face,
        "crates/conformance/specs/Refusals.antt": table,
        "crates/conformance/specs/Refusals/Packets.antt": calls,
    }


def other(old, new):
    """The calls with other words, which must stand there once."""
    assert CALLS.count(old) == 1, old
    return files(calls=CALLS.replace(old, new))


# name; files; what the check must say ('' if all is well)
CASES = [
    ("rows of their contracts", files(), ""),
    ("a number told of a Result", files(source=SOURCE[SOURCE.index("pub fn write") :], told=TOLD), ""),
    ("a part alone of a call that a law says is done", files(source=PART, told="pub add_done : (t : Table) → (outcome_of t).answer ≡ Done\n"), ""),
    ("a part alone, and no such law", files(source=PART), "one::add\tthe answer is not the result"),
    ("told of a record under another name", files(source=SOURCE.replace("result ≡ outcome_of table (AddSlot slot)", "result ≡ table_told (outcome_of table (AddSlot slot))")), ""),
    ("the value of a told result dropped", files(source=SOURCE.replace(LEFT, "")), "one::start\twhat is returned is not what the contract says of a refused result"),
    ("another value of a told result", files(source=SOURCE.replace("count).table }", "count).other }")), "one::start\twhat is returned is not what the contract says of a refused result"),
    ("another value taken for a refused result", other("(start_of names 0).table (start", "(start_of names 1).table (start"), "one::start\twhat is returned is not what the contract says of a refused result"),
    ("the value of a told result for itself", other("[] [] (start_of names 0).table (start", "[] [] (start_of names n).table (start"), "one::start\twhat is returned is not what the contract says of a refused result"),
    ("another part of what the caller's own is made", other("(outcome_of table (AddSlot slot)).table table", "(outcome_of slot (AddSlot slot)).table table"), "one::add\twhat is returned is no part"),
    ("a number that nothing promises", files(source=SOURCE[SOURCE.index("pub fn write") :]), "one::write\tthe answer is not the result"),
    ("another answer", other("(number_of (write_answer f (length h4)))", "(number_of (read_answer f (length h4)))"), "one::write\tthe answer is not the result"),
    ("an answer of another argument", other("(length h4)))", "(length f)))"), "one::write\tthe answer is not the result"),
    ("an answer under another function", other("(number_of (write_answer", "(other_of (write_answer"), "one::write\tthe answer is not the result"),
    ("an answer with an argument less", other("(write_answer f (length h4))", "(write_answer f)"), "one::write\tthe answer is not the result"),
    ("other bytes left", other("(write_bytes f h4 ∷ [])", "(read_bytes f h4 ∷ [])"), "one::write\twhat is left of h4"),
    ("the bytes left as they were", other("(write_bytes f h4 ∷ [])", "(h4 ∷ [])"), "one::write\twhat is left of h4"),
    ("nothing lent", other("(h4 ∷ []) (write_bytes f h4 ∷ [])", "[] []"), "one::write\th4 is lent to be changed and not in the row"),
    ("more lent than left", other("(h4 ∷ []) (write_bytes", "(h4 ∷ f ∷ []) (write_bytes"), "one::write\tfields is not lent to be changed"),
    ("another state returned", other("(outcome_of table (AddSlot slot)).table", "(outcome_of table (RemoveSlot slot)).table"), "one::add\twhat is returned is no part"),
    ("the state returned as given", other("table (outcome_of table (AddSlot slot)).table table", "table table table"), "one::add\twhat is returned is no part"),
    ("the state left out", other("stateful [] (number_of (outcome_of table (AddSlot slot)).answer) [] [] table (outcome_of table (AddSlot slot)).table table", "stateless [] (number_of (outcome_of table (AddSlot slot)).answer) [] []"), "one::add\tthe answer is a part of the result, and the rest"),
    ("another field for the answer", other("(frame_of rows port).answer", "(frame_of rows port).told"), "one::frame\tthe answer is not the result"),
    ("the outcome for the answer", other("(frame_of rows port).answer", "(frame_of rows port)"), "one::frame\tthe answer is not the result"),
    ("another field left", other("(frame_of rows port).rows", "(frame_of rows port).store"), "one::frame\twhat is returned for rows"),
    ("another state left behind a definition", other("(state_c fits call state) state", "(other_c fits call state) state"), "in_bytes\twhat is returned for state"),
    ("another argument to a definition", other("in_bytes state true", "in_bytes state false"), "in_bytes\tthe answer is not the result"),
    ("a row with a parameter less", other("add_c (state, slot)", "add_c state"), "in_bytes\tthe row has 1 parameters, the function 2"),
    ("two numbers returned, one of them another", other("second_c text b)", "third_c text b)"), "tells\twhat is returned for second"),
    ("two numbers returned the wrong way round", other("(first_c text a, second_c text b)", "(second_c text b, first_c text a)"), "tells\twhat is returned for first"),
    ("one number given of two", other("(a, b) (first_c text a, second_c text b) (a, b)", "a (first_c text a) a"), "tells\tsecond is lent to be changed and not in the row"),
    ("one number returned of two", other("(first_c text a, second_c text b)", "(first_c text a)"), "tells\tas many are not returned as are given"),
    ("a definition that is not there", files(table=TABLE.replace("packet.add_c ", "packet.gone ")), "packet.gone is not defined"),
    ("a definition that ends elsewhere", other("= in_bytes state", "= unknown state"), "in_bytes\tdoes not end in stateless or stateful"),
    ("a function that is not there", files(face=""), "in_bytes\tis the name of 0 public functions"),
    ("a contract of another definition", files(source=SOURCE.replace("≡ outcome_of", "≡ walk_of")), "one::add\tthe answer is not the result"),
    ("two rows of one name", files(table=TABLE.replace('"one::add"', '"one::write"')), "one::write\thas two rows"),
    ("no table", files(table=""), "no row found"),
]
