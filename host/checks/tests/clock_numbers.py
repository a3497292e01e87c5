"""Shows that clock-numbers catches what it is there to catch, and nothing else."""
GOOD = "law : (kind : ℕ) → 0 < frames kind\nunfolding place_of\nlaw kind = frames_some kind\n"
CASED = "cased : ℕ → ℕ\ncased kind = if kind == vc12_kind then 1 else 0\n"


def opened(*names):
    return f"law : (kind : ℕ) → 0 < frames kind\nunfolding {' '.join(names)}\nlaw kind = omega arith\n"


# name; a file and its text; what the check must say ('' if all is well)
TEXTS = [
    ("a law that cites", "crates/one/specs/Laws.antt", GOOD, ""),
    ("a law of packet", "crates/packet/specs/Laws/Epochs.antt", opened("frames", "tags"), ""),
    ("a function's proof in packet", "crates/packet/proofs/kinds/place_of/Proof.antt", opened("frames"), ""),
    ("a wrong definition's run", "crates/one/specs/Wrong.antt", opened("frames"), ""),
    ("a wrong definition's run in a folder", "crates/one/specs/Wrong/Place.antt", opened("frames"), ""),
    ("a sample", "crates/one/specs/Samples/Met.antt", opened("epochs"), ""),
    ("the examples", "crates/one/specs/Examples.antt", opened("lead"), ""),
    ("the paper's numbers", "crates/conformance/specs/Refusals/Receivers.antt", opened("frames", "tags"), ""),
    ("a number in a comment", "crates/one/specs/Laws.antt", GOOD + "-- unfolding frames\n", ""),
    ("a name that begins like a number's", "crates/one/specs/Laws.antt", opened("frames_of", "tags_in", "epochs_some"), ""),
    ("a number that is only spoken of", "crates/one/specs/Laws.antt", "law : frames ≡ frames\nunfolding place_of\nlaw = refl\n", ""),
    ("a number behind a tactic, in packet", "crates/packet/src/kinds.rt", "#[tactic(auto, unfolding(crate::specs::Kinds::frames))]\nfn f() {}\n", ""),
    ("a number behind a tactic elsewhere", "crates/one/src/lib.rt", "#[tactic(auto, unfolding(packet::specs::Kinds::place_of, packet::specs::Kinds::frames))]\nfn f() {}\n", "crates/one/src/lib.rt:1\tunfolds frames"),
    ("another definition behind a tactic", "crates/one/src/lib.rt", "#[tactic(auto, unfolding(packet::specs::Kinds::place_of))]\nfn f() {}\n", ""),
    ("the frames of an epoch", "crates/one/specs/Laws.antt", opened("frames"), "crates/one/specs/Laws.antt:2\tunfolds frames"),
    ("the epochs", "crates/one/specs/Theorems/Tags.antt", opened("epoch_of", "epochs"), "unfolds epochs"),
    ("the tags, in a function's proof", "crates/one/proofs/Sizes.antt", opened("tags"), "unfolds tags"),
    ("the lead, in a module", "crates/one/specs/Laws.antt", "  law : ℕ\n  unfolding place_of lead\n  law = refl\n", "unfolds lead"),
    ("a number by its path", "crates/one/specs/Laws.antt", opened("Kinds.frames"), "unfolds frames"),
    ("a number by another name", "crates/one/specs/Laws.antt", "use Rattle.packet.specs.Kinds.{frames as length}\n" + opened("length"), "unfolds frames"),
    ("all that is open, in a law", "crates/one/specs/Laws.antt", "use Rattle.packet.specs.Opened.{packet_open}\n" + opened("packet_open"), "unfolds packet_open"),
    ("all that is open, by another name", "crates/one/specs/Laws.antt", "use Rattle.packet.specs.Opened.{packet_open as all}\n" + opened("all"), "unfolds packet_open"),
    ("all that is open, in a sample", "crates/one/specs/Samples/Met.antt", "use Rattle.packet.specs.Opened.{packet_open}\n" + opened("packet_open"), ""),
    ("what opens all", "crates/one/specs/Opened.antt", "use Rattle.packet.specs.Opened.{packet_open}\n" + opened("packet_open", "frames"), ""),
    ("a clause over two lines", "crates/one/specs/Laws.antt", "law : ℕ\nunfolding place_of\n    frames\nlaw = refl\n", "unfolds frames"),
    ("a file named like a sample's", "crates/one/specs/SamplesOf.antt", opened("frames"), "unfolds frames"),
    ("a crate named like packet", "crates/packets/specs/Laws.antt", opened("frames"), "unfolds frames"),
    ("VC-12's kind in packet", "crates/packet/specs/Laws/Epochs.antt", CASED, ""),
    ("VC-12's kind in step", "crates/step/specs/Starts.antt", CASED, ""),
    ("VC-12's kind in a table", "crates/conformance/specs/Vc12.antt", CASED, ""),
    ("VC-12's kind in a sample", "crates/link/specs/Samples/Vc12.antt", CASED, ""),
    ("VC-12's kind in a wrong reading", "crates/invariant/specs/Wrong/Starts.antt", CASED, ""),
    ("VC-12's kind where a frame arrives", "crates/receiver/proofs/arrival/arrive/Proof.antt", CASED, ""),
    ("VC-12's kind where sizes are asked for", "crates/phases/proofs/sizes/is_sized/Proof.antt", CASED, ""),
    ("a case elsewhere in phases", "crates/phases/proofs/sizes/ports_in/Proof.antt", CASED, "names vc12_kind"),
    ("VC-12's kind in a comment", "crates/judge/specs/Seen.antt", "-- by vc12_kind\n", ""),
    ("a name that begins like it", "crates/judge/specs/Seen.antt", "vc12_kinds : ℕ\n", ""),
    ("a case on the kind in judge", "crates/judge/specs/Seen.antt", CASED, "crates/judge/specs/Seen.antt:2\tnames vc12_kind"),
    ("a case on the kind in transport", "crates/link/specs/Proofs/Transport/Heard.antt", CASED, "names vc12_kind"),
    ("a case elsewhere in receiver", "crates/receiver/proofs/arrival/decided/Proof.antt", CASED, "names vc12_kind"),
    ("VC-12's name in a recording", "crates/recording/specs/Pairs.antt", CASED, ""),
    ("whose lines have a count", "crates/mending/specs/Following.antt", CASED, ""),
    ("a case in a law of mending", "crates/mending/specs/Laws/Swept.antt", CASED, "names vc12_kind"),
    ("a case in a replay", "crates/replay_lines/specs/Replay.antt", CASED, "names vc12_kind"),
    ("a definition of receiver's named arrive", "crates/receiver/specs/arrive.antt", CASED, "names vc12_kind"),
    ("no file at all", "docs/words.md", "words\n", "no clause was found"),
]

KEPT = {"crates/two/specs/Laws.antt": GOOD}

CASES = [(name, {**({} if path.startswith("docs") else KEPT), path: text}, wanted) for name, path, text, wanted in TEXTS]
