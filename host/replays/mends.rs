//! The program that mends beside the reference: torn recordings, what it prints and writes, mended twice, notes undone; and recordings of
//! the example link torn at random places, mended, and replayed with no line answered 13.

use crate::random::Random;
use crate::torn;
use reference::mend::{mended, undone};
use std::process::{Command, Output};

pub struct Mender<'a> {
    pub folder: &'a str,
    pub words: &'a [String],
}

#[derive(Default)]
pub struct Seen {
    pub recordings: usize,
    pub refused: usize,
    pub dropped: usize,
    pub restored: usize,
}

/// The text of an answer, as the header's calls have it.
fn words_of(answer: u8) -> &'static str {
    match answer {
        4 => "a number is out of range",
        _ => "the first line of the recording cannot be read, or there is none",
    }
}

impl Mender<'_> {
    fn path(&self, name: &str) -> String {
        format!("{}/{}", self.folder, name)
    }

    /// What the program says of a recording, and what it writes, if anything.
    fn run(&self, torn: &[u8]) -> (Output, Option<Vec<u8>>) {
        let (from, to) = (self.path("torn"), self.path("mended"));
        std::fs::write(&from, torn).expect("a recording is written");
        let _ = std::fs::remove_file(&to);
        let said = Command::new(&self.words[0]).args(&self.words[1..]).args([&from, &to]).output().expect("the program that mends starts");
        (said, std::fs::read(&to).ok())
    }

    /// A recording as the reference mends it: the notes, the tally, every byte; mended again to itself, and told again from its notes.
    pub fn held(&self, torn: &[u8], seen: &mut Seen) -> bool {
        let (said, written) = self.run(torn);
        seen.recordings += 1;
        match mended(torn) {
            Err(answer) => {
                seen.refused += 1;
                said.status.code() == Some(1) && said.stdout == format!("answer\t{}\tline\t1\t{}\n", answer, words_of(answer)).into_bytes() && written.is_none()
            }
            Ok(out) => {
                seen.dropped += out.dropped;
                seen.restored += out.restored;
                let tally = |dropped: usize, restored: usize| format!("dropped\t{}\nrestored\t{}\n", dropped, restored).into_bytes();
                let wanted = [out.notes.clone(), tally(out.dropped, out.restored)].concat();
                let (again, same) = self.run(&out.recording);
                let mut ended = torn.to_vec();
                ended.push(b'\n');
                let told = undone(&out.recording, &out.notes);
                said.status.success()
                    && said.stdout == wanted
                    && written.as_ref() == Some(&out.recording)
                    && again.stdout == tally(0, 0)
                    && same == Some(out.recording)
                    && (told.as_deref() == Some(torn) || told == Some(ended))
            }
        }
    }

    /// A recording of the example link, torn at some places and mended, is replayed with no line refused.
    pub fn replays_on(&self, link: &[String], replay: &[String], random: &mut Random, seen: &mut Seen) -> bool {
        let file = self.path("recorded");
        let choices = format!(
            "--at-once --seed {} --slots {} --payload {} --window 64 --epochs 12 --record {}",
            1 + random.below(1_000_000),
            1 + random.below(4),
            random.one_of(&[1, 7]),
            file
        );
        let linked = Command::new(&link[0]).args(&link[1..]).args(choices.split(' ')).output().expect("the example link starts");
        let mut torn = std::fs::read(&file).expect("a recording");
        torn::tear_all(random, &mut torn);
        let held = self.held(&torn, seen);
        let (_, written) = self.run(&torn);
        let run_again = Command::new(&replay[0]).args(&replay[1..]).arg(self.path("mended")).output().expect("the replay program starts");
        linked.status.success() && held && written.is_some() && run_again.status.success() && !String::from_utf8_lossy(&run_again.stdout).contains("answer")
    }
}
