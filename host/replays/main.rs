//! Holds the built replay program to the reference's replay: made-up recordings, torn and whole, each as one file, cut before
//! every line, and cut at single lines, and read from standard input; and the program that mends recordings to the reference's mending.
//! Every run makes the same ones.
//!
//! Usage: replays FOLDER COMMAND WORD.. [-- COMMAND WORD..].., where FOLDER takes files, the first command runs the program, the second
//! one the example link, whose recordings are then compared with what it said, the third one the program that mends, and the fourth one the
//! program for a desk.

#[path = "../differential/count.rs"]
#[allow(dead_code)] // not all of it is used here
mod count;
#[path = "../differential/random.rs"]
#[allow(dead_code)] // nor of this
mod random;

#[path = "../differential/torn.rs"]
#[allow(dead_code)] // nor of this
mod torn;

mod desks;
mod links;
mod mends;
mod recordings;

use count::Count;
use random::Random;
use reference::receiver::{fast, Receiver as Plain};
use reference::replay::whole;
use std::io::Write;
use std::process::{Command, Stdio};

/// What the program lends.
const STORE_MOST: usize = 65536;

const RECORDINGS: usize = 80;
const LINKS: u64 = 200;
const TORN: usize = 400;

struct Program {
    folder: String,
    words: Vec<String>,
}

impl Program {
    fn path(&self, name: &str) -> String {
        format!("{}/{}", self.folder, name)
    }

    /// The program on parts, each in a file of its own.
    fn on_files(&self, parts: &[Vec<u8>]) -> Vec<u8> {
        let mut command = Command::new(&self.words[0]);
        command.args(&self.words[1..]);
        for (i, part) in parts.iter().enumerate() {
            let path = self.path(&format!("replays.{}", i));
            std::fs::write(&path, part).expect("a part is written");
            command.arg(path);
        }
        command.output().expect("the replay program starts").stdout
    }

    /// The program on standard input, which is written piece by piece.
    fn on_input(&self, recording: &[u8], piece: usize) -> Vec<u8> {
        let mut child = Command::new(&self.words[0])
            .args(&self.words[1..])
            .arg("-")
            .stdin(Stdio::piped())
            .stdout(Stdio::piped())
            .spawn()
            .expect("the replay program starts");
        let mut to = child.stdin.take().expect("it has a standard input");
        let recording = recording.to_vec();
        let writer = std::thread::spawn(move || recording.chunks(piece).all(|part| to.write_all(part).and_then(|_| to.flush()).is_ok()));
        let output = child.wait_with_output().expect("it ends");
        let _ = writer.join();
        output.stdout
    }
}

fn joined(lines: &[Vec<u8>]) -> Vec<u8> {
    lines.iter().flat_map(|l| l.iter().copied().chain([b'\n'])).collect()
}

/// A part for each line; every third one lacks its end, which a file's last line may.
fn line_by_line(lines: &[Vec<u8>]) -> Vec<Vec<u8>> {
    let part = |(i, line): (usize, &Vec<u8>)| {
        let mut part = line.clone();
        // an empty line without its end would be no line
        if i % 3 != 0 || line.is_empty() {
            part.push(b'\n');
        }
        part
    };
    lines.iter().enumerate().map(part).collect()
}

struct Held<'a> {
    program: &'a Program,
    runs: usize,
    lines: usize,
    differing: usize,
    refused: usize,
    recordings: Vec<Vec<u8>>,
}

impl Held<'_> {
    fn note(&mut self, what: &str, expected: &[u8], got: &[u8], lines: &[Vec<u8>]) {
        self.runs += 1;
        self.lines += expected.iter().filter(|b| **b == b'\n').count();
        if expected != got {
            if self.differing == 0 {
                println!("differs\t{}\tinput {}", what, String::from_utf8_lossy(&joined(lines)).escape_debug());
                println!("reference\t{}", String::from_utf8_lossy(expected).escape_debug());
                println!("program\t{}", String::from_utf8_lossy(got).escape_debug());
            }
            self.differing += 1;
        }
    }

    /// A recording whole, line by line, and from standard input.
    fn recording(&mut self, lines: &[Vec<u8>]) -> Vec<u8> {
        let whole_text = joined(lines);
        self.recordings.push(whole_text.clone());
        let expected = whole::<Plain>(&whole_text, STORE_MOST);
        self.refused += String::from_utf8_lossy(&expected).matches("answer\t").count();
        // the form for speed has no VC-12
        if !lines[0].ends_with(b"VC12") && !lines[0].windows(5).any(|name| name == b"VC12\t") {
            assert_eq!(expected, whole::<fast::Receiver>(&whole_text, STORE_MOST), "the reference's receivers agree");
        }
        self.note("whole", &expected, &self.program.on_files(&[whole_text.clone()]), lines);
        self.note("line by line", &expected, &self.program.on_files(&line_by_line(lines)), lines);
        let mut unended = whole_text;
        unended.pop();
        let expected_unended = whole::<Plain>(&unended, STORE_MOST);
        self.note("piece by piece", &expected_unended, &self.program.on_input(&unended, 1000), lines);
        expected
    }
}

/// The program that mends, beside the reference and before the replay program.
fn mending(count: &mut Count, program: &Program, link: &[String], words: &[String]) {
    let mender = mends::Mender { folder: &program.folder, words };
    let mut random = Random::new(11);
    let mut seen = mends::Seen::default();
    let held = (0..TORN).all(|_| {
        let lines = random.one_of(&[3, 30, 300]);
        mender.held(&torn::recording(&mut random, lines), &mut seen)
    });
    println!("torn\t{}\trefused {}\tdropped {}\trestored {}", seen.recordings, seen.refused, seen.dropped, seen.restored);
    count.note("torn recordings mended, mended again, and told again from their notes", held);
    count.note("many lines were dropped and restored", seen.dropped > 3000 && seen.restored > 3000 && seen.refused > 20);

    let openings = recordings::openings();
    let held = openings.iter().all(|first| mender.held(first, &mut seen));
    count.note("first lines alone, mended or refused", held);
    let mut seen = mends::Seen::default();
    let held = (0..LINKS).all(|_| mender.replays_on(link, &program.words, &mut random, &mut seen));
    println!("links torn\t{}\tdropped {}\trestored {}", LINKS, seen.dropped, seen.restored);
    count.note("recordings of the example link, torn and mended, replayed with no line refused", held && seen.dropped > 500 && seen.restored > 200);
}

fn main() {
    let words: Vec<String> = std::env::args().skip(1).collect();
    let mut commands = words[1..].split(|word| word == "--");
    let program = Program { folder: words[0].clone(), words: commands.next().expect("a command").to_vec() };
    let desk = words[1..].split(|word| word == "--").nth(3).map(|words| desks::Desk { words });
    let mut recordings = Vec::new();
    let mut count = Count::default();
    let mut random = Random::new(5);

    let mut held = Held { program: &program, runs: 0, lines: 0, differing: 0, refused: 0, recordings: Vec::new() };
    for _ in 0..RECORDINGS {
        let frames = 100 + random.below(400) as usize;
        held.recording(&recordings::made_up(&mut random, frames));
    }
    println!("recordings\t{}\truns {}\tlines of output {}\trefused lines {}", RECORDINGS, held.runs, held.lines, held.refused);
    count.note("made-up recordings, whole, cut before every line, and piece by piece", held.differing == 0);
    count.note("they have many reports and refusals", held.lines > 3000 && held.refused > 100);
    recordings.append(&mut held.recordings);

    let mut held = Held { program: &program, runs: 0, lines: 0, differing: 0, refused: 0, recordings: Vec::new() };
    let openings = recordings::openings();
    let mut ended = 0;
    for first in &openings {
        // for P 1 and one port or more these are frames
        let mut lines = vec![first.clone()];
        lines.extend((0..40).map(|tag| recordings::line(0, tag % 16, 0, &[0], false)));
        lines.push(b"y".to_vec());
        let said = held.recording(&lines);
        ended += usize::from(said.starts_with(b"answer\t") && said.ends_with(b"\tline\t1\n"));
    }
    count.note(&format!("first lines, {} of {} end the run", ended, openings.len()), held.differing == 0 && (15..openings.len()).contains(&ended));
    recordings.append(&mut held.recordings);

    let mut held = Held { program: &program, runs: 0, lines: 0, differing: 0, refused: 0, recordings: Vec::new() };
    held.recording(&recordings::long_lines());
    count.note("lines of 8,192 and 8,193 bytes", held.differing == 0 && held.refused == 120);
    recordings.append(&mut held.recordings);
    if let Some(desk) = &desk {
        desks::held(&mut count, desk, &program.folder, &recordings);
    }

    // one recording cut in two at each of its lines
    let mut held = Held { program: &program, runs: 0, lines: 0, differing: 0, refused: 0, recordings: Vec::new() };
    let lines = recordings::made_up(&mut random, 80);
    let expected = held.recording(&lines);
    for cut in 0..=lines.len() {
        let parts = [joined(&lines[..cut]), joined(&lines[cut..])];
        held.note("cut in two", &expected, &program.on_files(&parts), &lines);
    }
    count.note(&format!("a recording cut in two at each of its {} lines", lines.len()), held.differing == 0);

    if let Some(link) = commands.next() {
        let mut drawn = desks::Drawn::default();
        let compared: Vec<links::Compared> =
            (1..=LINKS).map(|seed| links::compared(&program.folder, link, &program.words, desk.as_ref(), &mut drawn, seed)).collect();
        let total = |f: fn(&links::Compared) -> usize| compared.iter().map(f).sum::<usize>();
        let (reports, states, together) = (total(|c| c.reports), total(|c| c.states), total(|c| c.together));
        println!("links\t{}\treports {}\tstates {}\twhere several reports came together {}", LINKS, reports, states, together);
        count.note("what the example link said at once, replayed from its recording and from its heads", compared.iter().all(|c| c.same));
        count.note("it said many reports and states", reports > 4000 && states > 500);
        if desk.is_some() {
            println!("desk\tlinks {}\tlines {}\tdrawn together in {}", LINKS, drawn.lines, drawn.printed);
            count.note(
                "the program for a desk prints what the replay program prints of them, drawn together",
                compared.iter().all(|c| c.drawn) && 2 * drawn.printed < drawn.lines,
            );
            count.note("and says why of each report that is not sure, and of no other line", compared.iter().all(|c| c.drawn) && drawn.whys > 100);
        }

        if let Some(words) = commands.next() {
            mending(&mut count, &program, link, words);
        }
    }

    std::process::exit(count.tally());
}
