//! The program for a desk beside the reference and beside the replay program: what it draws together, spread out again, is what they
//! print; and its counts are those of these lines.

use crate::Count;
use reference::receiver::Receiver;
use reference::replay::whole;
use std::collections::BTreeMap;
use std::process::Command;

/// The store of the largest group there is.
const STORE_MOST: usize = 64 * 2048 * 2341;

fn number(field: &str) -> u64 {
    field.parse().expect("a number")
}

/// The causes in words, in the order of their numbers.
const CAUSES: [&str; 7] = [
    "a ruling packet was refused", "an active port lacks a frame", "numbers of active and DNU ports repeat", "GID differs among ports that are not IDLE",
    "EOS is not on the highest active port alone", "a port has no whole ruling packet", "the numbers are not 0 to n - 1",
];

/// What stands behind a line from the word 'cause' on, and the line without it.
fn part_cause(line: &str) -> (&str, Option<&str>) {
    match line.find("\tcause\t") {
        Some(at) => (&line[..at], Some(&line[at + 1..])),
        None => (line, None),
    }
}

/// A report that is not sure says why, and no other line does.
fn says_why(line: &str) -> bool {
    line.starts_with("epoch\t") && line.split('\t').nth(2) != Some("sure")
}

/// One line, spread out; epochs are counted up to so many.
fn spread_line(line: &str, epochs: u64) -> Vec<String> {
    let mut fields: Vec<&str> = line.split('\t').collect();
    if fields[0] == "answer" {
        let words = fields.pop();
        assert!(words == Some("malformed") || words == Some("settings out of range"), "a refusal is in words");
    }
    let Some(count) = fields.iter().position(|field| *field == "count") else {
        return vec![fields.join("\t")];
    };
    let many = number(fields[count + 1]);
    fields.truncate(count);
    let lines = fields.iter().position(|field| *field == "lines").expect("lines");
    let (from, to) = (number(fields[lines + 1]), number(fields[lines + 3]));
    assert!(many > 1 && fields[lines + 2] == "to" && (to - from) % (many - 1) == 0, "lines lie evenly");
    let behind = fields.split_off(lines + 4);
    fields.truncate(lines);
    let first = (fields[0] == "epochs").then(|| {
        let (first, last) = (number(fields[1]), number(fields[3]));
        assert!(fields[2] == "to" && last == (first + many - 1) % epochs, "epochs follow one another");
        fields.drain(..4);
        first
    });
    (0..many)
        .map(|k| {
            let mut one: Vec<String> = first.iter().flat_map(|first| ["epoch".into(), ((first + k) % epochs).to_string()]).collect();
            one.extend(fields.iter().map(|field| field.to_string()));
            one.extend(["line".into(), (from + k * (to - from) / (many - 1)).to_string()]);
            one.extend(behind.iter().map(|field| field.to_string()));
            one.join("\t")
        })
        .collect()
}

/// How many reports have a mark, and those that are not sure by their cause.
fn counts_of_mark(lines: &[(String, Option<String>)], mark: &str) -> String {
    let marked: Vec<_> = lines.iter().filter(|(line, _)| line.starts_with("epoch\t") && line.split('\t').nth(2) == Some(mark)).collect();
    let mut text = format!("{}\t{}\n", mark, marked.len());
    for cause in CAUSES {
        let many = marked.iter().filter(|(_, why)| why.as_ref().map_or(false, |why| why.split('\t').nth(1) == Some(cause))).count();
        if many > 0 {
            text += &format!("{}\tcause\t{}\t{}\n", mark, cause, many);
        }
    }
    text
}

/// The counts of these lines, as the program prints them.
fn counts_of(lines: &[(String, Option<String>)]) -> String {
    let mut changes: BTreeMap<u64, usize> = BTreeMap::new();
    for (line, _) in lines.iter().filter(|(line, _)| line.starts_with("port\t")) {
        *changes.entry(number(line.split('\t').nth(1).expect("a port"))).or_default() += 1;
    }
    let mut text: String = ["sure", "doubtful", "held"].iter().map(|mark| counts_of_mark(lines, mark)).collect();
    for (port, many) in changes {
        text += &format!("port\t{}\tchanges\t{}\n", port, many);
    }
    text + &format!("malformed\t{}\n", lines.iter().filter(|(line, _)| line.starts_with("answer\t13\t")).count())
}

#[derive(Default)]
pub struct Drawn {
    pub lines: usize,
    pub printed: usize,
    /// Reports that say why they are not sure.
    pub whys: usize,
}

pub struct Desk<'a> {
    pub words: &'a [String],
}

impl Desk<'_> {
    /// On the files of a recording it prints these lines, drawn together, with their counts and the status that they ask for. Each report
    /// that is not sure says why, and no other line does.
    pub fn prints(&self, files: &[String], expected: &str, epochs: u64, drawn: &mut Drawn) -> bool {
        let output = Command::new(&self.words[0]).args(&self.words[1..]).args(files).output().expect("the program for a desk starts");
        let text = String::from_utf8_lossy(&output.stdout).into_owned();
        let counts = if text.starts_with("sure\t") { 0 } else { text.find("\nsure\t").expect("counts at the end") + 1 };
        let spread = |line| {
            let (line, why) = part_cause(line);
            spread_line(line, epochs).into_iter().map(move |line| (line, why.map(String::from)))
        };
        let lines: Vec<(String, Option<String>)> = text[..counts].lines().flat_map(spread).collect();
        let wanted: Vec<&str> = expected.lines().collect();
        drawn.whys += lines.iter().filter(|(_, why)| why.is_some()).count();
        drawn.lines += lines.len();
        drawn.printed += text[..counts].lines().count();
        let status = i32::from(wanted.iter().any(|line| line.starts_with("answer\t")));
        let same = lines.iter().map(|(line, why)| (line.as_str(), why.as_deref())).eq(wanted.into_iter().map(part_cause))
            && lines.iter().all(|(line, why)| why.is_some() == says_why(line))
            && text[counts..] == counts_of(&lines)
            && output.status.code() == Some(status)
            && output.stderr.is_empty();
        if !same {
            println!("differs\tdesk\tfiles {:?}\nreplay\t{}\ndesk\t{}", files, expected.escape_debug(), text.escape_debug());
        }
        same
    }

    /// The same of a recording, whole and cut at a line, beside the reference with as much store as is asked for.
    pub fn runs(&self, folder: &str, recording: &[u8], drawn: &mut Drawn) -> bool {
        let expected = String::from_utf8_lossy(&whole::<Receiver>(recording, STORE_MOST)).into_owned();
        let first = recording.split(|b| *b == b'\n').next().unwrap_or_default();
        let epochs = if first.windows(4).any(|name| name == b"VC12") { 32 } else { 256 };
        let ends: Vec<usize> = (0..recording.len()).filter(|i| recording[*i] == b'\n').collect();
        let cut = ends.get(ends.len() / 2).map_or(0, |end| end + 1);
        let file = |name: &str, part: &[u8]| {
            let path = format!("{}/desk.{}", folder, name);
            std::fs::write(&path, part).expect("a part is written");
            path
        };
        let parts = [file("0", &recording[..cut]), file("1", &recording[cut..])];
        self.prints(&[file("whole", recording)], &expected, epochs, drawn) && self.prints(&parts, &expected, epochs, drawn)
    }
}

/// Made-up recordings, first lines and lines that are too long.
pub fn held(count: &mut Count, desk: &Desk, folder: &str, recordings: &[Vec<u8>]) {
    let mut drawn = Drawn::default();
    let held = recordings.iter().all(|recording| desk.runs(folder, recording, &mut drawn));
    println!("desk\trecordings {}\tlines {}\tdrawn together in {}", recordings.len(), drawn.lines, drawn.printed);
    count.note("what the program for a desk draws together, spread out again, is the reference's output", held);
    count.note("and it draws some together", drawn.printed < drawn.lines);
    count.note("with the reference's cause and port where a report is not sure", held && drawn.whys > 20);
}
