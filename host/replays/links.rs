//! The example link with --record and --at-once beside the replay of what it recorded: their lines of epochs and of port
//! states say the same. The link says states once all frames of a frame time are handed, so that reports which come together
//! have one list of changes there. And beside the replay of its heads, one byte of each payload: the same but for how many bytes.

use crate::desks::{Desk, Drawn};
use crate::random::Random;
use std::collections::BTreeMap;
use std::process::Command;

/// A report as both say it, and the states that are said behind it.
#[derive(Default, PartialEq)]
struct Report {
    epoch: u64,
    mark: String,
    bytes: u64,
    states: Vec<(u64, String)>,
}

fn number(field: &str) -> u64 {
    field.parse().expect("a number")
}

/// The reports of either program; the epoch of the link's first one has this number in its packets, of so many.
fn reports(text: &str, first: u64, epochs: u64) -> Vec<Report> {
    let mut reports: Vec<Report> = Vec::new();
    for line in text.lines() {
        let fields: Vec<&str> = line.split('\t').collect();
        match fields[..] {
            ["epoch", epoch, mark, ref rest @ ..] => {
                let bytes = if rest.first() == Some(&"bytes") { number(rest[1]) } else { 0 };
                reports.push(Report { epoch: (number(epoch) + first) % epochs, mark: mark.into(), bytes, states: Vec::new() });
            }
            ["port", port, state @ ("IDLE" | "FAIL" | "OK"), of] => {
                let report = reports.last_mut().expect("a state changes at a report");
                report.states.push((number(port), format!("{} {}", state, of)));
            }
            _ => {}
        }
    }
    reports
}

/// What ports are said to be, where it is another than before.
fn changes(before: &BTreeMap<u64, String>, said: &[Report], idle: &str) -> Vec<(u64, String)> {
    let mut now = before.clone();
    for report in said {
        now.extend(report.states.iter().cloned());
    }
    now.into_iter().filter(|(port, state)| before.get(port).map_or(idle, String::as_str) != state).collect()
}

pub struct Compared {
    pub same: bool,
    pub reports: usize,
    pub states: usize,
    pub together: usize,
    pub drawn: bool,
}

/// A link drawn from the seed.
pub fn compared(folder: &str, link: &[String], replay: &[String], desk: Option<&Desk>, drawn: &mut Drawn, seed: u64) -> Compared {
    let mut random = Random::new(seed);
    let vc12 = seed % 4 == 1;
    let (epochs, idle) = if vc12 { (32, "IDLE 63") } else { (256, "IDLE 255") };
    let first = random.below(epochs);
    let file = format!("{}/recorded", folder);
    let slots = 1 + random.below(6);
    let payload = if vc12 { 136 } else { random.one_of(&[1, 7, 30]) };
    let window = if vc12 { random.one_of(&[32, 48, 64]) } else { random.one_of(&[32, 48, 64, 100]) };
    let choices = format!(
        "--at-once --each{} --seed {} --slots {} --payload {} --window {} --number {} --epochs 60 --record {}{}",
        [" --fixed", " --vc12", "", ""][seed as usize % 4],
        seed,
        slots,
        payload,
        window,
        first,
        file,
        if vc12 { String::new() } else { format!(" --record-heads {}.heads", file) }
    );
    let run = |command: &[String], words: &[&str]| {
        let output = Command::new(&command[0]).args(&command[1..]).args(words).output().expect("a program starts");
        String::from_utf8_lossy(&output.stdout).into_owned()
    };
    let link_text = run(link, &choices.split(' ').collect::<Vec<_>>());
    let replay_text = run(replay, &[&file]);
    let drawn = desk.map_or(true, |desk| desk.prints(&[file.clone()], &replay_text, epochs, drawn));
    let (of_link, of_replay) = (reports(&link_text, first, epochs), reports(&replay_text, 0, epochs));

    let alike = |(a, b): (&Report, &Report)| a.epoch == b.epoch && a.mark == b.mark && a.bytes == b.bytes;
    let mut same = of_link.len() == of_replay.len() && of_link.iter().zip(&of_replay).all(alike) && !replay_text.contains("answer");
    // P of VC-12 is 136, so that there are no heads
    if !vc12 {
        let heads_text = run(replay, &[&format!("{}.heads", file)]);
        let mut of_heads = reports(&heads_text, 0, epochs);
        for report in &mut of_heads {
            report.bytes *= payload;
        }
        same &= of_heads == of_replay && !heads_text.contains("answer");
    }
    // up to each report behind which the link says states, and at the end
    let (mut before, mut start, mut together) = (BTreeMap::new(), 0, 0);
    for end in 1..=of_link.len().min(of_replay.len()) {
        if of_link[end - 1].states.is_empty() && end < of_link.len() {
            continue;
        }
        same &= changes(&before, &of_link[start..end], idle) == changes(&before, &of_replay[start..end], idle);
        together += usize::from(of_replay[start..end - 1].iter().any(|r| !r.states.is_empty()));
        for report in &of_replay[start..end] {
            before.extend(report.states.iter().cloned());
        }
        start = end;
    }
    if !same {
        println!("differs\tseed {}\t{}", seed, choices);
    }
    Compared { same, reports: of_replay.len(), states: of_replay.iter().map(|r| r.states.len()).sum(), together, drawn }
}
