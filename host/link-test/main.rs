//! Runs the example link over many made-up links, a file through each, and holds what it prints and writes to what went
//! in, byte for byte. Every run makes the same ones.
//!
//! Usage: link-test FOLDER COMMAND WORD.., where FOLDER takes files and COMMAND runs the example link.

#[path = "../differential/count.rs"]
#[allow(dead_code)] // not all of it is used here
mod count;
#[path = "../differential/random.rs"]
#[allow(dead_code)] // nor of this
mod random;

mod adds;
mod lines;
mod manners;

use count::Count;
use lines::Lines;
use random::Random;
use std::process::{Command, Output};

const LINKS: u64 = 300;
const EPOCHS: u64 = 160;

pub struct Program {
    words: Vec<String>,
    folder: String,
}

impl Program {
    pub fn run(&self, choices: &[String]) -> Output {
        Command::new(&self.words[0]).args(&self.words[1..]).args(choices).output().expect("the example link starts")
    }

    pub fn path(&self, name: &str) -> String {
        format!("{}/{}", self.folder, name)
    }
}

/// What should have been written: of each sure report the bytes of the file that its epoch carried.
fn sure_bytes(lines: &Lines, epochs: u64, file: &[u8]) -> Vec<u8> {
    let mut starts = vec![0u64];
    for epoch in 0..epochs {
        starts.push(starts[epoch as usize] + lines.carried(epoch));
    }
    let mut bytes = Vec::new();
    for report in lines.reports.iter().filter(|r| r.mark == "sure") {
        let epoch = report.epoch as usize;
        let cut = |place: u64| (place as usize).min(file.len());
        bytes.extend(&file[cut(starts[epoch])..cut(starts[epoch + 1])]);
    }
    bytes
}

/// In order, with no gap but where receiving began anew.
fn in_order(lines: &Lines) -> bool {
    let anew = |i: usize| lines.begun.iter().any(|(_, reports)| *reports == i);
    lines.reports.windows(2).enumerate().all(|(i, pair)| pair[1].epoch == pair[0].epoch + 1 || pair[1].epoch > pair[0].epoch && anew(i + 1))
}

/// The first epoch reported is the second to start after the foremost frame at the beginning, which came in that frame
/// time or, where the beginning came before it, in the one before.
fn first_right(lines: &Lines, time: u64) -> bool {
    let second = |foremost: u64| foremost / lines.frames() + 2;
    let newest = time - lines.least_delay();
    lines.reports.first().map_or(false, |r| r.epoch == second(newest) || r.epoch == second(newest - 1))
}

/// Where no port failed: begun within 47 frames (of VC-12 95), every epoch from the first reported on is reported, and all are sure but
/// those that a damaged packet rules, which are held. Without LCAS damage may show nowhere.
fn whole(lines: &Lines, epochs: u64, fixed: bool) -> bool {
    let begun = lines.begun.len() == 1 && lines.begun[0].0 < lines.last_first_frame() + lines.to_step() && first_right(lines, lines.begun[0].0);
    let to_the_end = lines.reports.last().map_or(false, |r| r.epoch == epochs - 1);
    let marked = |r: &lines::Report| {
        let damaged = lines.damaged.iter().any(|e| e + 1 == r.epoch) && (!fixed || r.mark == "held");
        r.mark == if damaged { "held" } else { "sure" } && r.bytes == if damaged { 0 } else { lines.carried(r.epoch) }
    };
    begun && to_the_end && lines.reports.iter().all(marked)
}

/// Nothing is doubtful, nothing replied, and all slots carry bytes in every epoch.
fn unlike_lcas(text: &str, lines: &Lines) -> bool {
    let said = |word: &str| text.lines().any(|line| line.starts_with(word));
    !said("told\t") && !said("reply\t") && lines.reports.iter().all(|r| r.mark != "doubtful") && lines.members.values().all(|x| *x == lines.lines.len() as u64)
}

struct Crossed {
    held: bool,
    whole: bool,
    failures: usize,
    sure: usize,
    bytes: usize,
}

/// One file through one link: with LCAS, without it, or of VC-12.
fn cross(program: &Program, seed: u64, kind: Option<&str>) -> Crossed {
    let fixed = kind == Some("--fixed");
    let mut random = Random::new(seed);
    let mut file = vec![0; random.below(400_000) as usize];
    random.fill(&mut file);
    let (from, to) = (program.path("crossing.in"), program.path("crossing.out"));
    std::fs::write(&from, &file).expect("the file is written");
    let mut choices: Vec<String> = vec!["--seed".into(), seed.to_string(), "--file".into(), from, "--out".into(), to.clone()];
    if random.below(3) == 0 {
        choices.extend(["--fail".into(), "none".into()]);
    }
    choices.extend(kind.map(String::from));
    // enough for the slowest answers
    let epochs = EPOCHS + random.below(4) * 64;
    choices.extend(["--epochs".into(), epochs.to_string()]);

    let output = program.run(&choices);
    let text = String::from_utf8(output.stdout).expect("the lines are text");
    let lines = lines::read(&text);
    let came = std::fs::read(&to).expect("what came out is read");
    let sure = lines.reports.iter().filter(|r| r.mark == "sure").count();
    let right = came == sure_bytes(&lines, epochs, &file);
    // status 0 where each byte of the file came out sure, and 1 where not
    let status = i32::from(text.contains("\tnot all came out sure\n"));
    let ended = output.status.code() == Some(status) && ["each sure byte was right", "no byte was sure"].contains(&lines.last.as_str());
    let bears = lines.failures > 0 || lines.spread() + lines.frames() > lines.window || whole(&lines, epochs, fixed);
    let named = lines.vc12 == (kind == Some("--vc12"));
    let held = right && ended && named && in_order(&lines) && bears && (!fixed || unlike_lcas(&text, &lines));
    if !held {
        println!("differs\tseed {seed}\tbytes right {right}\tended {ended}\tin order {}\twhole {bears}\t{}", in_order(&lines), choices.join(" "));
    }
    Crossed { held, whole: status == 0, failures: lines.failures, sure, bytes: came.len() }
}

fn tell(name: &str, crossed: &[Crossed]) {
    let total = |f: fn(&Crossed) -> usize| crossed.iter().map(f).sum::<usize>();
    println!(
        "{}\tlinks {}\twith failures {}\tsure epochs {}\tbytes {}",
        name,
        crossed.len(),
        total(|c| usize::from(c.failures > 0)),
        total(|c| c.sure),
        total(|c| c.bytes)
    );
}

fn main() {
    let words: Vec<String> = std::env::args().skip(1).collect();
    let program = Program { folder: words[0].clone(), words: words[1..].to_vec() };
    let mut count = Count::default();

    manners::check(&program, &mut count);
    adds::check(&program, &mut count);

    let crossed: Vec<Crossed> = (1..=LINKS).map(|seed| cross(&program, seed, None)).collect();
    let total = |f: fn(&Crossed) -> usize| crossed.iter().map(f).sum::<usize>();
    tell("crossed", &crossed);
    count.note("files cross made-up links byte for byte", crossed.iter().all(|c| c.held));
    count.note("most made-up links carry bytes", 4 * total(|c| usize::from(c.bytes > 0)) > 3 * crossed.len());
    count.note("some files come out whole, some do not", (20..=280).contains(&total(|c| usize::from(c.whole))));
    count.note("many have failures, many have none", (60..=240).contains(&total(|c| usize::from(c.failures > 0))));

    let fixed: Vec<Crossed> = (1001..=1000 + LINKS / 2).map(|seed| cross(&program, seed, Some("--fixed"))).collect();
    tell("without LCAS", &fixed);
    // a short file is sent before receiving begins
    let carry = fixed.iter().filter(|c| c.sure > 0).count();
    let failing = fixed.iter().filter(|c| c.failures > 0).count();
    count.note("files cross made-up links without LCAS byte for byte", fixed.iter().all(|c| c.held));
    count.note("nearly all of these have sure epochs, many have failures, many none", carry > 140 && (30..=120).contains(&failing));

    let vc12: Vec<Crossed> = (2001..=2000 + LINKS / 2).map(|seed| cross(&program, seed, Some("--vc12"))).collect();
    tell("of VC-12", &vc12);
    let carry = vc12.iter().filter(|c| c.bytes > 0).count();
    let failing = vc12.iter().filter(|c| c.failures > 0).count();
    count.note("files cross made-up links of VC-12 byte for byte", vc12.iter().all(|c| c.held));
    count.note("most of these carry bytes, many have failures, many none", 4 * carry > 3 * vc12.len() && (30..=120).contains(&failing));

    std::process::exit(count.tally());
}
