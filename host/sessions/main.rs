//! Holds the built session program, or the one that tells a listener, to the reference: given sessions with their whole
//! output, and many made-up ones, each a run of the program on standard input. Every run makes the same ones.
//!
//! Usage: sessions session|speak|runs FILE COMMAND WORD.., where FILE has the given sessions and COMMAND runs the program: speak where
//! each slot is told by itself, runs where slots are told in runs.

#[path = "../differential/count.rs"]
#[allow(dead_code)] // not all of it is used here
mod count;
#[path = "../differential/random.rs"]
#[allow(dead_code)] // nor of this
mod random;

use count::Count;
use random::Random;
use std::fs::File;
use std::io::{Read, Write};
use std::os::fd::FromRawFd;
use std::process::{Command, Stdio};

/// What a program reads at once.
const PART: usize = 4096;

/// What a pipe of one page still takes, when the program starts.
const NARROW: usize = 100;

fn program(words: &[String], input: &[u8]) -> Vec<u8> {
    let mut child = Command::new(&words[0]).args(&words[1..]).stdin(Stdio::piped()).stdout(Stdio::piped()).spawn().expect("the session program starts");
    let mut to = child.stdin.take().expect("it has a standard input");
    let input = input.to_vec();
    let writer = std::thread::spawn(move || to.write_all(&input));
    let output = child.wait_with_output().expect("it ends");
    let _ = writer.join();
    output.stdout
}

extern "C" {
    fn pipe(ends: *mut i32) -> i32;
    fn fcntl(file: i32, command: i32, ...) -> i32;
}

/// A pipe of one page that takes so many bytes more and then refuses: a longer answer fails as a whole, and a shorter one behind it may
/// go in. With it, how many bytes it holds already.
fn narrow_pipe() -> (File, File, usize) {
    const SET_FLAGS: i32 = 4;
    const NONBLOCK: i32 = 0o4000;
    const SET_SIZE: i32 = 1031;
    let mut ends = [0; 2];
    // the two numbers are written, and each end is owned once
    let (from, mut to, size) = unsafe {
        assert_eq!(pipe(ends.as_mut_ptr()), 0, "a pipe");
        let size = fcntl(ends[1], SET_SIZE, 4096);
        assert!(4096 <= size, "of one page");
        assert_eq!(fcntl(ends[1], SET_FLAGS, NONBLOCK), 0, "that refuses what it has no room for");
        (File::from_raw_fd(ends[0]), File::from_raw_fd(ends[1]), size as usize)
    };
    let held = size - NARROW;
    to.write_all(&vec![0; held]).expect("it is filled");
    (from, to, held)
}

/// What the program writes to such a pipe. The input is a file, so that it is read in whole parts.
fn into_a_narrow_pipe(words: &[String], file: &str, input: &[u8]) -> Vec<u8> {
    std::fs::write(file, input).expect("the input is written");
    let (mut from, to, held) = narrow_pipe();
    let read = File::open(file).expect("the input is read");
    Command::new(&words[0]).args(&words[1..]).stdin(read).stdout(to).status().expect("the session program runs");
    std::fs::remove_file(file).expect("the input goes");
    let mut said = Vec::new();
    from.read_to_end(&mut said).expect("what it wrote is read");
    said.split_off(held)
}

/// What is to go into such a pipe: of the first part each answer for which there is room, the last line's too, which the part may cut.
fn narrowed(by_reference: &dyn Fn(&[u8]) -> String, input: &[u8]) -> Vec<u8> {
    let part = &input[..PART.min(input.len())];
    let mut wanted = Vec::new();
    let mut before = 0;
    for end in (1..=part.len()).filter(|n| part[n - 1] == b'\n' || *n == part.len()) {
        let said = by_reference(&part[..end]).into_bytes();
        let answer = &said[before..];
        if wanted.len() + answer.len() <= NARROW {
            wanted.extend(answer);
        }
        before = said.len();
    }
    wanted
}

/// The sessions of the file: a comment names one, lines after '< ' go in and lines after '> ' come out.
fn given(text: &str) -> Vec<(String, String, String)> {
    let mut sessions: Vec<(String, String, String)> = Vec::new();
    for line in text.split('\n') {
        // not text.lines(), which would take a carriage return for part of a line's end
        if let Some(name) = line.strip_prefix("# ") {
            sessions.push((name.to_string(), String::new(), String::new()));
        } else if let Some(session) = sessions.last_mut() {
            let marked = |mark: &str| line.strip_prefix(mark).map(|l| l.strip_prefix(' ').unwrap_or(l).to_string() + "\n");
            if let Some(l) = marked("<") {
                session.1 += &l;
            } else if let Some(l) = marked(">") {
                session.2 += &l;
            }
        }
    }
    sessions.retain(|s| !s.1.is_empty());
    sessions
}

fn any_number(random: &mut Random, most: u64) -> String {
    match random.below(12) {
        0 => random.one_of(&["", "0000", "64", "65", "255", "256", "999", "007", "1a", "-1", " 1", "00"]).to_string(),
        _ => random.below(most).to_string(),
    }
}

/// A line that mostly means something.
fn line(random: &mut Random, size: u64) -> Vec<u8> {
    let slots = size + 1;
    let mut line = match random.below(24) {
        0 => format!("size\t{}", any_number(random, 9)),
        1..=7 => format!("add\t{}", any_number(random, slots)),
        8..=9 => format!("remove\t{}", any_number(random, slots)),
        10..=15 => {
            let mst = random.below(256) & random.below(256);
            let mst = if random.below(2) == 0 { format!("{:02x}", mst) } else { format!("{:02X}", mst) };
            let ack = if random.below(20) == 0 { "2".to_string() } else { random.below(2).to_string() };
            let epoch = if random.below(4) == 0 { random.below(300) } else { 32 * random.below(8) + random.below(2) };
            format!("report\t{}\t{}\t{}", epoch, mst, ack)
        }
        16..=17 => "lapse".to_string(),
        18..=21 => "board".to_string(),
        22 => random.one_of(&["", "board\t", "board\r", "Board", "add 1", "report\t0\tFF", "report\t0\tF\t0", "report\t0\tFFF\t0", "size"]).to_string(),
        _ => "board".repeat(15 + random.below(4) as usize),
    }
    .into_bytes();
    if random.below(40) == 0 && !line.is_empty() {
        let at = random.below(line.len() as u64) as usize;
        line[at] = random.below(256) as u8;
    }
    line
}

/// With epochs, if they are to be told.
fn made_up(random: &mut Random, told: bool) -> Vec<u8> {
    let size = random.one_of(&[1, 2, 3, 5, 9, 17, 64]);
    let mut input = if random.below(8) == 0 { Vec::new() } else { format!("size\t{}\n", size).into_bytes() };
    for _ in 0..random.below(600) {
        if told && random.below(4) == 0 {
            input.extend(b"epoch");
        } else {
            input.extend(line(random, size));
        }
        input.push(b'\n');
    }
    if random.below(2) == 0 {
        input.pop(); // the last line may lack its end
    }
    input
}

fn main() {
    let words: Vec<String> = std::env::args().skip(1).collect();
    let told = words[0] != "session";
    let in_runs = words[0] == "runs";
    let by_reference = |input: &[u8]| if told { reference::session::told(input, in_runs) } else { reference::session::run(input) };
    let text = std::fs::read_to_string(&words[1]).expect("the file of sessions is read");
    let command = &words[2..];
    let mut count = Count::default();

    let sessions = given(&text);
    for (name, input, output) in &sessions {
        let unended = input.strip_suffix('\n').unwrap_or(input);
        count.note(&format!("{} {}", words[0], name), program(command, input.as_bytes()) == output.as_bytes());
        count.note(&format!("{} {} without its last line end", words[0], name), program(command, unended.as_bytes()) == output.as_bytes());
        count.note(&format!("{} {} by the reference", words[0], name), by_reference(input.as_bytes()) == *output);
    }
    count.note("some sessions are given", sessions.len() > 3);

    let mut random = Random::new(8);
    let (mut lines, mut differing) = (0, 0);
    for run in 0..200 {
        let input = made_up(&mut random, told);
        let expected = by_reference(&input).into_bytes();
        lines += expected.iter().filter(|b| **b == b'\n').count();
        if program(command, &input) != expected {
            differing += 1;
            println!("differs\trun {}\tinput {}", run, String::from_utf8_lossy(&input).escape_debug());
        }
    }
    count.note(&format!("200 made-up sessions, {} lines of output", lines), differing == 0);

    // some answers are longer than there is room, and shorter ones stand behind them
    let lines = b"size\t64\nadd\t1\nadd\t3\nadd\t5\nadd\t7\nepoch\nboard\nlapse\nsize\t1\nboard\n".as_slice();
    let unended = lines[..lines.len() - 1].to_vec();
    for (name, input) in [("a part", lines.to_vec()), ("more than a part", lines.repeat(100)), ("a last line without its end", unended)] {
        let wanted = narrowed(&by_reference, &input);
        let behind = !by_reference(&input).as_bytes().starts_with(&wanted);
        let file = format!("target/host/narrow-{}", words[0]);
        let held = into_a_narrow_pipe(command, &file, &input) == wanted;
        count.note(&format!("{} of {}: {} bytes go out, some of them behind a write that fails", words[0], name, wanted.len()), behind && held);
    }

    std::process::exit(count.tally());
}
