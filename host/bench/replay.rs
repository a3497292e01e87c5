//! Times the replay program beside the reference's replay with its receiver for speed, on the same recordings, each run a
//! process of its own that writes to nowhere. A line for each size: the medians of the rounds in MB a second of processor
//! time, their ratio, and how much stack the program holds in the midst of a recording; it has no other memory of its own.
//!
//! Usage: bench_replay FOLDER COMMAND WORD.., where FOLDER takes recordings and COMMAND runs the program. With 'make PORTS P W
//! BYTES FILE' it makes a recording alone, with 'run FILE' it replays one by the reference.

use reference::packet::{self, Fields};
use reference::receiver::{epoch_of, fast, TAGS};
use reference::replay::Replay;
use std::fs::File;
use std::io::{BufRead, BufReader, BufWriter, Result, Write};
use std::process::{Command, Stdio};

const EPOCH: usize = 16;
const STORE_MOST: usize = 65536;
const DIGITS: &[u8] = b"0123456789ABCDEF";

/// All ports are active, with no delays: every report is sure.
fn make(ports: usize, payload: usize, window: usize, bytes: usize, file: &str) -> Result<()> {
    let mut h4 = vec![0; TAGS * ports];
    for port in 0..ports {
        let word = if port + 1 == ports { packet::EOS } else { packet::NORM };
        for first in (8..TAGS + 8).step_by(EPOCH) {
            let mut sixteen = [0; EPOCH];
            let epoch = u32::from(epoch_of(first % TAGS));
            packet::write(&Fields { epoch, word, gid: 0, mst: 0, rs_ack: 0, sq: port as u32, reserved: 0 }, &mut sixteen);
            for (k, byte) in sixteen.iter().enumerate() {
                h4[(first + k) % TAGS * ports + port] = *byte;
            }
        }
    }
    let mut seed = 1u32;
    let mut out = BufWriter::new(File::create(file)?);
    let mut written = 0;
    let opening = format!("{}\t{}\t{}\n", ports, payload, window);
    out.write_all(opening.as_bytes())?;
    let mut line = Vec::new();
    for tag in (0..TAGS).cycle() {
        if written >= bytes {
            break;
        }
        for port in 0..ports {
            line.clear();
            line.extend(format!("{}\t{:02X}\t0\t", port, h4[tag * ports + port]).bytes());
            for _ in 0..2 * payload {
                seed = seed.wrapping_mul(1664525).wrapping_add(1013904223);
                line.push(DIGITS[(seed >> 28) as usize]);
            }
            line.push(b'\n');
            out.write_all(&line)?;
            written += line.len();
        }
    }
    out.flush()
}

/// Some 64 KiB are read at a time, and as much is written.
fn run(file: &str) -> Result<()> {
    let mut input = BufReader::with_capacity(65536, File::open(file)?);
    let stdout = std::io::stdout();
    let mut output = stdout.lock();
    let mut replay = Replay::<fast::Receiver>::new(STORE_MOST);
    let (mut line, mut said) = (Vec::new(), Vec::new());
    while input.read_until(b'\n', &mut line)? > 0 {
        if line.last() == Some(&b'\n') {
            line.pop();
        }
        replay.line(&line, &mut said);
        line.clear();
        if said.len() > 65536 {
            output.write_all(&said)?;
            said.clear();
        }
    }
    output.write_all(&said)
}

extern "C" {
    /// The C library's: the usage begins with seconds and microseconds of the program and of the system.
    fn wait4(pid: i32, status: *mut i32, options: i32, usage: *mut [i64; 18]) -> i32;
}

/// Seconds of processor time that a run takes.
fn timed(words: &[String], file: &str) -> f64 {
    let child = Command::new(&words[0]).args(&words[1..]).arg(file).stdout(Stdio::null()).spawn().expect("the program starts");
    let (mut status, mut usage) = (0, [0; 18]);
    // SAFETY: the child is this process's own, and both places are as large as the C library asks on 64 bits
    let ended = unsafe { wait4(child.id() as i32, &mut status, 0, &mut usage) };
    assert!(ended > 0 && status == 0, "the program ends well");
    (usage[0] + usage[2]) as f64 + (usage[1] + usage[3]) as f64 / 1e6
}

/// What the system says of the program's stack once it has read some of the recording and waits for more.
fn stack(words: &[String], file: &str) -> Result<String> {
    let mut child = Command::new(&words[0]).args(&words[1..]).arg("-").stdin(Stdio::piped()).stdout(Stdio::null()).spawn()?;
    let mut to = child.stdin.take().expect("it has a standard input");
    let recording = std::fs::read(file)?;
    to.write_all(&recording[..recording.len() / 4])?;
    std::thread::sleep(std::time::Duration::from_millis(100));
    let status = std::fs::read_to_string(format!("/proc/{}/status", child.id()))?;
    drop(to);
    child.wait()?;
    let line = status.lines().find_map(|l| l.strip_prefix("VmStk:")).unwrap_or("");
    Ok(line.trim().trim_end_matches(" kB").to_string())
}

fn median(mut times: Vec<f64>) -> f64 {
    times.sort_by(|a, b| a.partial_cmp(b).expect("times compare"));
    times[times.len() / 2]
}

const ROUNDS: usize = 11;
const BYTES: usize = 100_000_000;

fn compare(folder: &str, program: &[String]) -> Result<()> {
    let own = std::env::current_exe()?.to_string_lossy().into_owned();
    let reference = [own, "run".to_string()];
    let file = format!("{}/bench.recording", folder);
    for (ports, payload, window) in [(3, 30, 64), (1, 756, 64)] {
        make(ports, payload, window, BYTES, &file)?;
        let megabytes = std::fs::metadata(&file)?.len() as f64 / 1e6;
        let (mut of_program, mut of_reference) = (Vec::new(), Vec::new());
        for _ in 0..ROUNDS {
            of_program.push(timed(program, &file));
            of_reference.push(timed(&reference, &file));
        }
        let (time, other) = (median(of_program), median(of_reference));
        println!(
            "replay\tports\t{}\tP\t{}\tW\t{}\tproved MB/s\t{:.0}\treference MB/s\t{:.0}\tratio\t{:.2}\tstack kB\t{}",
            ports,
            payload,
            window,
            megabytes / time,
            megabytes / other,
            time / other,
            stack(program, &file)?
        );
    }
    std::fs::remove_file(&file)
}

fn main() -> Result<()> {
    let words: Vec<String> = std::env::args().skip(1).collect();
    let number = |i: usize| words[i].parse().expect("a number");
    match words[0].as_str() {
        "make" => make(number(1), number(2), number(3), number(4), &words[5]),
        "run" => run(&words[1]),
        folder => compare(folder, &words[1..]),
    }
}
