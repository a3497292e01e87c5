//! A recording run again. Written from the requests (2026-05, and 2026-01 for VC-12), their readings and 01.

use crate::packet::DONE;
use crate::receiver::read::NOBODY;
use crate::receiver::{
    clock, fast, Receiver as Plain, Report, Shown, DOUBTFUL, HELD, KIND_FIXED, KIND_H4, KIND_VC12, NONE, NONE_DUE, PAYLOAD_VC12, STATE_FAIL, STATE_IDLE,
};

const LINE_MOST: usize = 8192;
pub const OUT_OF_RANGE: u8 = 4;
pub const MALFORMED: u8 = 13;

/// What a first line says. A list has a number for each port, or none at all.
pub struct Settings {
    pub(crate) kind: u32,
    pub(crate) ports: u32,
    pub(crate) payload: u32,
    pub(crate) window: u32,
    pub(crate) hold_off: Vec<u32>,
    pub(crate) restore: Vec<u32>,
}

impl Settings {
    /// The kind's sizes; of VC-12 "P is 136".
    pub(crate) fn fit(&self) -> bool {
        Plain::fits_as(self.kind, self.ports, self.payload, self.window) && (self.kind != KIND_VC12 || self.payload == PAYLOAD_VC12)
    }
}

/// A receiver in one of the reference's forms, with what it is lent.
pub trait Receives: Sized {
    fn start(settings: &Settings, store: usize) -> Result<Self, u8>;
    fn frame(&mut self, port: u32, flagged: bool, h4: u8, payload: &[u8], store: &mut [u8]) -> u8;
    fn fetch(&mut self, store: &[u8], output: &mut [u8]) -> (u8, Report);
    fn ports(&self) -> Vec<Shown>;
    /// Cause and port of the report that a fetch would give; NOBODY where it is no one port's.
    fn cause(&self) -> [u8; 2];
}

impl Receives for Plain {
    fn start(settings: &Settings, store: usize) -> Result<Plain, u8> {
        let Settings { kind, ports, payload, window, hold_off, restore } = settings;
        let mut receiver = Plain::empty();
        match receiver.start_as(*kind, *ports, *payload, *window, store, hold_off, restore) {
            DONE => Ok(receiver),
            answer => Err(answer),
        }
    }

    fn frame(&mut self, port: u32, flagged: bool, h4: u8, payload: &[u8], store: &mut [u8]) -> u8 {
        self.frame(port, flagged, h4, payload, store)
    }

    fn fetch(&mut self, store: &[u8], output: &mut [u8]) -> (u8, Report) {
        self.fetch(store, output)
    }

    fn ports(&self) -> Vec<Shown> {
        self.ports()
    }

    fn cause(&self) -> [u8; 2] {
        self.cause()
    }
}

impl Receives for fast::Receiver {
    fn start(settings: &Settings, store: usize) -> Result<fast::Receiver, u8> {
        let Settings { kind, ports, payload, window, hold_off, restore } = settings;
        fast::Receiver::start_as(*kind, *ports, *payload, *window, store, hold_off, restore)
    }

    fn frame(&mut self, port: u32, flagged: bool, h4: u8, payload: &[u8], store: &mut [u8]) -> u8 {
        self.frame(port, flagged, h4, payload, store)
    }

    fn fetch(&mut self, store: &[u8], output: &mut [u8]) -> (u8, Report) {
        self.fetch(store, output)
    }

    fn ports(&self) -> Vec<Shown> {
        self.ports()
    }

    fn cause(&self) -> [u8; 2] {
        self.cause()
    }
}

/// "The epoch's line of a held or doubtful report names cause and port in words", by the causes' numbers.
const CAUSES: [&str; 8] = [
    "none", "a ruling packet was refused", "an active port lacks a frame", "numbers of active and DNU ports repeat",
    "GID differs among ports that are not IDLE", "EOS is not on the highest active port alone", "a port has no whole ruling packet",
    "the numbers are not 0 to n - 1",
];

/// Behind a report's line: nothing if it is sure.
fn why(mark: u8, cause: u8, port: u8) -> String {
    match (mark, port) {
        (HELD | DOUBTFUL, NOBODY) => format!("\tcause\t{}", CAUSES[usize::from(cause)]),
        (HELD | DOUBTFUL, _) => format!("\tcause\t{}\tport\t{}", CAUSES[usize::from(cause)], port),
        _ => String::new(),
    }
}

/// One to nine decimal digits, by value.
fn number(field: &[u8]) -> Option<u32> {
    let fits = (1..=9).contains(&field.len()) && field.iter().all(u8::is_ascii_digit);
    fits.then(|| field.iter().fold(0, |value, digit| 10 * value + u32::from(digit - b'0')))
}

/// The value of each byte as a hex digit of either case, and NONE for any other.
const DIGITS: [u8; 256] = {
    let mut digits = [NONE; 256];
    let mut value = 0;
    while value < 16 {
        digits[b"0123456789abcdef"[value] as usize] = value as u8;
        digits[b"0123456789ABCDEF"[value] as usize] = value as u8;
        value += 1;
    }
    digits
};

/// The bytes that a field stands for by two hex digits each, or false if it is not just that.
fn hex(field: &[u8], bytes: &mut [u8]) -> bool {
    if field.len() != 2 * bytes.len() {
        return false;
    }
    let mut strange = 0;
    for (byte, pair) in bytes.iter_mut().zip(field.chunks_exact(2)) {
        let (high, low) = (DIGITS[usize::from(pair[0])], DIGITS[usize::from(pair[1])]);
        strange |= high | low;
        *byte = high << 4 | low & 15;
    }
    strange < 16
}

/// A group that runs.
struct Group<R> {
    receiver: R,
    ports: u32,
    store: Vec<u8>,
    output: Vec<u8>,
    /// The bytes of the frame just read.
    payload: Vec<u8>,
    /// Member state and number of each port at the last report.
    states: Vec<(u8, u8)>,
}

fn states<R: Receives>(receiver: &R) -> Vec<(u8, u8)> {
    receiver.ports().iter().map(|p| (p.state, p.number)).collect()
}

/// Ports, P and W, and behind them pairs in any order, each at most once: a kind, or a list with as many numbers as ports.
pub(crate) fn settings(line: &[u8]) -> Option<Settings> {
    if line.len() > LINE_MOST {
        return None;
    }
    let mut fields = line.split(|b| *b == b'\t');
    let (ports, payload, window) = (number(fields.next()?)?, number(fields.next()?)?, number(fields.next()?)?);
    let (mut kind, mut hold_off, mut restore) = (None, None, None);
    while let Some(name) = fields.next() {
        let mut list = || (0..ports).map(|_| number(fields.next()?)).collect::<Option<Vec<u32>>>();
        let given_before = match name {
            b"kind" => {
                let of = match fields.next()? {
                    b"H4" => KIND_H4,
                    b"FIXED" => KIND_FIXED,
                    b"VC12" => KIND_VC12,
                    _ => return None,
                };
                kind.replace(of).is_some()
            }
            b"hold-off" => hold_off.replace(list()?).is_some(),
            b"wait-to-restore" => restore.replace(list()?).is_some(),
            _ => return None,
        };
        if given_before {
            return None;
        }
    }
    let list = |given: Option<Vec<u32>>| given.unwrap_or_default();
    Some(Settings { kind: kind.unwrap_or(KIND_H4), ports, payload, window, hold_off: list(hold_off), restore: list(restore) })
}

/// What the settings say: 13, 4, or a group.
fn opened<R: Receives>(line: &[u8], store_most: usize) -> Result<Group<R>, u8> {
    let settings = settings(line).ok_or(MALFORMED)?;
    let Settings { kind, ports, payload, window, .. } = settings;
    if !settings.fit() {
        return Err(OUT_OF_RANGE);
    }
    let size = payload as usize;
    let store = ports as usize * window as usize * (size + 1);
    if store > store_most {
        return Err(OUT_OF_RANGE);
    }
    let receiver = R::start(&settings, store)?;
    Ok(Group {
        ports,
        store: vec![0; store],
        output: vec![0; ports as usize * clock(kind).frames * size],
        payload: vec![0; size],
        states: states(&receiver),
        receiver,
    })
}

/// Port, H4 and flag of a frame's line in a group of so many ports, with its bytes in `payload`; None if it is malformed.
pub(crate) fn frame(line: &[u8], ports: u32, payload: &mut [u8]) -> Option<(u32, u8, bool)> {
    if line.len() > LINE_MOST {
        return None;
    }
    let mut fields = line.split(|b| *b == b'\t');
    let (port, h4, flag, digits) = (fields.next()?, fields.next()?, fields.next()?, fields.next()?);
    if fields.next().is_some() {
        return None;
    }
    let port = number(port).filter(|port| *port < ports)?;
    let mut byte = [0];
    let flag = match flag {
        b"0" => false,
        b"1" => true,
        _ => return None,
    };
    (hex(h4, &mut byte) && hex(digits, payload)).then(|| (port, byte[0], flag))
}

impl<R: Receives> Group<R> {
    /// A frame handed once, then reports until none is due.
    fn take(&mut self, frame: (u32, u8, bool), number: u64, said: &mut Vec<u8>) {
        let (port, h4, flagged) = frame;
        self.receiver.frame(port, flagged, h4, &self.payload, &mut self.store);
        loop {
            let [_, port] = self.receiver.cause();
            let (_, report) = self.receiver.fetch(&self.store, &mut self.output);
            let mark = match report.mark {
                NONE_DUE => return,
                HELD => "held",
                DOUBTFUL => "doubtful",
                _ => "sure",
            };
            let why = why(report.mark, report.cause, port);
            said.extend(format!("epoch\t{}\t{}\tbytes\t{}\tline\t{}{}\n", report.epoch, mark, report.bytes, number, why).bytes());
            let now = states(&self.receiver);
            for (port, ((state, number), before)) in now.iter().zip(&self.states).enumerate() {
                if (*state, *number) != *before {
                    let word = match *state {
                        STATE_IDLE => "IDLE",
                        STATE_FAIL => "FAIL",
                        _ => "OK",
                    };
                    said.extend(format!("port\t{}\t{}\t{}\n", port, word, number).bytes());
                }
            }
            self.states = now;
        }
    }
}

enum Phase<R> {
    Settings,
    Running(Group<R>),
    Ended,
}

/// How far a recording has been replayed.
pub struct Replay<R> {
    phase: Phase<R>,
    lines: u64,
    store_most: usize,
}

impl<R: Receives> Replay<R> {
    pub fn new(store_most: usize) -> Replay<R> {
        Replay { phase: Phase::Settings, lines: 0, store_most }
    }

    /// One line, without its end; what is printed is put behind what was said.
    pub fn line(&mut self, line: &[u8], said: &mut Vec<u8>) {
        self.lines += 1;
        let number = self.lines;
        let mut refuse = |answer: u8| said.extend(format!("answer\t{}\tline\t{}\n", answer, number).bytes());
        match &mut self.phase {
            Phase::Settings => match opened(line, self.store_most) {
                Ok(group) => self.phase = Phase::Running(group),
                Err(answer) => {
                    refuse(answer);
                    self.phase = Phase::Ended;
                }
            },
            Phase::Running(group) => match frame(line, group.ports, &mut group.payload) {
                Some(frame) => group.take(frame, number, said),
                None => refuse(MALFORMED),
            },
            Phase::Ended => {}
        }
    }
}

/// The whole output of a recording, whose last line may lack its end.
pub fn whole<R: Receives>(recording: &[u8], store_most: usize) -> Vec<u8> {
    let (mut replay, mut said) = (Replay::<R>::new(store_most), Vec::new());
    for line in recording.split_inclusive(|b| *b == b'\n') {
        replay.line(line.strip_suffix(b"\n").unwrap_or(line), &mut said);
    }
    said
}
