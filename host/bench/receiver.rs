//! Times frame and fetch of the proved receiver beside the reference's fast form in Rust, one after the other in one
//! process, round by round, and beside one copy of the same bytes by the C library. A line for each size: the medians of
//! the rounds in nanoseconds a call, and the ratios. Then the same of a fixed group (request 2026-12) beside a group with LCAS, fetches
//! while ports that have lost their claims are held off, and one second of traffic of 64 VC-4 ports.

#[path = "../differential/card.rs"]
#[allow(dead_code)] // the receiver's calls alone are used here
mod card;

use card::Start;
use reference::packet::{self, Fields};
use reference::receiver::fast;
use reference::receiver::rows::{rows_for, Row, ROWS_A_PORT};
use reference::receiver::{epoch_of, DOUBTFUL, KIND_FIXED, KIND_H4, STATE_OK, SURE, TAGS, TIMER_MOST};

const ROUNDS: usize = 51;
const EPOCH: usize = 16;
/// Tag 0 is the first handed, and all ports come into step with tag 31.
const INTO_STEP: usize = 32;
/// Frames of a port in a second.
const FRAMES_A_SECOND: usize = 8000;

/// What is sent: every port is active, and its number is its rank. The same payload comes in every frame of a port.
struct Sent {
    kind: u32,
    ports: usize,
    payload: usize,
    h4: Vec<u8>,
    bytes: Vec<u8>,
}

impl Sent {
    fn new(ports: usize, payload: usize) -> Sent {
        Sent::numbered(KIND_H4, ports, payload, |port| port)
    }

    /// The same with other numbers; the highest has EOS. Or of a fixed group.
    fn numbered(kind: u32, ports: usize, payload: usize, number: fn(usize) -> usize) -> Sent {
        let mut h4 = vec![0; TAGS * ports];
        for port in 0..ports {
            let highest = (0..ports).all(|other| number(other) <= number(port));
            let word = if highest { packet::EOS } else { packet::NORM };
            for first in (8..TAGS + 8).step_by(EPOCH) {
                let mut sixteen = [0; EPOCH];
                let epoch = u32::from(epoch_of(first % TAGS));
                let sq = number(port) as u32;
                let answer = match kind {
                    KIND_FIXED => packet::write_fixed(epoch, sq, &mut sixteen),
                    _ => packet::write(&Fields { epoch, word, gid: 0, mst: 0, rs_ack: 0, sq, reserved: 0 }, &mut sixteen),
                };
                assert_eq!(answer, 0);
                for (k, byte) in sixteen.iter().enumerate() {
                    h4[(first + k) % TAGS * ports + port] = *byte;
                }
            }
        }
        let mut seed = 1u32;
        let mut next = || {
            seed = seed.wrapping_mul(1664525).wrapping_add(1013904223);
            (seed >> 24) as u8
        };
        Sent { kind, ports, payload, h4, bytes: (0..ports * payload).map(|_| next()).collect() }
    }

    fn frame(&self, port: usize, tag: usize) -> (u8, &[u8]) {
        (self.h4[tag * self.ports + port], &self.bytes[port * self.payload..(port + 1) * self.payload])
    }
}

/// One form of the receiver, with lent bytes of its own.
trait Form {
    fn frame(&mut self, port: usize, h4: u8, payload: &[u8]) -> u8;
    /// The mark of the report.
    fn fetch(&mut self) -> u8;
    fn output(&self) -> &[u8];
}

struct Proved {
    rows: Vec<Row>,
    store: Vec<u8>,
    output: Vec<u8>,
    record: [u8; 8],
}

impl Proved {
    fn start(sent: &Sent, window: usize, hold_off: u32) -> Proved {
        let (kind, ports, payload) = (sent.kind, sent.ports, sent.payload);
        let store = vec![0xA5; ports * window * (payload + 1)];
        let mut rows = vec![[0; 16]; rows_for(ports)];
        let hold_off = vec![hold_off; ports];
        let (ports, payload, window) = (ports as u32, payload as u32, window as u32);
        let start = Start { kind, ports, payload, window, store_bytes: store.len(), hold_off: &hold_off, restore: &[] };
        assert_eq!(card::receiver_start_as(&start, &mut rows), 0);
        let (ports, payload) = (ports as usize, payload as usize);
        Proved { rows, store, output: vec![0; ports * EPOCH * payload], record: [0; 8] }
    }
}

impl Form for Proved {
    fn frame(&mut self, port: usize, h4: u8, payload: &[u8]) -> u8 {
        card::receiver_frame(&mut self.rows, port as u32, 0, h4, payload, &mut self.store)
    }

    fn fetch(&mut self) -> u8 {
        assert_eq!(card::receiver_fetch(&mut self.rows, &self.store, &mut self.output, &mut self.record), 0);
        self.record[0]
    }

    fn output(&self) -> &[u8] {
        &self.output
    }
}

struct Fast {
    receiver: fast::Receiver,
    store: Vec<u8>,
    output: Vec<u8>,
}

impl Fast {
    fn start(sent: &Sent, window: usize, hold_off: u32) -> Fast {
        let (ports, payload) = (sent.ports, sent.payload);
        let store = vec![0xA5; ports * window * (payload + 1)];
        let (p, w) = (payload as u32, window as u32);
        let receiver = fast::Receiver::start_as(sent.kind, ports as u32, p, w, store.len(), &vec![hold_off; ports], &[]).expect("all is in range");
        Fast { receiver, store, output: vec![0; ports * EPOCH * payload] }
    }
}

impl Form for Fast {
    fn frame(&mut self, port: usize, h4: u8, payload: &[u8]) -> u8 {
        self.receiver.frame(port as u32, false, h4, payload, &mut self.store)
    }

    fn fetch(&mut self) -> u8 {
        self.receiver.fetch(&self.store, &mut self.output).1.mark
    }

    fn output(&self) -> &[u8] {
        &self.output
    }
}

/// Hands all frames of these tags, port by port.
fn hand<F: Form>(form: &mut F, sent: &Sent, tags: std::ops::Range<usize>, answer: u8) {
    for tag in tags {
        for port in 0..sent.ports {
            let (h4, payload) = sent.frame(port, tag % TAGS);
            assert_eq!(form.frame(port, h4, payload), answer);
        }
    }
}

/// Brings a fresh receiver to the first report and over it. Gives the tag to come next, an epoch's first.
fn begin<F: Form>(form: &mut F, sent: &Sent) -> usize {
    hand(form, sent, 0..INTO_STEP - 1, 12);
    // in step; the epoch from tag 40 on is gathered, the next is the first reported
    let next = 8 + 4 * EPOCH;
    hand(form, sent, INTO_STEP - 1..next, 0);
    assert_eq!((form.fetch(), form.fetch()), (SURE, 0));
    next
}

fn median(mut times: Vec<f64>) -> f64 {
    times.sort_by(f64::total_cmp);
    times[times.len() / 2]
}

#[repr(C)]
struct Time {
    seconds: i64,
    nanoseconds: i64,
}

extern "C" {
    fn clock_gettime(clock: i32, time: *mut Time) -> i32;
}

/// The time that this process has had a processor for, in nanoseconds: what else runs on the machine does not count.
fn now() -> f64 {
    const PROCESS: i32 = 2;
    let mut time = Time { seconds: 0, nanoseconds: 0 };
    assert_eq!(unsafe { clock_gettime(PROCESS, &mut time) }, 0);
    time.seconds as f64 * 1e9 + time.nanoseconds as f64
}

/// What one look at that clock takes.
fn clock_cost() -> f64 {
    median((0..1001).map(|_| now()).collect::<Vec<_>>().windows(2).map(|pair| pair[1] - pair[0]).collect())
}

/// Nanoseconds a frame and a fetch, of so many epochs with this mark.
fn round<F: Form>(form: &mut F, sent: &Sent, next: &mut usize, epochs: usize, mark: u8, cost: f64) -> (f64, f64) {
    let begun = now();
    hand(form, sent, *next..*next + epochs * EPOCH, 0);
    let handed = now();
    for _ in 0..epochs {
        assert_eq!(form.fetch(), mark);
    }
    let fetched = now();
    *next = (*next + epochs * EPOCH) % TAGS;
    let frames = (epochs * EPOCH * sent.ports) as f64;
    ((handed - begun - cost) / frames, (fetched - handed - cost) / epochs as f64)
}

/// One copy of the same bytes: payload into the store where it goes next, and an epoch's store into the output.
struct Copies {
    store: Vec<u8>,
    output: Vec<u8>,
    at: usize,
}

impl Copies {
    fn round(&mut self, sent: &Sent, window: usize, epochs: usize, cost: f64) -> (f64, f64) {
        let begun = now();
        for k in 0..epochs * EPOCH {
            for port in 0..sent.ports {
                let place = (port * window + (self.at + k) % window) * (sent.payload + 1);
                let (_, payload) = sent.frame(port, 0);
                self.store[place..place + sent.payload].copy_from_slice(payload);
            }
        }
        let handed = now();
        for epoch in 0..epochs {
            for k in 0..EPOCH {
                for port in 0..sent.ports {
                    let place = (port * window + (self.at + epoch * EPOCH + k) % window) * (sent.payload + 1);
                    let to = (k * sent.ports + port) * sent.payload;
                    self.output[to..to + sent.payload].copy_from_slice(&self.store[place..place + sent.payload]);
                }
            }
        }
        let fetched = now();
        self.at = (self.at + epochs * EPOCH) % window;
        let frames = (epochs * EPOCH * sent.ports) as f64;
        ((handed - begun - cost) / frames, (fetched - handed - cost) / epochs as f64)
    }
}

/// The greatest ratios to the fast form so far, of frames and of fetches.
type Worst = [f64; 2];

fn measure(ports: usize, payload: usize, window: usize, worst: &mut Worst) {
    let sent = Sent::new(ports, payload);
    let (mut proved, mut fast) = (Proved::start(&sent, window, 0), Fast::start(&sent, window, 0));
    let (mut a, mut b) = (begin(&mut proved, &sent), begin(&mut fast, &sent));
    assert!(proved.output() == fast.output());
    let mut copies = Copies { store: proved.store.clone(), output: proved.output.clone(), at: 0 };
    let (epochs, cost) = (4, clock_cost());
    let mut times: [[Vec<f64>; 2]; 3] = Default::default();
    // the first time round brings the store into memory
    let warm = window / EPOCH / epochs + 1;
    for k in 0..warm + ROUNDS {
        let rounds = [
            round(&mut proved, &sent, &mut a, epochs, SURE, cost),
            round(&mut fast, &sent, &mut b, epochs, SURE, cost),
            copies.round(&sent, window, epochs, cost),
        ];
        for (times, (frame, fetch)) in times.iter_mut().zip(rounds) {
            if k >= warm {
                times[0].push(frame);
                times[1].push(fetch);
            }
        }
    }
    assert!(proved.output() == fast.output());
    for (i, what) in ["frame", "fetch"].iter().enumerate() {
        let [p, f, c] = [0, 1, 2].map(|form: usize| median(times[form][i].clone()));
        println!(
            "{what}\tports {ports}\tP {payload}\tW {window}\tproved {p:.0} ns\tfast {f:.0} ns\tmemcpy {c:.0} ns\tto fast {:.2}\tto memcpy {:.2}",
            p / f,
            p / c
        );
        worst[i] = worst[i].max(p / f);
    }
}

/// A fixed group beside one with LCAS and beside the fast form of itself.
fn measure_fixed(ports: usize, payload: usize, window: usize) {
    let [lcas, fixed] = [KIND_H4, KIND_FIXED].map(|kind| Sent::numbered(kind, ports, payload, |port| port));
    let (mut by_lcas, mut proved, mut fast) = (Proved::start(&lcas, window, 0), Proved::start(&fixed, window, 0), Fast::start(&fixed, window, 0));
    let (mut a, mut b, mut c) = (begin(&mut by_lcas, &lcas), begin(&mut proved, &fixed), begin(&mut fast, &fixed));
    assert!(proved.output() == fast.output() && proved.output() == by_lcas.output());
    let (epochs, cost) = (4, clock_cost());
    let mut times: [[Vec<f64>; 2]; 3] = Default::default();
    let warm = window / EPOCH / epochs + 1;
    for k in 0..warm + ROUNDS {
        let rounds = [
            round(&mut by_lcas, &lcas, &mut a, epochs, SURE, cost),
            round(&mut proved, &fixed, &mut b, epochs, SURE, cost),
            round(&mut fast, &fixed, &mut c, epochs, SURE, cost),
        ];
        for (times, (frame, fetch)) in times.iter_mut().zip(rounds) {
            if k >= warm {
                times[0].push(frame);
                times[1].push(fetch);
            }
        }
    }
    assert!(proved.output() == fast.output());
    for (i, what) in ["frame", "fetch"].iter().enumerate() {
        let [l, p, f] = [0, 1, 2].map(|form: usize| median(times[form][i].clone()));
        println!(
            "{what}\tports {ports}\tP {payload}\tW {window}\tFIXED {p:.0} ns\tH4 {l:.0} ns\tfast FIXED {f:.0} ns\tto H4 {:.2}\tto fast {:.2}",
            p / l,
            p / f
        );
    }
}

/// Fetches while all ports have lost their claims and are held off, by what numbers they have come to.
fn measure_held(name: &str, ports: usize, number: fn(usize) -> usize) {
    let (payload, window, epochs) = (756, 64, 2);
    let (sent, lost) = (Sent::new(ports, payload), Sent::numbered(KIND_H4, ports, payload, number));
    let (mut proved, mut fast) = (Proved::start(&sent, window, TIMER_MOST), Fast::start(&sent, window, TIMER_MOST));
    let (mut a, mut b) = (begin(&mut proved, &sent), begin(&mut fast, &sent));
    let cost = clock_cost();
    // the first epoch is still ruled by the packets before
    round(&mut proved, &lost, &mut a, 1, SURE, cost);
    round(&mut fast, &lost, &mut b, 1, SURE, cost);
    let mut times: [Vec<f64>; 2] = Default::default();
    for _ in 0..ROUNDS {
        times[0].push(round(&mut proved, &lost, &mut a, epochs, DOUBTFUL, cost).1);
        times[1].push(round(&mut fast, &lost, &mut b, epochs, DOUBTFUL, cost).1);
    }
    assert!(proved.output() == fast.output());
    let held = proved.rows[2..].iter().step_by(ROWS_A_PORT).filter(|member| member[2] == STATE_OK && member[10..12] != [0; 2]).count();
    assert_eq!(held, ports);
    let [p, f] = times.map(median);
    println!("fetch\tports {ports}\tP {payload}\tW {window}\tall held off, {name}\tproved {p:.0} ns\tfast {f:.0} ns\tto fast {:.2}", p / f);
}

/// Processor time for one second of traffic: each frame is followed by a fetch until none is due.
fn second<F: Form>(mut form: F, sent: &Sent, window: usize) -> f64 {
    let mut next = begin(&mut form, sent);
    let mut least = f64::MAX;
    // the first times bring the store into memory
    for turn in 0..1 + window / 1024 + 5 {
        let (mut frames, mut reports) = (0, 0);
        let begun = now();
        for tag in next..next + FRAMES_A_SECOND {
            for port in 0..sent.ports {
                let (h4, payload) = sent.frame(port, tag % TAGS);
                assert_eq!(form.frame(port, h4, payload), 0);
                frames += 1;
                while form.fetch() != 0 {
                    reports += 1;
                }
            }
        }
        let taken = (now() - begun) / 1e9;
        next = (next + FRAMES_A_SECOND) % TAGS;
        assert_eq!((frames, reports), (64 * FRAMES_A_SECOND, FRAMES_A_SECOND / EPOCH));
        if turn > window / 1024 {
            least = least.min(taken);
        }
    }
    least
}

fn main() {
    let mut worst = [0.0; 2];
    for payload in [756, 2340] {
        for ports in [1, 8, 64] {
            for window in [64, 2048] {
                measure(ports, payload, window, &mut worst);
            }
        }
    }
    println!("greatest ratio to fast\tframe {:.2}\tfetch {:.2}", worst[0], worst[1]);
    for payload in [756, 2340] {
        for ports in [1, 8, 64] {
            measure_fixed(ports, payload, 64);
        }
    }
    for ports in [1, 8, 64] {
        measure_held("no number to claim", ports, |port| 64 + port);
    }
    // the first port has none to claim, and each other one has that of the port before it
    for ports in [8, 64] {
        measure_held("each by the one before it", ports, |port| if port == 0 { 64 } else { port - 1 });
    }
    let sent = Sent::new(64, 2340);
    for window in [64, 2048] {
        let proved = second(Proved::start(&sent, window, 0), &sent, window);
        let fast = second(Fast::start(&sent, window, 0), &sent, window);
        println!("one second of 64 VC-4 ports\tW {window}\tproved {proved:.2} of a processor\tfast {fast:.2} of a processor\tto fast {:.2}", proved / fast);
    }
}
