//! Long histories of unruly hosts: delays that change, losses, flags, noise, frames left out or handed late, fetches now
//! and then. The receiver's rows and the fast receiver must do the same as the plain one, what is stored must be what
//! was handed, and the invariants must hold, after every call. And rows that no call returned must be coped with. All of it once
//! more for groups that are FIXED.

use crate::count::Count;
use crate::invariant;
use crate::path::{Frame, Path, BEFALLS};
use crate::random::Random;
use crate::source::{packet, Says};
use reference::packet::{read, read_fixed, write_fixed, FIELDS_BYTES};
use reference::receiver::rows::{self, Row};
use reference::receiver::{
    epoch_of, fast, first_tag, Flag, Port, Receiver, Report, DOUBTFUL, HELD, KIND_FIXED, KIND_H4, STATE_FAIL, STATE_IDLE, STATE_OK, SURE, TAGS,
};
use std::collections::HashMap;

/// The receiver three times, with lent bytes of its own each.
struct Three {
    plain: Receiver,
    rows: Vec<Row>,
    fast: fast::Receiver,
    stores: [Vec<u8>; 3],
    outputs: [Vec<u8>; 3],
    /// One more, started alike but with no times, and its output.
    timeless: Receiver,
    timeless_output: Vec<u8>,
    /// What each port stored last for each tag.
    handed: HashMap<(usize, usize), Vec<u8>>,
    /// The nibbles of each port's frames that were counted, one after the other, since its run began.
    live: Vec<Vec<u8>>,
}

/// How often things came to pass.
#[derive(Default, Debug)]
struct Seen {
    calls: usize,
    answers: [usize; 13],
    marks: [usize; 4],
    begins: usize,
    stops: usize,
    joins_later: usize,
    old_marks: usize,
    turns: usize,
    /// Frames taken as the first, second or third break in a row; steps lost by a fourth, and by a second odd packet.
    breaks: [usize; 4],
    fourth_breaks: usize,
    odd_packets: usize,
    second_odd_packets: usize,
    /// Reports held while a ruling packet with a right CRC carried another number.
    other_numbers: usize,
    /// Hold-offs begun, ended in FAIL and ended by the claim come back; restorings ended in OK and by the claim lost; held numbers that
    /// another port has.
    hold_offs: usize,
    hold_offs_ended: usize,
    claims_back: usize,
    restored: usize,
    restoring_ended: usize,
    kept_from_others: usize,
}

const SPARE: u8 = 0xC3;

/// The bytes of rows that have no meaning.
fn spares(rows: &mut [Row]) -> Vec<&mut u8> {
    let mut bytes = Vec::new();
    for (i, row) in rows.iter_mut().enumerate() {
        match (i, i % 5) {
            (0, _) | (_, 1) | (_, 2) => bytes.extend(&mut row[12..]),
            _ => {}
        }
    }
    bytes
}

impl Three {
    fn start(kind: u32, ports: usize, payload: usize, window: usize, times: &Times) -> Three {
        let length = ports * window * (payload + 1);
        let (mut plain, mut timeless) = (Receiver::empty(), Receiver::empty());
        let (n, p, w) = (ports as u32, payload as u32, window as u32);
        assert_eq!(plain.start_as(kind, n, p, w, length, &times.hold_off, &times.restore), 0);
        assert_eq!(timeless.start_as(kind, n, p, w, length, &[], &[]), 0);
        let mut lent = vec![[0xEE; 16]; rows::rows_for(ports)];
        assert_eq!(rows::start_as(&mut lent, kind, n, p, w, length, &times.hold_off, &times.restore), 0);
        for byte in spares(&mut lent) {
            assert_eq!(*byte, 0);
            *byte = SPARE;
        }
        let fast = fast::Receiver::start_as(kind, n, p, w, length, &times.hold_off, &times.restore).expect("all is in range");
        let stores = std::array::from_fn(|_| vec![0xA5; length]);
        let outputs = std::array::from_fn(|_| vec![0x5A; ports * 16 * payload + 3]);
        let timeless_output = vec![0x5A; ports * 16 * payload + 3];
        Three { plain, rows: lent, fast, stores, outputs, timeless, timeless_output, handed: HashMap::new(), live: vec![Vec::new(); ports] }
    }

    /// What is wrong after a call, if anything. All that is stored, and all replies, are looked at now and then, since
    /// that takes long.
    fn wrong(&self, calls: usize) -> Option<&'static str> {
        let mut rows = vec![[SPARE; 16]; self.rows.len()];
        self.plain.to_rows(&mut rows);
        let shown = self.plain.ports();
        let reply = |e: u8| self.plain.reply(e);
        let replies = || (0..10).chain([31, 32, 255]).all(|e| rows::reply(&self.rows, e) == Ok(reply(e)) && self.fast.reply(e) == reply(e));
        if rows != self.rows || Receiver::from_rows(&self.rows) != self.plain {
            Some("rows")
        } else if self.stores[0] != self.stores[1] || self.stores[0] != self.stores[2] {
            Some("stores")
        } else if self.outputs[0] != self.outputs[1] || self.outputs[0] != self.outputs[2] {
            Some("outputs")
        } else if rows::ports(&self.rows) != Ok(shown.clone()) || self.fast.ports() != shown {
            Some("ports")
        } else if calls % 8 == 0 && !replies() {
            Some("replies")
        } else if calls % 16 == 0 && !self.stands() {
            Some("what is stored is not what was handed")
        } else if !self.gathers() {
            Some("the packet being gathered is not what came")
        } else {
            invariant::broken(&self.plain)
        }
    }

    /// Whether all that counts as stored is what was handed.
    fn stands(&self) -> bool {
        let p = self.plain.payload;
        self.plain.ports.iter().enumerate().all(|(i, port)| {
            invariant::stored(&self.plain, port).into_iter().all(|o| {
                let tag = (first_tag(self.plain.oldest) + o) % TAGS;
                let at = self.plain.place(i, o);
                self.handed.get(&(i, tag)).map_or(false, |bytes| *bytes == self.stores[0][at..at + p + 1])
            })
        })
    }

    /// With all states and times taken out of them the receivers with times and without are one.
    fn times_change_states_alone(&self) -> bool {
        let mut plain = self.plain.clone();
        for (p, t) in plain.ports.iter_mut().zip(&self.timeless.ports) {
            (p.state, p.state_number, p.hold_off, p.restore, p.run) = (t.state, t.state_number, 0, 0, 0);
        }
        plain == self.timeless
    }

    /// Of each of the last sixteen frames of a run the nibble stands at its own place.
    fn gathers(&self) -> bool {
        self.plain.ports.iter().zip(&self.live).all(|(p, live)| {
            let at = |back: usize| p.gathering[(p.next_tag() + TAGS - 1 - back + 8) % 16];
            live.iter().rev().take(16).enumerate().all(|(back, nibble)| at(back) == *nibble)
        })
    }

    /// Notes what a frame did to the port's step.
    fn steps(&mut self, port: usize, was: &Port, h4: u8, seen: &mut Seen) {
        let p = &self.plain.ports[port];
        let live = &mut self.live[port];
        if !p.in_step() && (p.count < 2 || was.in_step()) {
            live.clear();
        }
        if p.count > 0 {
            live.push(h4 >> 4);
        }
        if was.in_step() && p.in_step() {
            seen.breaks[usize::from(p.breaks)] += 1;
            seen.odd_packets += usize::from(p.odd.is_set() && was.next_tag() % 16 == 7);
        }
        if was.in_step() && !p.in_step() && !p.failed.is_set() {
            // a fourth break is that whatever its packet is
            seen.fourth_breaks += usize::from(was.breaks == 3);
            seen.second_odd_packets += usize::from(was.breaks < 3);
        }
    }

    fn frame(&mut self, port: usize, frame: &Frame, seen: &mut Seen) -> Result<u8, &'static str> {
        let (flagged, h4, payload) = frame;
        let before = (self.plain.clone(), self.stores[0].clone());
        let [a, b, c] = &mut self.stores;
        let answer = self.plain.frame(port as u32, *flagged, *h4, payload, a);
        let by_rows = rows::frame(&mut self.rows, port as u32, *flagged, *h4, payload, b);
        let by_fast = self.fast.frame(port as u32, *flagged, *h4, payload, c);
        let by_timeless = self.timeless.frame(port as u32, *flagged, *h4, payload, &mut before.1.clone());
        seen.calls += 1;
        seen.answers[usize::from(answer)] += 1;
        if answer != by_rows || answer != by_fast {
            return Err("answers");
        }
        if answer != by_timeless || !self.times_change_states_alone() {
            return Err("times change more than states");
        }
        if answer != 0 && self.stores[0] != before.1 || ![0, 10, 12].contains(&answer) && self.plain != before.0 {
            return Err("a refusal changed something");
        }
        let (was_begun, is_begun) = (before.0.begun.is_set(), self.plain.begun.is_set());
        seen.begins += usize::from(is_begun && (!was_begun || before.0.gathered.is_set() && !self.plain.gathered.is_set()));
        seen.stops += usize::from(was_begun && !is_begun);
        if port < self.plain.ports.len() && [0, 10, 12].contains(&answer) {
            self.steps(port, &before.0.ports[port], *h4, seen);
        }
        if let Some(p) = self.plain.ports.get(port) {
            if answer == 0 && p.joined.is_set() {
                let joins = !before.0.ports[port].joined.is_set();
                seen.joins_later += usize::from(joins && p.later > 0);
                seen.old_marks += usize::from(joins && before.0.ports[port].marks != p.marks);
                let bytes = payload.iter().copied().chain([*h4]).collect();
                self.handed.insert((port, p.latest_tag()), bytes);
            }
        }
        self.wrong(seen.calls).map_or(Ok(answer), Err)
    }

    fn fetch(&mut self, seen: &mut Seen) -> Result<Report, &'static str> {
        let before = self.plain.clone();
        let [a, b, c] = &mut self.outputs;
        let (answer, report) = self.plain.fetch(&self.stores[0], a);
        let by_rows = rows::fetch(&mut self.rows, &self.stores[1], b);
        let by_fast = self.fast.fetch(&self.stores[2], c);
        let by_timeless = self.timeless.fetch(&self.stores[0], &mut self.timeless_output);
        seen.calls += 1;
        seen.marks[usize::from(report.mark)] += 1;
        seen.turns += usize::from(before.rs_ack != self.plain.rs_ack);
        if (answer, report) != by_rows || (answer, report) != by_fast || answer != 0 {
            return Err("reports");
        }
        if (answer, report) != by_timeless || self.timeless_output != self.outputs[0] || !self.times_change_states_alone() {
            return Err("times change more than states");
        }
        seen.waits(&before, &self.plain);
        if report == Report::NONE && self.plain != before {
            return Err("a fetch with none due changed something");
        }
        if report != Report::NONE && !states_follow(&before, &self.plain) {
            return Err("member states");
        }
        let other_number = before.ports.iter().any(|p| p.whole.is_set() && carries_other(before.kind, &p.ruling, before.oldest.wrapping_sub(1)));
        if report != Report::NONE && other_number {
            seen.other_numbers += 1;
            if report.mark != HELD {
                return Err("a packet with another number rules");
            }
        }
        self.wrong(seen.calls).map_or(Ok(report), Err)
    }
}

/// Whether a packet is read with 0 and carries another number than this epoch's.
fn carries_other(kind: u32, nibbles: &[u8; 16], epoch: u8) -> bool {
    let mut fields = [0; FIELDS_BYTES];
    let h4 = nibbles.map(|n| n << 4);
    let answer = if kind == KIND_FIXED { read_fixed(&h4, &mut fields) } else { read(&h4, &mut fields) };
    answer == 0 && fields[0] != epoch
}

/// The member states in another form, said of each port by itself and of the numbers after the report. A claim: a candidate, and
/// no other port is OK under its number.
fn states_follow(before: &Receiver, now: &Receiver) -> bool {
    let n = now.ports.len();
    let (was, is) = (|i: usize| &before.ports[i], |i: usize| &now.ports[i]);
    let idle = |i: usize| [5, 255].contains(&is(i).word);
    let candidate = |i: usize| !idle(i) && before.is_readable(was(i)) && is(i).number < 64;
    let ok_under = |i: usize, q: u8| is(i).state == STATE_OK && is(i).state_number == q;
    let claim = |i: usize| candidate(i) && !(0..n).any(|j| j != i && ok_under(j, is(i).number));
    let follows = |i: usize| {
        let (p, now) = (was(i), (is(i).state, is(i).state_number, is(i).run));
        let number = is(i).number;
        now == match p.state {
            _ if idle(i) => (STATE_IDLE, number, 0),
            STATE_OK if claim(i) => (STATE_OK, number, 0),
            STATE_OK if p.run < p.hold_off => (STATE_OK, p.state_number, p.run + 1),
            STATE_FAIL if claim(i) && p.run < p.restore => (STATE_FAIL, number, p.run + 1),
            STATE_FAIL | STATE_IDLE if claim(i) => (STATE_OK, number, 0),
            _ => (STATE_FAIL, number, 0),
        }
    };
    // who of several gets a number: the one that keeps it, else the first that need not wait
    let keeps = |i: usize| was(i).state == STATE_OK && was(i).state_number == is(i).number;
    let asks = |i: usize| candidate(i) && !(was(i).state == STATE_FAIL && was(i).run < was(i).restore);
    let in_order = |i: usize| {
        let got = ok_under(i, is(i).number) && is(i).run == 0;
        !got || keeps(i) || !(0..n).any(|j| asks(j) && is(j).number == is(i).number && (keeps(j) || j < i))
    };
    (0..n).all(|i| follows(i) && in_order(i) && (is(i).hold_off, is(i).restore) == (was(i).hold_off, was(i).restore))
}

/// The times of a group's ports.
#[derive(Default)]
struct Times {
    hold_off: Vec<u32>,
    restore: Vec<u32>,
}

impl Times {
    /// Often the same for all, or none.
    fn drawn(random: &mut Random, ports: usize) -> Times {
        let mut list = || match random.below(4) {
            0 => Vec::new(),
            1 => vec![random.one_of(&[1, 2, 5, 20, 5000]); ports],
            _ => (0..ports).map(|_| random.one_of(&[0, 0, 1, 2, 3, 8, 40])).collect(),
        };
        Times { hold_off: list(), restore: list() }
    }
}

impl Seen {
    /// Notes what a report did to waits.
    fn waits(&mut self, before: &Receiver, now: &Receiver) {
        for (was, is) in before.ports.iter().zip(&now.ports) {
            let ran = (was.state, is.state);
            self.hold_offs += usize::from(is.state == STATE_OK && was.run == 0 && is.run == 1);
            self.hold_offs_ended += usize::from(ran == (STATE_OK, STATE_FAIL) && was.run > 0);
            self.claims_back += usize::from(ran == (STATE_OK, STATE_OK) && was.run > 0 && is.run == 0);
            self.restored += usize::from(ran == (STATE_FAIL, STATE_OK) && was.run > 0);
            self.restoring_ended += usize::from(ran == (STATE_FAIL, STATE_FAIL) && was.run > 0 && is.run == 0);
            let wanted = || now.ports.iter().any(|other| other.state == STATE_FAIL && other.number == is.state_number);
            self.kept_from_others += usize::from(is.state == STATE_OK && is.run > 0 && wanted());
        }
    }
}

struct Host {
    kind: u32,
    seed: u64,
    paths: Vec<Path>,
    /// How unruly: one event in so many frames, and one odd packet in so many.
    calm: u64,
    packets_calm: u64,
}

impl Host {
    fn new(random: &mut Random, kind: u32, ports: usize, window: usize) -> Host {
        let base = random.below(TAGS as u64) as usize;
        let paths = (0..ports).map(|_| Path { tag: base + random.below(window as u64 - 15) as usize, ..Path::default() }).collect();
        let calm = random.one_of(&[30, 100, 300, 1000, 1000, 3000]);
        Host { kind, seed: random.next(), paths, calm, packets_calm: random.one_of(&[10, 20, 50, 200]) }
    }

    /// The packet of a port's epoch in a FIXED group: mostly its own number, in an order that changes now and then.
    fn fixed_packet(&self, port: usize, epoch: u8) -> [u8; 16] {
        let n = self.paths.len();
        let shift = Random::new(self.seed ^ (u64::from(epoch) / 64) << 20).below(n as u64) as usize;
        let mut own = Random::new(self.seed ^ (u64::from(epoch) << 8) ^ (port as u64) << 40);
        for _ in 0..4 {
            own.next();
        }
        let mut sq = ((port + shift) % n) as u32;
        if own.below(self.packets_calm) == 0 {
            sq = own.one_of(&[0, 1, 2, n as u32, 63, 64, 255]);
        }
        let named = if own.below(self.packets_calm) == 0 { epoch.wrapping_add(1 + own.below(3) as u8) } else { epoch };
        let mut h4 = [0; 16];
        assert_eq!(write_fixed(named.into(), sq, &mut h4), 0);
        match own.below(self.packets_calm) {
            // a word, or nibbles that are not looked at
            0 => h4[10] ^= (1 + own.below(15) as u8) << 4,
            1..=3 => [0, 1, 2, 3, 4, 5, 11, 12, 13, 14, 15].iter().for_each(|k: &usize| h4[*k] ^= (own.below(16) as u8) << 4),
            4 => h4[own.below(16) as usize] ^= 0x10,
            _ => {}
        }
        h4
    }

    /// The packet of a port's epoch: mostly what makes a group, and the same however often it is asked for.
    fn packet(&self, port: usize, epoch: u8) -> [u8; 16] {
        if self.kind == KIND_FIXED {
            return self.fixed_packet(port, epoch);
        }
        let n = self.paths.len();
        let mut whole = Random::new(self.seed ^ (u64::from(epoch) / 8) << 20);
        let (shift, active) = (whole.below(n as u64) as usize, whole.below(n as u64 + 1) as usize);
        let number = (port + shift) % n;
        let mut own = Random::new(self.seed ^ (u64::from(epoch) << 8) ^ (port as u64) << 40);
        for _ in 0..4 {
            own.next();
        }
        let mut says = match number {
            k if k + 1 < active => Says { word: 2, sq: k as u32, gid: 0 },
            k if k + 1 == active => Says { word: 3, sq: k as u32, gid: 0 },
            k => Says { word: own.one_of(&[5, 5, 1]), sq: k as u32, gid: 0 },
        };
        match own.below(self.packets_calm) {
            0 => says.word = own.one_of(&[1, 2, 3, 5, 15]),
            1 => says.sq = own.one_of(&[0, 1, 2, 63, 64, 255]),
            2 => says.gid = 1,
            _ => {}
        }
        // the number of another epoch now and then, with the CRC that goes with it
        let named = if own.below(self.packets_calm) == 0 { epoch.wrapping_add(1 + own.below(3) as u8) } else { epoch };
        let mut h4 = packet(named, says);
        if own.below(self.packets_calm) == 0 {
            h4[own.below(16) as usize] ^= 0x10;
        }
        h4
    }

    /// The next frame of a port, if it comes.
    fn frame(&mut self, random: &mut Random, port: usize, payload: usize, window: usize) -> Option<Frame> {
        let path = &mut self.paths[port];
        if random.below(self.calm) == 0 {
            match random.below(BEFALLS + 2) {
                event if event < BEFALLS => path.befall(event, random, window as u64),
                BEFALLS => return Some((false, random.next() as u8, vec![0; payload])),
                _ => return Some((random.below(2) == 0, 0, vec![0; payload + 1])),
            }
        }
        let (flagged, bytes) = path.next(random, payload)?;
        let tag = path.tag;
        let h4 = self.packet(port, epoch_of(tag))[(tag + 8) % 16];
        Some((flagged, if flagged { random.next() as u8 } else { self.paths[port].brings(random, h4) }, bytes))
    }
}

fn history(random: &mut Random, seen: &mut Seen, kind: u32, times: usize) -> Result<(), String> {
    let window = random.one_of(&[16, 17, 24, 31, 32, 33, 40, 48, 64, 77, 160, 240, 256]);
    let ports = random.one_of(&[1, 2, 2, 3, 4, 9]);
    let payload = random.one_of(&[1, 2, 3, 9]);
    let mut three = Three::start(kind, ports, payload, window, &Times::drawn(random, ports));
    let mut host = Host::new(random, kind, ports, window);
    let fetches = random.one_of(&[1, 4, 20, 60]);
    for time in 0..times {
        for port in 0..ports {
            let frame = match host.frame(random, port, payload, window) {
                Some(frame) => frame,
                None => continue,
            };
            let at = |what: &str| format!("{} at {} of port {}, W {}", what, time, port, window);
            let mut answer = three.frame(port, &frame, seen).map_err(|e| at(e))?;
            if answer == 11 && random.below(4) > 0 {
                // handed again after a report, or later, or never
                if three.fetch(seen).map_err(|e| at(e))? != Report::NONE {
                    answer = three.frame(port, &frame, seen).map_err(|e| at(e))?;
                }
            }
            if !frame.0 && (answer != 11 || random.below(20) == 0) {
                host.paths[port].go_on();
            }
            if answer == 11 && random.below(4) == 0 {
                // a path is switched to a longer one, and the host says so or not
                host.paths[port].tag += TAGS - random.below(window as u64 + 60) as usize;
                host.paths[port].flagged = random.below(4).min(1);
            }
            if random.below(400) == 0 {
                three.frame(ports + random.below(3) as usize, &frame, seen).map_err(|e| at(e))?;
            }
        }
        if random.below(fetches) == 0 {
            while three.fetch(seen).map_err(|e| format!("{} at fetching, W {}", e, window))? != Report::NONE {}
        }
    }
    Ok(())
}

/// So many histories of a kind; whether all was right, and what was seen.
fn histories(random: &mut Random, kind: u32, number: usize) -> (bool, Seen) {
    let mut seen = Seen::default();
    let mut right = true;
    for _ in 0..number {
        if let Err(what) = history(random, &mut seen, kind, 1000) {
            println!("differs\t{}", what);
            right = false;
            break;
        }
    }
    println!("seen\t{:?}", seen);
    (right, seen)
}

/// The same of FIXED groups, of which no report is doubtful and RS-Ack never turns.
fn check_fixed(count: &mut Count) {
    let (right, seen) = histories(&mut Random::new(30), KIND_FIXED, 150);
    let answers = [0, 1, 9, 10, 11, 12].iter().all(|a| seen.answers[*a] > 150);
    let marks = seen.marks[usize::from(HELD)] > 1000 && seen.marks[usize::from(SURE)] > 1000;
    let events = [seen.begins, seen.stops, seen.joins_later, seen.second_odd_packets, seen.other_numbers].iter().all(|times| *times > 50);
    let waits = [seen.hold_offs, seen.hold_offs_ended, seen.claims_back, seen.restored].iter().all(|times| *times > 20);
    count.note(&format!("FIXED groups alike and sound over {} calls", seen.calls), right);
    count.note("all that can happen to one happens there", answers && marks && events && waits);
    count.note("none of its reports is doubtful, and RS-Ack never turns", seen.marks[usize::from(DOUBTFUL)] == 0 && seen.turns == 0);
}

pub fn check(count: &mut Count) {
    let (right, seen) = histories(&mut Random::new(26), KIND_H4, 300);
    let answers = [0, 1, 9, 10, 11, 12].iter().all(|a| seen.answers[*a] > 300);
    let marks = seen.marks.iter().all(|times| *times > 1000);
    let events = [seen.begins, seen.stops, seen.joins_later, seen.turns].iter().all(|times| *times > 100) && seen.old_marks > 30;
    let steps = seen.breaks.iter().chain([&seen.fourth_breaks, &seen.odd_packets, &seen.second_odd_packets, &seen.other_numbers]);
    let waits = [seen.hold_offs, seen.hold_offs_ended, seen.claims_back, seen.restored, seen.restoring_ended, seen.kept_from_others];
    let events = events && steps.into_iter().all(|times| *times > 100) && waits.iter().all(|times| *times > 30);
    count.note(&format!("plain, rows and fast alike and sound over {} calls", seen.calls), right);
    count.note("all that can happen happens in these histories", answers && marks && events);
    check_fixed(count);
    count.note("group frames of many widths, plain, rows and fast alike", widths());
    count.note("rows that no call returned", any_rows());
    count.note("rows that do not fit", misfits());
}

/// All ports active and in no order: blocks of eight by eight bytes, and what is left beside and below them.
fn widths() -> bool {
    let mut random = Random::new(28);
    let mut seen = Seen::default();
    let mut sure = 0;
    for x in [1, 2, 3, 7, 8, 9, 15, 16, 17, 24, 40, 63, 64] {
        for payload in [1, 8, 9, 15] {
            let mut three = Three::start(KIND_H4, x, payload, 17, &Times::default());
            for tag in 0..90 {
                for port in 0..x {
                    // 5 has no divisor in common with any x but 15 and 40, which 7 serves
                    let number = port * if x % 5 == 0 { 7 } else { 5 } % x;
                    let says = Says { word: if number + 1 == x { 3 } else { 2 }, sq: number as u32, gid: 1 };
                    let mut bytes = vec![0; payload];
                    random.fill(&mut bytes);
                    let h4 = packet(epoch_of(tag), says)[(tag + 8) % 16];
                    if three.frame(port, &(false, h4, bytes), &mut seen).is_err() {
                        return false;
                    }
                }
                match three.fetch(&mut seen) {
                    Ok(report) => sure += usize::from(report.x == x && report.mark == SURE),
                    Err(_) => return false,
                }
            }
        }
    }
    sure == 2 * 13 * 4
}

/// Rows with odd numbers in all places, of a group that is in range.
fn odd_rows(random: &mut Random) -> Vec<Row> {
    let ports = random.one_of(&[1u8, 2, 3]);
    let (payload, window) = (random.one_of(&[1u8, 2]), random.one_of(&[16u8, 17, 40]));
    let mut lent = vec![[0; 16]; rows::rows_for(ports.into())];
    for row in lent.iter_mut() {
        random.fill(row);
    }
    let flag = |random: &mut Random| random.one_of(&[0, 1, 1, 7, 255]);
    let kind = random.one_of(&[0, 0, 2]);
    lent[0][..6].copy_from_slice(&[kind, ports, 0, payload, 0, window]);
    (lent[0][6], lent[0][7], lent[0][11]) = (flag(random), flag(random), flag(random));
    for step in lent[1..].iter_mut().step_by(5) {
        (step[0], step[1], step[5], step[6], step[8]) = (flag(random), random.one_of(&[0, 0, 9]), flag(random), flag(random), flag(random));
        step[2] = random.one_of(&[0, 1, 2, 17, 31, 31, 32, 32, 33, 255]);
        step[7] = random.one_of(&[0, 0, 1, 2, 200]);
        step[9] = random.one_of(&[0, 0, 1, 2, 3, 3, 4, 255]);
        step[10] = flag(random);
    }
    if random.below(2) == 0 {
        // ports near the window
        for step in lent.clone()[1..].iter().step_by(5).enumerate().map(|(i, _)| 1 + 5 * i) {
            let tag = first_tag(lent[0][8]) + random.below(u64::from(window) + 2) as usize + TAGS * random.below(15) as usize;
            lent[step][3..5].copy_from_slice(&(tag as u16).to_be_bytes());
        }
    }
    lent
}

/// The same state with each number in its range.
fn tamed(r: &Receiver) -> Receiver {
    let tame = |f: Flag| Flag::from(f.is_set());
    let mut tamed = r.clone();
    (tamed.begun, tamed.gathered, tamed.rs_ack) = (tame(r.begun), tame(r.gathered), tame(r.rs_ack));
    tamed.origin = (usize::from(r.origin) % r.window) as u16;
    for p in &mut tamed.ports {
        (p.had, p.failed, p.joined, p.since, p.whole) = (tame(p.had), tame(p.failed), tame(p.joined), tame(p.since), tame(p.whole));
        p.odd = tame(p.odd);
        p.breaks = p.breaks.min(3);
        p.count = p.count.min(32);
        p.next %= TAGS as u16;
    }
    tamed
}

/// Any rows are answered, as the same state with its numbers in range would be; refusals leave them byte for byte, and
/// bytes without meaning stay.
fn any_rows() -> bool {
    let mut random = Random::new(27);
    let mut answers = [0usize; 13];
    let mut reports = 0;
    let right = (0..200_000).all(|_| {
        let mut lent = odd_rows(&mut random);
        let given = lent.clone();
        let before = Receiver::from_rows(&lent);
        let mut tame = vec![[0; 16]; lent.len()];
        tamed(&before).to_rows(&mut tame);
        let mut store = vec![0; before.store_length()];
        random.fill(&mut store);
        let mut output = vec![0; before.output_least()];
        let (mut other_store, mut other_output) = (store.clone(), output.clone());
        let kept = store.clone();
        let same = if random.below(3) == 0 {
            let by_rows = rows::fetch(&mut lent, &store, &mut output);
            reports += usize::from(by_rows.1 != Report::NONE);
            by_rows == rows::fetch(&mut tame, &other_store, &mut other_output) && output == other_output && (by_rows.1 != Report::NONE || lent == given)
        } else {
            let port = random.below(before.ports.len() as u64) as usize;
            let next = before.ports[port].next_tag();
            let h4 = match (random.below(8), next % 16) {
                (0, _) => random.next() as u8,
                (_, 0) => (next / 256 * 16) as u8,
                (_, 1) => (next / 16 % 16 * 16 + 1) as u8,
                (_, mfi1) => random.below(16) as u8 * 16 + mfi1 as u8,
            };
            let flagged = random.below(20) == 0;
            let mut payload = vec![0; before.payload];
            random.fill(&mut payload);
            let answer = rows::frame(&mut lent, port as u32, flagged, h4, &payload, &mut store);
            answers[usize::from(answer)] += 1;
            let other = rows::frame(&mut tame, port as u32, flagged, h4, &payload, &mut other_store);
            answer == other && store == other_store && (answer != 11 || lent == given) && (answer == 0 || store == kept)
        };
        let mut old = given.clone();
        let spares_stay = spares(&mut lent.clone()).iter().map(|b| **b).eq(spares(&mut old).iter().map(|b| **b));
        same && spares_stay && tamed(&Receiver::from_rows(&lent)) == tamed(&Receiver::from_rows(&tame))
    });
    right && reports > 3000 && [0, 10, 11, 12].iter().all(|a| answers[*a] > 3000)
}

fn misfits() -> bool {
    let mut started = vec![[0xEE; 16]; 11];
    let length = 2 * 16 * 2;
    let short_start = rows::start(&mut started[..10], 2, 1, 16, length) == 9 && started == vec![[0xEE; 16]; 11];
    let right_start = rows::start(&mut started, 2, 1, 16, length) == 0;
    let mut store = vec![0; length];
    let mut wrong = |lent: &[Row]| {
        let mut lent = lent.to_vec();
        let given = lent.clone();
        let answers = (
            rows::frame(&mut lent, 0, false, 0, &[0], &mut store),
            rows::frame(&mut lent, 2, true, 0, &[0], &mut store),
            rows::fetch(&mut lent, &store, &mut [0; 64]).0,
            rows::fetch(&mut lent, &[], &mut []).0,
            rows::ports(&lent).map(|ports| ports.len()),
            rows::reply(&lent, 0),
        );
        (lent == given).then_some(answers)
    };
    let misfit = Some((9, 1, 9, 9, Err(9), Err(9)));
    let empty = Some((1, 1, 9, 0, Ok(0), Ok((255, 0))));
    let longer: Vec<Row> = started.iter().copied().chain([[0; 16]]).collect();
    let lengths = wrong(&started[..10]) == misfit && wrong(&started[..1]) == misfit && wrong(&longer) == misfit && wrong(&[]) == empty;
    let mut ranges = [(0, 1), (0, 255), (1, 0), (1, 65), (2, 10), (4, 9), (5, 15)].iter().map(|(at, byte)| {
        let mut lent = started.clone();
        lent[0][*at] = *byte;
        wrong(&lent) == empty
    });
    let ranges = ranges.all(|right| right);
    let mut refused = vec![[0xEE; 16]; 11];
    let four = rows::start(&mut refused, 65, 1, 16, 0) == 4 && refused[0] == [0; 16] && refused[1..] == vec![[0xEE; 16]; 10];
    short_start && right_start && lengths && ranges && four && wrong(&refused) == empty && rows::start(&mut [], 0, 1, 16, 0) == 4
}
