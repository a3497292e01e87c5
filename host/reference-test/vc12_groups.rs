//! Groups of VC-12 (request 2026-01): the step rule by answers worked out apart and by the request's own words, the beginning, the
//! window, MST, sizes, and a link of three slots with one changed bit.

use crate::count::Count;
use crate::invariant;
use crate::path::{Path, BEFALLS};
use crate::random::Random;
use reference::packet::{write_vc12, Fields, DNU, EOS, IDLE, NORM, VC12_START};
use reference::receiver::rows::{self, Row};
use reference::receiver::{clock, Receiver, Report, HELD, KIND_FIXED, KIND_H4, KIND_VC12, STATE_IDLE, SURE};
use reference::sender::{Sender, Table};
use std::collections::HashMap;

const FRAMES: usize = 32;
const TAGS: usize = 1024;
const P: usize = 136;

pub fn check(count: &mut Count) {
    count.note("VC-12: in step with the 64th frame from a start on, and out of it as worked out", steps());
    count.note("VC-12: in step exactly as the request's words have it, over made-up frames", steps_in_words());
    count.note("VC-12: receiving begins with latest tags W-32 apart and not W-31, over tag 1,023 too", beginnings());
    count.note("VC-12: a flagged frame loses step whatever it says, and 11 leaves the bits of the count", flags_and_outside());
    count.note("VC-12: 48 frames ahead of a window of 64 a port never joins", ahead());
    count.note("VC-12: sizes of a start", starts());
    count.note("VC-12: MST of count mod 8, and 63 is IDLE's number and a member's", members());
    count.note("VC-12: three slots over unequal delays, one changed bit in any packet", links());
    count.note("VC-12: a switch of which the receiver is told makes no sure epoch wrong, one of which it is not can", switches());
    count.note("VC-12: over unruly hosts what holds of every state holds, and the form on rows does the same", histories());
}

/// The frames of a packet: its start with 2.
fn packet(epoch: usize, word: u32, sq: u32) -> Vec<u8> {
    let mut frames = vec![0; FRAMES];
    let fields = Fields { epoch: (epoch % 32) as u32, word, gid: 0, mst: 255, rs_ack: 0, sq, reserved: 0 };
    assert_eq!(write_vc12(&fields, &mut frames), 0);
    frames
}

fn idle(epoch: usize) -> Vec<u8> {
    packet(epoch, IDLE, 63)
}

fn idles(epochs: &[usize]) -> Vec<u8> {
    epochs.iter().flat_map(|epoch| idle(*epoch)).collect()
}

/// A receiver with what is lent to it.
#[derive(Clone, PartialEq)]
struct Lent {
    receiver: Receiver,
    store: Vec<u8>,
    output: Vec<u8>,
}

impl Lent {
    fn start(ports: usize, window: usize) -> Lent {
        let store = vec![0; ports * window * (P + 1)];
        let mut receiver = Receiver::empty();
        assert_eq!(receiver.start_as(KIND_VC12, ports as u32, P as u32, window as u32, store.len(), &[], &[]), 0);
        Lent { receiver, store, output: vec![0; ports * FRAMES * P] }
    }

    fn hand(&mut self, port: usize, byte: u8, payload: &[u8]) -> u8 {
        self.receiver.frame(port as u32, false, byte, payload, &mut self.store)
    }

    fn hand_all(&mut self, port: usize, bytes: &[u8]) -> Vec<u8> {
        bytes.iter().map(|byte| self.hand(port, *byte, &[0; P])).collect()
    }

    fn fetch(&mut self) -> Report {
        let (answer, report) = self.receiver.fetch(&self.store, &mut self.output);
        assert_eq!(answer, 0);
        report
    }
}

/// Answers of a port by itself, as how many of each in a row.
fn answers(bytes: &[u8]) -> Vec<(u8, usize)> {
    let mut runs: Vec<(u8, usize)> = Vec::new();
    let mut lent = Lent::start(1, 32);
    for byte in bytes {
        let answer = lent.hand(0, *byte, &[0; P]);
        while lent.fetch() != Report::NONE {}
        match runs.last_mut() {
            Some((last, many)) if *last == answer => *many += 1,
            _ => runs.push((answer, 1)),
        }
    }
    runs
}

fn steps() -> bool {
    let no_start = vec![0, 1, 1, 0, 1, 0, 0, 0, 1];
    let nine = answers(&[no_start, idles(&[5, 6, 7])].concat()) == [(12, 72), (0, 33)];
    let jump = answers(&idles(&[5, 6, 9, 10])) == [(12, 63), (0, 5), (12, 28 + 31), (0, 1)];
    let first_odd = answers(&idles(&[5, 7, 8])) == [(12, 95), (0, 1)];
    let back = answers(&idles(&[5, 4, 6])) == [(12, 96)];
    let round = answers(&idles(&[30, 31, 0, 1])) == [(12, 63), (0, 65)];
    let early = answers(&[idles(&[5, 6]), idle(7)[..9].to_vec(), idles(&[7, 8])].concat()) == [(12, 63), (0, 10), (12, 63), (0, 1)];
    let mut left_out = idles(&[5, 6, 7, 8, 9]);
    left_out[64] -= VC12_START;
    let left_out = answers(&left_out) == [(12, 63), (0, 1), (12, 32 + 63), (0, 1)];
    nine && jump && first_odd && back && round && early && left_out
}

/// "In step after two whole packets in a row whose counts differ by one", said of the bytes alone: there is a frame, at least 64 up to the
/// last, from which on a start is said at each 32nd frame and nowhere between, and each packet's count that has come is one more than the
/// one before.
fn in_step(bytes: &[u8]) -> bool {
    (0..bytes.len()).any(|from| {
        let run = &bytes[from..];
        let starts = run.iter().enumerate().all(|(k, byte)| (byte & VC12_START != 0) == (k % FRAMES == 0));
        let count = |first: usize| run[first..first + 5].iter().fold(0, |value, byte| value << 1 | byte & 1);
        let firsts: Vec<usize> = (0..run.len()).step_by(FRAMES).filter(|first| first + 5 <= run.len()).collect();
        run.len() >= 64 && starts && firsts.windows(2).all(|pair| count(pair[1]) == (count(pair[0]) + 1) % 32)
    })
}

fn steps_in_words() -> bool {
    let mut random = Random::new(101);
    let (mut right, mut inside) = (true, 0);
    for _ in 0..400 {
        let mut bytes = Vec::new();
        let mut epoch = random.below(32) as usize;
        for _ in 0..2 + random.below(6) {
            let mut frames = idle(epoch);
            epoch += 1 + random.below(8) as usize / 7;
            match random.below(12) {
                0 => frames.truncate(random.below(32) as usize),
                1 => frames[0] -= VC12_START,
                2 => frames[random.below(32) as usize] ^= VC12_START,
                3 => frames[random.below(32) as usize] ^= 1,
                4 => frames.iter_mut().for_each(|byte| *byte |= 0xFC),
                _ => {}
            }
            bytes.extend(frames);
        }
        let mut lent = Lent::start(1, 32);
        for k in 0..bytes.len() {
            let answer = lent.hand(0, bytes[k], &[0; P]);
            while lent.fetch() != Report::NONE {}
            let wanted = in_step(&bytes[..k + 1]);
            inside += usize::from(wanted);
            right &= answer == if wanted { 0 } else { 12 };
        }
    }
    right && inside > 10_000
}

/// A port in step whose latest tag is this one.
fn bring_to(lent: &mut Lent, port: usize, latest: usize) {
    let first = (latest + TAGS - 63) / FRAMES * FRAMES;
    for tag in first..latest + TAGS + 1 {
        let epoch = tag / FRAMES % 32;
        lent.hand(port, idle(epoch)[tag % FRAMES], &[0; P]);
    }
}

fn beginnings() -> bool {
    [32, 33, 64, 100, 512].iter().all(|window| {
        // the port that comes last is in step with this tag and not before, and is the foremost or the hindmost
        [31usize, 63, 511, 991, 1023].iter().all(|last| {
            let begun = |other: usize, foremost: usize| {
                let mut lent = Lent::start(2, *window);
                bring_to(&mut lent, 0, other % TAGS);
                bring_to(&mut lent, 1, *last);
                let oldest = ((foremost % TAGS / FRAMES + 1) % 32) as u8;
                (lent.receiver.begun.is_set(), lent.receiver.oldest == oldest)
            };
            let begins = begun(last + TAGS + 32 - window, *last) == (true, true) && begun(last + window - 32, last + window - 32) == (true, true);
            begins && !begun(last + TAGS + 31 - window, *last).0 && !begun(last + window - 31, last + window - 31).0
        })
    })
}

fn flags_and_outside() -> bool {
    let mut lent = Lent::start(2, 34);
    for port in 0..2 {
        lent.hand_all(port, &idles(&[11, 12]));
    }
    // the first epoch is 13, and with both at its end it is gathered; port 0 goes through 14 and stands in 15's count
    lent.hand_all(0, &idles(&[13]));
    lent.hand_all(1, &idles(&[13]));
    let within = lent.hand_all(0, &[idle(14), idle(15)[..2].to_vec()].concat()) == vec![0; FRAMES + 2];
    let before = lent.clone();
    let outside = within && lent.hand_all(0, &[idle(15)[2]; 2]) == [11, 11] && lent == before;
    lent.hand_all(1, &idles(&[14]));
    let passed = lent.fetch().epoch == 14 && lent.hand_all(0, &idle(15)[2..]) == vec![0; FRAMES - 2];
    // flagged as a start: no run begins with it
    let flagged = lent.receiver.frame(0, true, VC12_START, &[0; P], &mut lent.store) == 10 && lent.receiver.ports[0].count == 0;
    let rest = lent.hand_all(0, &idle(16)[1..]) == vec![12; FRAMES - 1] && lent.receiver.ports[0].count == 0;
    outside && passed && flagged && rest
}

/// Both ports are in step from the beginning on, one of them flagged then; it comes back 48 frames ahead of the other.
fn ahead() -> bool {
    let mut lent = Lent::start(2, 64);
    lent.receiver.frame(1, true, 0, &[0; P], &mut lent.store);
    let sent = |tag: usize| idle(tag / FRAMES % 32)[tag % FRAMES];
    let mut joined = false;
    for tag in 160..160 + 4 * TAGS {
        lent.hand(0, sent(tag), &[0; P]);
        if tag >= 300 {
            lent.hand(1, sent(tag + 48), &[0; P]);
        }
        while lent.fetch() != Report::NONE {}
        joined |= lent.receiver.ports[1].joined.is_set();
    }
    lent.receiver.ports[1].in_step() && !joined
}

fn starts() -> bool {
    let start =
        |kind: u32, payload: u32, window: u32| Receiver::empty().start_as(kind, 3, payload, window, 3 * window as usize * (payload as usize + 1), &[], &[]);
    let windows = [(31, 4), (32, 0), (512, 0), (513, 4)].iter().all(|(w, answer)| start(KIND_VC12, 136, *w) == *answer);
    let payloads = [(135, 4), (136, 0), (137, 4)].iter().all(|(p, answer)| start(KIND_VC12, *p, 64) == *answer);
    let kinds = [(KIND_H4, 0), (KIND_VC12, 0), (KIND_FIXED, 0), (3, 4), (257, 4)].iter().all(|(kind, answer)| start(*kind, 136, 64) == *answer);
    let senders = [(KIND_H4, true), (KIND_VC12, true), (KIND_FIXED, false), (3, false), (257, false)];
    let senders = senders.iter().all(|(kind, taken)| Sender::start_as(*kind, 3, 0).is_ok() == *taken);
    windows && payloads && kinds && senders
}

/// So many members of a VC-12 table, all active.
fn active(many: u32) -> Table {
    let mut table = Table::start_as(KIND_VC12, many).expect("the count fits");
    (0..many).for_each(|slot| assert_eq!(table.add(slot), 0));
    for epoch in 0..(many + 7) / 8 {
        table.report(epoch, 0, false);
        table.lapse();
    }
    table
}

fn members() -> bool {
    // 64 members, and epoch 15 speaks of 56 to 63, as 7 does
    let said = |epoch: u32| {
        let mut table = active(64);
        table.report(epoch, 1, false);
        let rows = table.board().rows;
        (rows[63].word, rows[63].number, rows[62].word, rows[62].number)
    };
    let last = [7, 15, 255].iter().all(|epoch| said(*epoch) == (DNU, 63, EOS, 62)) && said(6) == (EOS, 63, NORM, 62);
    // of three slots one is removed: it shows 63, and no report finds it
    let mut table = active(3);
    table.remove(1);
    table.lapse();
    let before = table.board().rows;
    table.report(7, 0xFF, false);
    let idle = (before[1].word, before[1].number) == (IDLE, 63) && table.board().rows == before;
    let round = {
        let mut sender = Sender::start_as(KIND_VC12, 1, 31).expect("the count fits");
        sender.start_epoch(0, 0, 0);
        let first = sender.epoch;
        sender.start_epoch(0, 0, 0);
        (first, sender.epoch) == (31, 0)
    };
    last && idle && round && clock(KIND_VC12).first_tag(31) == 992
}

/// What each slot sends in so many epochs, from the reference's sender: three slots, their frames with payload.
fn sent(first_epoch: u32, epochs: usize) -> Vec<Vec<(u8, Vec<u8>)>> {
    let mut sender = Sender::start_as(KIND_VC12, 3, first_epoch).expect("the count fits");
    let mut slots = vec![Vec::new(); 3];
    for epoch in 0..epochs {
        if epoch == 1 {
            (0..3).for_each(|slot| assert_eq!(sender.table.add(slot), 0));
        }
        if epoch == 2 {
            // MST of count e speaks of 0 to 7 where e mod 8 is 0: the report names its own epoch
            assert_eq!(sender.table.report(0, 0, false), 0);
        }
        sender.start_epoch(1, 255, 0);
        let x = sender.ranked().len();
        let mut packets = vec![vec![0; FRAMES]; 3];
        for slot in 0..3 {
            assert_eq!(sender.packet(slot as u32, &mut packets[slot]), 0);
        }
        for k in 0..FRAMES {
            let group: Vec<u8> = (0..x * P).map(|p| (epoch * 37 + k * 11 + p) as u8).collect();
            for slot in 0..3 {
                let mut member = vec![0; P];
                assert_eq!(sender.payload(slot as u32, P as u32, &group, &mut member), 0);
                slots[slot].push((packets[slot][k], member));
            }
        }
    }
    slots
}

/// The client's bytes of an epoch that carries payload of three.
fn client(epoch: usize) -> Vec<u8> {
    (0..FRAMES).flat_map(|k| (0..3 * P).map(move |p| (epoch * 37 + k * 11 + p) as u8)).collect()
}

fn links() -> bool {
    let (window, epochs, first) = (64usize, 12, 27);
    let slots = sent(first, epochs);
    let delays = [32, 0, 17];
    // no bit changed, then a bit of each place past the count of one packet, of one slot
    let hits = std::iter::once(None).chain((5..32).map(|place| Some((place % 3, 6, place))));
    let mut right = true;
    for hit in hits {
        let mut lent = Lent::start(3, window);
        let mut reports = Vec::new();
        for time in 0..epochs * FRAMES + 32 {
            for slot in 0..3 {
                let k = match time.checked_sub(delays[slot]).filter(|k| *k < slots[slot].len()) {
                    Some(k) => k,
                    None => continue,
                };
                let (byte, payload) = &slots[slot][k];
                let changed = hit.map_or(false, |(s, epoch, place)| s == slot && k == epoch * FRAMES + place);
                lent.hand(slot, byte ^ u8::from(changed), payload);
            }
            loop {
                let report = lent.fetch();
                if report == Report::NONE {
                    break;
                }
                reports.push((report, lent.output[..report.bytes].to_vec()));
            }
        }
        // begun with the 96th frame at the latest: epoch 3 is gathered, 4 is reported first
        right &= reports.len() == epochs - 4 && lent.receiver.ports().iter().all(|p| p.state != STATE_IDLE);
        for (at, (report, bytes)) in reports.iter().enumerate() {
            let epoch = at + 4;
            let held = hit.map_or(false, |(_, hit, _)| hit + 1 == epoch);
            right &= usize::from(report.epoch) == (first as usize + epoch) % 32;
            right &= if held { report.mark == HELD && bytes.is_empty() } else { report.mark == SURE && report.x == 3 && *bytes == client(epoch) };
        }
    }
    right
}

/// How many sure reports are not the client's, where the frames of slot 1 from one on are those of so many frames later or earlier; with a
/// flagged frame before them, or without.
fn wrong_and_sure(slots: &[Vec<(u8, Vec<u8>)>], from: usize, by: isize, flagged: bool) -> usize {
    let (first, mut wrong) = (27, 0);
    let mut lent = Lent::start(3, 64);
    for time in 0..11 * FRAMES {
        for slot in 0..3 {
            let switched = slot == 1 && time >= from;
            let (byte, payload) = &slots[slot][if switched { (time as isize + by) as usize } else { time }];
            if switched && time == from && flagged {
                lent.receiver.frame(1, true, 0, payload, &mut lent.store);
            }
            lent.hand(slot, *byte, payload);
        }
        loop {
            let report = lent.fetch();
            if report == Report::NONE {
                break;
            }
            let epoch = (0..32).find(|e| (first + e) % 32 == usize::from(report.epoch)).expect("an epoch");
            wrong += usize::from(report.mark == SURE && report.x == 3 && lent.output[..report.bytes] != client(epoch));
        }
    }
    wrong
}

/// At each place of an epoch, by whole packets and by other numbers of frames.
fn switches() -> bool {
    let slots = sent(27, 14);
    let all = |flagged: bool| -> Vec<usize> {
        let bys = [-32, -5, -1, 1, 5, 31, 32, 64];
        bys.iter().flat_map(|by| (6 * FRAMES..7 * FRAMES).map(move |from| (from, *by))).map(|(from, by)| wrong_and_sure(&slots, from, by, flagged)).collect()
    };
    let untold = all(false);
    untold.iter().any(|n| *n == 1) && untold.iter().all(|n| *n < 2) && all(true).iter().all(|n| *n == 0)
}

/// A receiver twice, in plain form and as rows, with what each port handed last for each tag.
struct Twice {
    plain: Lent,
    rows: Vec<Row>,
    store: Vec<u8>,
    output: Vec<u8>,
    handed: HashMap<(usize, usize), Vec<u8>>,
    /// The bits of each port's frames that were counted, since its run began.
    live: Vec<Vec<u8>>,
}

impl Twice {
    fn start(ports: usize, window: usize) -> Twice {
        let plain = Lent::start(ports, window);
        let mut lent = vec![[0xEE; 16]; rows::rows_for(ports)];
        assert_eq!(rows::start_as(&mut lent, KIND_VC12, ports as u32, P as u32, window as u32, plain.store.len(), &[], &[]), 0);
        let (store, output) = (plain.store.clone(), plain.output.clone());
        Twice { plain, rows: lent, store, output, handed: HashMap::new(), live: vec![Vec::new(); ports] }
    }

    fn frame(&mut self, port: usize, flagged: bool, byte: u8, payload: &[u8]) -> Result<u8, &'static str> {
        let was = self.plain.receiver.ports[port].clone();
        let answer = self.plain.receiver.frame(port as u32, flagged, byte, payload, &mut self.plain.store);
        if answer != rows::frame(&mut self.rows, port as u32, flagged, byte, payload, &mut self.store) {
            return Err("answers");
        }
        let p = &self.plain.receiver.ports[port];
        if answer != 11 {
            let live = &mut self.live[port];
            match p.count {
                0 => live.clear(),
                1 => *live = vec![byte & 1],
                // a wrong count: the packet is the first of a new two
                5 if was.count != 4 => {
                    live.push(byte & 1);
                    live.drain(..live.len() - 5);
                }
                _ => live.push(byte & 1),
            }
        }
        if answer == 0 && p.joined.is_set() {
            self.handed.insert((port, p.latest_tag()), payload.iter().copied().chain([byte]).collect());
        }
        self.wrong().map_or(Ok(answer), Err)
    }

    fn fetch(&mut self) -> Result<Report, &'static str> {
        let report = self.plain.fetch();
        if rows::fetch(&mut self.rows, &self.store, &mut self.output) != (0, report) || self.output != self.plain.output {
            return Err("reports");
        }
        self.wrong().map_or(Ok(report), Err)
    }

    fn wrong(&self) -> Option<&'static str> {
        let r = &self.plain.receiver;
        let mut by_plain = vec![[0; 16]; self.rows.len()];
        r.to_rows(&mut by_plain);
        let gathered = r.ports.iter().zip(&self.live).all(|(p, live)| {
            let at = |back: usize| (p.next_tag() + TAGS - 1 - back) % FRAMES;
            let bit = |place: usize| p.gathering[place / 2] >> (1 - place % 2) & 1;
            live.iter().rev().take(FRAMES).enumerate().all(|(back, came)| bit(at(back)) == *came)
        });
        let stands = |i: usize| {
            invariant::stored(r, &r.ports[i]).into_iter().all(|o| {
                let at = r.place(i, o);
                self.handed.get(&(i, (r.clock().first_tag(r.oldest) + o) % TAGS)).map_or(false, |bytes| *bytes == self.store[at..at + P + 1])
            })
        };
        if by_plain != self.rows || Receiver::from_rows(&self.rows) != *r || self.store != self.plain.store {
            Some("rows")
        } else if rows::ports(&self.rows) != Ok(r.ports()) || (0..9).any(|e| rows::reply(&self.rows, e * 31) != Ok(r.reply(e * 31))) {
            Some("what is read out")
        } else if !gathered {
            Some("the packet being gathered is not what came")
        } else if !(0..r.ports.len()).all(stands) {
            Some("what is stored is not what was handed")
        } else {
            invariant::broken(r)
        }
    }
}

/// One unruly host: the reports that came.
fn history(random: &mut Random) -> Result<usize, &'static str> {
    let window = random.one_of(&[32, 33, 64, 64, 100]);
    let ports = random.one_of(&[1, 2, 3, 4]);
    let mut both = Twice::start(ports, window);
    let now = random.below(4096) as usize;
    let path = |random: &mut Random| Path { kind: KIND_VC12, tag: now + random.below(window as u64 - 31) as usize, ..Path::default() };
    let mut paths: Vec<Path> = (0..ports).map(|_| path(random)).collect();
    let (calm, fetches) = (random.one_of(&[100, 800, 5000]), random.one_of(&[1, 4, 40]));
    let mut reports = 0;
    for _ in 0..1200 {
        for port in 0..ports {
            if random.below(calm) == 0 {
                paths[port].befall(random.below(BEFALLS), random, window as u64);
            }
            let (flagged, payload) = match paths[port].next(random, P) {
                Some(frame) => frame,
                None => continue,
            };
            let tag = paths[port].tag % TAGS;
            let word = if port + 1 == ports { EOS } else { NORM };
            let sent = packet(tag / FRAMES, word, port as u32)[tag % FRAMES];
            let byte = if flagged { random.next() as u8 } else { paths[port].brings(random, sent) };
            let answer = both.frame(port, flagged, byte, &payload)?;
            if !flagged && (answer != 11 || random.below(40) == 0) {
                paths[port].go_on();
            }
        }
        while random.below(fetches) == 0 && both.fetch()? != Report::NONE {
            reports += 1;
        }
    }
    Ok(reports)
}

fn histories() -> bool {
    let mut random = Random::new(102);
    let mut reports = 0;
    for host in 0..60 {
        match history(&mut random) {
            Ok(came) => reports += came,
            Err(what) => {
                println!("differs\thost {host}\t{what}");
                return false;
            }
        }
    }
    println!("VC-12\treports {reports}");
    reports > 500
}
