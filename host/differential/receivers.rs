//! The archive's receiver against the reference on long made-up histories. After each call the answers, all rows of the
//! state, the store, the output, the record, the ports and the reply are compared, and after every third what else is
//! read out. On states that calls returned the reference is the plain form; where state bytes are damaged between calls
//! it is the one on rows. All of it for groups with LCAS, for those of VC-12, and for those that are FIXED.

mod damage;
mod host;
mod read;
mod states;

use crate::card::{self, Start};
use crate::count::{Count, Test};
use crate::path::Frame;
use crate::random::Random;
use host::Host;
use reference::receiver::read::anew as rows_anew;
use reference::receiver::rows::{self, rows_for, Row, ROWS_A_PORT};
use reference::receiver::{clock, Receiver, Report, Shown, DOUBTFUL, HELD, KIND_FIXED, KIND_H4, KIND_VC12, PAYLOAD_VC12, STATE_FAIL, STATE_OK, SURE};

enum Reference {
    Plain(Receiver),
    Rows,
}

/// Both, with lent bytes of their own.
struct Both {
    reference: Reference,
    kind: u32,
    ports: usize,
    payload: usize,
    window: usize,
    rows: [Vec<Row>; 2],
    stores: [Vec<u8>; 2],
    outputs: [Vec<u8>; 2],
}

/// How often things came to pass.
#[derive(Default, Debug)]
struct Seen {
    calls: u64,
    marks: [u64; 4],
    causes: [u64; 8],
    begins: u64,
    stops: u64,
    joins: u64,
    joins_later: u64,
    old_marks: u64,
    turns: u64,
    damages: u64,
    /// Frames in step by the breaks in a row, packets that ended odd, and steps lost by a fourth break and by a second odd packet.
    breaks: [u64; 4],
    odd_packets: u64,
    fourth_breaks: u64,
    second_odd_packets: u64,
    /// Of VC-12: steps lost by a fifth bit, by a start said early, and by one left out.
    other_counts: u64,
    early_starts: u64,
    left_out_starts: u64,
    /// Ports that a report leaves waiting: for the end of their hold-off, and to restore; and waits that ended in FAIL and in OK.
    held_off: u64,
    restoring: u64,
    fell: u64,
    restored: u64,
    /// Receiving begun anew, and what was read out.
    anews: u64,
    read: read::Read,
}

impl Seen {
    /// What a frame did to a port's step row.
    fn step(&mut self, kind: u32, was: &Row, is: &Row) {
        let in_step = |row: &Row| row[2] >= clock(kind).step;
        if kind == KIND_VC12 {
            if in_step(was) && !in_step(is) && is[1] == 0 {
                self.other_counts += u64::from(is[2] == 5);
                self.early_starts += u64::from(is[2] == 1);
                self.left_out_starts += u64::from(is[2] == 0);
            }
            return;
        }
        if in_step(was) && in_step(is) && was != is {
            self.breaks[usize::from(is[9] % 4)] += 1;
            self.odd_packets += u64::from(is[10] != 0 && is[4] % 16 == 8);
        }
        if in_step(was) && !in_step(is) && is[1] == 0 {
            self.fourth_breaks += u64::from(was[9] == 3);
            self.second_odd_packets += u64::from(was[9] < 3);
        }
    }

    /// What a report did to a port's member row.
    fn waits(&mut self, was: &Row, is: &Row) {
        let runs = |row: &Row| row[10..12] != [0; 2];
        self.held_off += u64::from(is[2] == STATE_OK && runs(is));
        self.restoring += u64::from(is[2] == STATE_FAIL && runs(is));
        self.fell += u64::from((was[2], is[2]) == (STATE_OK, STATE_FAIL) && runs(was));
        self.restored += u64::from((was[2], is[2]) == (STATE_FAIL, STATE_OK) && runs(was));
    }
}

/// What a call gave: the answer, the record, the ports, the reply, and what else differs.
type Given = (u8, Vec<u8>, Vec<[u8; 8]>, Vec<u8>, Option<(&'static str, usize)>);

/// Stores above this are looked at now and then only.
const SMALL: usize = 1 << 14;

/// Numbers for what is read out and begun anew, so that the histories are the same with it and without.
fn aside(calls: u64) -> Random {
    Random::new((calls + 1).wrapping_mul(0x9E37_79B9_7F4A_7C15))
}

fn record(report: Report) -> Vec<u8> {
    let mut bytes = vec![report.mark, report.epoch, report.x as u8, report.cause];
    bytes.extend((report.bytes as u32).to_be_bytes());
    bytes
}

fn shown(p: &Shown) -> [u8; 8] {
    [p.state, p.number, p.in_step.into(), p.joined.into(), p.readable.into(), p.failed.into(), p.word, p.waiting]
}

/// The times of a group's ports, often none.
fn times(random: &mut Random, ports: usize) -> Vec<u32> {
    match random.below(3) {
        0 => Vec::new(),
        1 => vec![random.one_of(&[1, 3, 10, 5000]); ports],
        _ => (0..ports).map(|_| random.one_of(&[0, 0, 1, 2, 3, 8])).collect(),
    }
}

/// The same start on the reference's rows.
fn start_rows(start: &Start, state: &mut [Row]) -> u8 {
    rows::start_as(state, start.kind, start.ports, start.payload, start.window, start.store_bytes, start.hold_off, start.restore)
}

fn first_difference<T: PartialEq>(a: &[T], b: &[T]) -> usize {
    a.iter().zip(b).position(|(x, y)| x != y).unwrap_or(usize::MAX)
}

impl Both {
    fn start(random: &mut Random, kind: u32, ports: usize, payload: usize, window: usize, damaged: bool) -> Both {
        // of VC-12 no start takes another P than 136, but rows that no call wrote may have one
        let started = if kind == KIND_VC12 { PAYLOAD_VC12 as usize } else { payload };
        let length = ports * window * (started + 1);
        let (n, p, w) = (ports as u32, started as u32, window as u32);
        let (hold_off, restore) = (times(random, ports), times(random, ports));
        let start = Start { kind, ports: n, payload: p, window: w, store_bytes: length, hold_off: &hold_off, restore: &restore };
        let mut plain = Receiver::empty();
        assert_eq!(plain.start_as(kind, n, p, w, length, &hold_off, &restore), 0);
        let mut by_rows = vec![[0xEE; 16]; rows_for(ports)];
        let mut by_card = by_rows.clone();
        assert_eq!((start_rows(&start, &mut by_rows), card::receiver_start_as(&start, &mut by_card)), (0, 0));
        if payload != started {
            for rows in [&mut by_rows, &mut by_card] {
                rows[0][2..4].copy_from_slice(&(payload as u16).to_be_bytes());
            }
        }
        let mut store = vec![0; ports * window * (payload + 1)];
        random.fill(&mut store);
        let output = vec![0x5A; ports * clock(kind).frames * payload + random.below(4) as usize];
        let reference = if damaged { Reference::Rows } else { Reference::Plain(plain) };
        Both { reference, kind, ports, payload, window, rows: [by_rows, by_card], stores: [store.clone(), store], outputs: [output.clone(), output] }
    }

    /// What both give after a call: ports and reply are read out, and all that is lent is compared.
    fn both(&mut self, random: &mut Random, seen: &mut Seen, answers: [u8; 2], records: [Vec<u8>; 2]) -> [Given; 2] {
        let calls = seen.calls;
        let any = random.next() as u8;
        let epoch = random.one_of(&[0, 0, 1, 7, 8, 32, 255, any]);
        let (expected_ports, expected_reply) = match &self.reference {
            Reference::Plain(plain) => {
                plain.to_rows(&mut self.rows[0]);
                (Ok(plain.ports()), Ok(plain.reply(epoch)))
            }
            Reference::Rows => (rows::ports(&self.rows[0]), rows::reply(&self.rows[0], epoch)),
        };
        let count = expected_ports.as_ref().map_or(self.ports, Vec::len);
        let (mut ports, mut reply) = (vec![[0xA5; 8]; count], vec![0xA5; 2]);
        let (mut wanted_ports, mut wanted_reply) = (ports.clone(), reply.clone());
        let ports_answer = card::receiver_ports(&self.rows[1], &mut ports);
        let reply_answer = card::receiver_reply(&self.rows[1], epoch, &mut reply);
        if let Ok(expected) = &expected_ports {
            wanted_ports = expected.iter().map(shown).collect();
        }
        if let Ok((mst, rs_ack)) = &expected_reply {
            wanted_reply = vec![*mst, *rs_ack];
        }
        let refused = (expected_ports.is_err(), expected_reply.is_err());
        let what = if refused != (ports_answer != 0, reply_answer != 0) {
            Some(("answers of ports and reply", 0))
        } else if self.rows[0] != self.rows[1] {
            Some(("row", first_difference(&self.rows[0], &self.rows[1])))
        } else if (self.stores[0].len() <= SMALL || calls % 128 == 0) && self.stores[0] != self.stores[1] {
            Some(("store at", first_difference(&self.stores[0], &self.stores[1])))
        } else if self.outputs[0] != self.outputs[1] {
            Some(("output at", first_difference(&self.outputs[0], &self.outputs[1])))
        } else if calls % 3 == 0 {
            let plain = if let Reference::Plain(plain) = &self.reference { Some(plain) } else { None };
            read::difference(&mut aside(calls), plain, &self.rows[0], &self.rows[1], self.ports, &mut seen.read)
        } else {
            None
        };
        let [by_reference, by_card] = records;
        [(answers[0], by_reference, wanted_ports, wanted_reply, None), (answers[1], by_card, ports, reply, what)]
    }

    fn frame(&mut self, test: &mut Test, random: &mut Random, seen: &mut Seen, port: usize, frame: &Frame, rows: usize, store: usize) -> u8 {
        let (flagged, h4, payload) = frame;
        let before = (self.rows[0][0], self.rows[0].get(rows_for(port)).map_or((0, 0), |step| (step[5], step[7])));
        let given = self.rows[0].get(rows_for(port)).copied();
        let marks = self.rows[0].get(rows_for(port) + 4).copied();
        let [a, b] = &mut self.stores;
        let (a, b) = (&mut a[..store], &mut b[..store]);
        let answer = match &mut self.reference {
            Reference::Plain(plain) => plain.frame(port as u32, *flagged, *h4, payload, a),
            Reference::Rows => rows::frame(&mut self.rows[0][..rows], port as u32, *flagged, *h4, payload, a),
        };
        let failed = if *flagged { random.one_of(&[1, 2, 256, u32::MAX]) } else { 0 };
        let by_card = card::receiver_frame(&mut self.rows[1][..rows], port as u32, failed, *h4, payload, b);
        seen.calls += 1;
        let [reference, card] = self.both(random, seen, [answer, by_card], [vec![], vec![]]);
        let input = ("frame", (self.ports, self.payload, self.window), port, flagged, h4, payload.len(), rows, store, (before.0, given));
        test.case(answer, &reference, &card, &input);
        let group = &self.rows[0][0];
        if let (Some(was), Some(is)) = (&given, self.rows[0].get(rows_for(port))) {
            seen.step(self.kind, was, is);
        }
        if !matches!(self.reference, Reference::Rows) {
            seen.begins += u64::from(group[6] > before.0[6] || before.0[7] > group[7] && group[6] == 1);
            seen.stops += u64::from(before.0[6] > group[6]);
            if let Some(step) = self.rows[0].get(rows_for(port)).filter(|step| step[5] > before.1 .0) {
                seen.joins += 1;
                seen.joins_later += u64::from(step[7] > 0);
                seen.old_marks += u64::from(marks != self.rows[0].get(rows_for(port) + 4).copied());
            }
        }
        answer
    }

    fn fetch(&mut self, test: &mut Test, random: &mut Random, seen: &mut Seen) -> Report {
        let ack = self.rows[0][0][11];
        let members: Vec<Row> = self.rows[0].iter().skip(2).step_by(ROWS_A_PORT).copied().collect();
        let least = self.ports * clock(self.kind).frames * self.payload;
        let (mut rows, mut store, mut out) = (self.rows[0].len(), self.stores[0].len(), self.outputs[0].len());
        let mut record_length = 8;
        match random.below(160) {
            0 => rows -= usize::from(matches!(self.reference, Reference::Rows)),
            1 => store -= 1,
            2 => out = least - 1,
            3 => record_length = random.one_of(&[0, 7, 9]),
            4 => out = least,
            _ => {}
        }
        let [a, b] = &mut self.outputs;
        let (answer, report) = match &mut self.reference {
            Reference::Plain(plain) if record_length == 8 => plain.fetch(&self.stores[0][..store], &mut a[..out]),
            Reference::Rows if record_length == 8 => rows::fetch(&mut self.rows[0][..rows], &self.stores[0][..store], &mut a[..out]),
            _ => (9, Report::NONE),
        };
        let mut by_card = vec![0xA5; record_length];
        let by_reference = if answer == 0 { record(report) } else { by_card.clone() };
        let card_answer = card::receiver_fetch(&mut self.rows[1][..rows], &self.stores[1][..store], &mut b[..out], &mut by_card);
        seen.calls += 1;
        seen.marks[usize::from(report.mark)] += 1;
        seen.causes[usize::from(report.cause)] += 1;
        let [reference, card] = self.both(random, seen, [answer, card_answer], [by_reference, by_card]);
        seen.turns += u64::from(ack != self.rows[0][0][11]);
        if report != Report::NONE {
            members.iter().zip(self.rows[0].iter().skip(2).step_by(ROWS_A_PORT)).for_each(|(was, is)| seen.waits(was, is));
        }
        test.case(answer, &reference, &card, &("fetch", (self.ports, self.payload, self.window), rows, store, out, record_length));
        report
    }

    /// Receiving begun anew.
    fn anew(&mut self, test: &mut Test, random: &mut Random, seen: &mut Seen) {
        let store = self.stores[0].len() - usize::from(random.below(8) == 0);
        let answer = match &mut self.reference {
            Reference::Plain(plain) => plain.anew(&self.stores[0][..store]),
            Reference::Rows => rows_anew(&mut self.rows[0], &self.stores[0][..store]),
        };
        let by_card = card::receiver_anew(&mut self.rows[1], &self.stores[1][..store]);
        seen.calls += 1;
        seen.anews += u64::from(answer == 0);
        let [reference, card] = self.both(random, seen, [answer, by_card], [vec![], vec![]]);
        test.case(answer, &reference, &card, &("anew", (self.ports, self.payload, self.window), store));
    }

    /// All that is due. From states that no call wrote this can go on for ever.
    fn fetch_all(&mut self, test: &mut Test, random: &mut Random, seen: &mut Seen) {
        let mut left = if matches!(self.reference, Reference::Rows) { 3 } else { usize::MAX };
        while left > 0 && self.fetch(test, random, seen) != Report::NONE {
            left -= 1;
        }
    }

    /// The same bytes in both are no longer what calls wrote.
    fn damage(&mut self, random: &mut Random, seen: &mut Seen) {
        damage::rows(random, &mut self.rows[0], self.window);
        self.rows[1] = self.rows[0].clone();
        seen.damages += 1;
    }

    /// Another count, P or W in both. Gives the group's row as it was.
    fn resize(&mut self, random: &mut Random) -> Row {
        let was = self.rows[0][0];
        damage::sizes(random, &mut self.rows[0][0]);
        self.rows[1][0] = self.rows[0][0];
        was
    }
}

struct Tests {
    frames: Test,
    fetches: Test,
}

/// So many made-up hosts, and beside them one for each eight that begins receiving anew now and then. These have numbers of their own: what
/// comes up in the others is what it would be without them.
fn histories(tests: &mut Tests, random: &mut Random, seen: &mut Seen, kind: u32, damaged: bool, hosts: u64) {
    for _ in 0..hosts {
        history(tests, random, seen, kind, damaged, 1500, None);
    }
    for _ in 0..hosts / 8 {
        history(tests, &mut aside(seen.calls), seen, kind, damaged, 1500, Some(500));
    }
}

/// With `anews` receiving is begun anew after one frame time in so many.
fn history(tests: &mut Tests, random: &mut Random, seen: &mut Seen, kind: u32, damaged: bool, calls: u64, anews: Option<u64>) {
    let of_vc12 = kind == KIND_VC12;
    let window = if of_vc12 { random.one_of(&[32, 32, 33, 63, 64, 64, 100, 160, 512]) } else { random.one_of(&[16, 16, 17, 31, 32, 64, 64, 160, 2048]) };
    let wide = window == 2048 || window == 512;
    let ports = if wide { random.one_of(&[1, 2]) } else { random.one_of(&[1, 2, 2, 3, 4, 5, 9, 64]) };
    let payload = match kind {
        KIND_VC12 if !damaged => PAYLOAD_VC12 as usize,
        _ if ports < 5 && random.below(12) == 0 => 756,
        _ => 1 + random.below(5) as usize,
    };
    let mut both = Both::start(random, kind, ports, payload, window, damaged);
    let mut host = Host::new(random, kind, ports, window);
    // one frame time in so many is followed by fetches, and one frame answered 11 in so many
    let (fetches, full_fetches) = (random.one_of(&[1, 4, 20, 1000]), random.one_of(&[2, 3, 60]));
    // one frame in so many finds state bytes damaged before it, and one goes on from what the state says
    let (damages, follows) = (random.one_of(&[40, 400, 2000]), random.one_of(&[2, 50, 2000]));
    let end = seen.calls + calls * if wide { 4 } else { 1 } * if of_vc12 { 2 } else { 1 };
    while seen.calls < end {
        host.frame_time(random);
        for port in 0..ports {
            let mut frame = match host.frame(random, port, payload) {
                Some(frame) => frame,
                None => continue,
            };
            if damaged && random.below(damages) == 0 {
                both.damage(random, seen);
            }
            if damaged && random.below(follows) == 0 {
                frame.1 = damage::h4(random, &both.rows[0], port);
            }
            let (mut rows, mut store, mut to) = (both.rows[0].len(), both.stores[0].len(), port);
            match random.below(300) {
                0 => to = ports + random.one_of(&[0, 1, 192, 256 - ports, 65536 - ports, u32::MAX as usize - ports]),
                1 => store -= 1,
                2 if damaged => rows = random.one_of(&[0, 1, rows - 1, rows - 5]),
                _ => {}
            }
            let was = (damaged && random.below(200) == 0).then(|| both.resize(random));
            let mut answer = both.frame(&mut tests.frames, random, seen, to, &frame, rows, store);
            if let Some(group) = was {
                both.fetch(&mut tests.fetches, random, seen);
                (both.rows[0][0], both.rows[1][0]) = (group, group);
            }
            if answer == 11 && random.below(full_fetches) == 0 && both.fetch(&mut tests.fetches, random, seen) != Report::NONE {
                answer = both.frame(&mut tests.frames, random, seen, port, &frame, both.rows[0].len(), both.stores[0].len());
            }
            if !frame.0 && (answer != 11 || random.below(60) == 0) {
                host.go_on(port);
            }
            if answer == 11 && random.below(6) == 0 {
                host.switch(random, port);
            }
        }
        if anews.is_some_and(|one_in| random.below(one_in) == 0) {
            both.anew(&mut tests.frames, random, seen);
        }
        if random.below(fetches) == 0 {
            both.fetch_all(&mut tests.fetches, random, seen);
        }
    }
}

pub fn compare(count: &mut Count, hosts: u64) {
    let mut seen = Seen::default();
    let mut random = Random::new(10);
    let mut tests = Tests { frames: Test::new("frames of made-up hosts"), fetches: Test::new("fetches beside them") };
    histories(&mut tests, &mut random, &mut seen, KIND_H4, false, hosts);
    println!("seen\t{:?}", seen);
    tests.frames.end(count, &[0, 9, 10, 11, 12]);
    tests.fetches.end(count, &[0]);
    let events = [seen.begins, seen.stops, seen.joins_later, seen.turns].iter().all(|times| *times > 100) && seen.old_marks > 5;
    let steps = seen.breaks.iter().chain([&seen.odd_packets, &seen.fourth_breaks, &seen.second_odd_packets]).all(|times| *times > 100);
    let waits = [seen.held_off, seen.restoring, seen.fell, seen.restored].iter().all(|times| *times > 20);
    let read = &seen.read;
    let reads = [read.whole, read.refused, read.other, read.heard, read.silent, read.behind].iter().all(|times| *times > 100) && seen.anews > 20;
    count.note("all that is read of a receiver beside its ports comes to pass there", reads);
    count.note("all that can happen to a receiver happens there", events && steps && waits && seen.marks.iter().all(|times| *times > 200));
    count.note("reports of each cause come up", seen.causes.iter().all(|times| *times > 0));
    count.note("by each cause that blames a port one above the first comes up", read.blamed[1..7].iter().all(|times| *times > 0));

    let mut seen = Seen::default();
    let mut tests = Tests { frames: Test::new("frames on states that no call wrote"), fetches: Test::new("fetches from such states") };
    histories(&mut tests, &mut random, &mut seen, KIND_H4, true, hosts);
    println!("seen\t{:?}", seen);
    tests.frames.end(count, &[0, 9, 10, 11, 12]);
    tests.fetches.end(count, &[0]);
    count.note("reports of each mark come from such states", seen.marks.iter().all(|times| *times > 200) && seen.damages > 1000);

    states::compare(count, &mut random);
    starts(count, &mut random);
    fixed(count, hosts);
    vc12(count, hosts);
}

/// The same of groups of VC-12.
fn vc12(count: &mut Count, hosts: u64) {
    let mut seen = Seen::default();
    let mut random = Random::new(52);
    let mut tests = Tests { frames: Test::new("frames of made-up hosts of VC-12"), fetches: Test::new("fetches beside these, of VC-12") };
    histories(&mut tests, &mut random, &mut seen, KIND_VC12, false, hosts);
    println!("seen\t{:?}", seen);
    tests.frames.end(count, &[0, 9, 10, 11, 12]);
    tests.fetches.end(count, &[0]);
    let events = [seen.begins, seen.stops, seen.joins_later, seen.turns].iter().all(|times| *times > 100) && seen.old_marks > 5;
    let steps = [seen.other_counts, seen.early_starts, seen.left_out_starts].iter().all(|times| *times > 100);
    let waits = [seen.held_off, seen.restoring, seen.fell, seen.restored].iter().all(|times| *times > 20);
    count.note("all that can happen to a group of VC-12 happens there", events && steps && waits && seen.marks.iter().all(|times| *times > 200));

    let mut seen = Seen::default();
    let mut tests = Tests { frames: Test::new("frames on states of VC-12 that no call wrote"), fetches: Test::new("fetches from these, of VC-12") };
    histories(&mut tests, &mut random, &mut seen, KIND_VC12, true, hosts);
    println!("seen\t{:?}", seen);
    tests.frames.end(count, &[0, 9, 10, 11, 12]);
    tests.fetches.end(count, &[0]);
    count.note("reports of each mark come from such states of VC-12", seen.marks.iter().all(|times| *times > 200) && seen.damages > 1000);

    let mut test = Test::new("starts of a receiver of a kind, with sizes about VC-12's");
    for _ in 0..60_000 {
        let kind = random.one_of(&[1, 1, 1, 1, 1, 1, 0, 2, 3, 257]);
        let ports = random.one_of(&[1, 2, 3, 63, 64, 65, 0]);
        let (payload, window) = (random.one_of(&[136, 136, 136, 136, 135, 137, 1, 0]), random.one_of(&[32, 33, 64, 64, 511, 512, 31, 16, 513, 2048]));
        let store_bytes = ports as usize * window as usize * (payload as usize + 1) + random.below(16) as usize / 15;
        let right = rows_for(ports as usize);
        let mut by_reference = vec![[random.next() as u8; 16]; random.one_of(&[right, right, right, right, right + 1, right - 1, 0])];
        let mut by_card = by_reference.clone();
        let start = Start { kind, ports, payload, window, store_bytes, hold_off: &[], restore: &[] };
        let expected = start_rows(&start, &mut by_reference);
        let answer = card::receiver_start_as(&start, &mut by_card);
        test.case(expected, &(expected, by_reference), &(answer, by_card), &(&start, right));
    }
    test.end(count, &[0, 4, 9]);
}

/// The same of FIXED groups, of which no report is doubtful, and whose RS-Ack never turns.
fn fixed(count: &mut Count, hosts: u64) {
    let mut seen = Seen::default();
    let mut random = Random::new(42);
    let mut tests = Tests { frames: Test::new("frames of made-up hosts of fixed groups"), fetches: Test::new("fetches beside these") };
    histories(&mut tests, &mut random, &mut seen, KIND_FIXED, false, hosts);
    println!("seen\t{:?}", seen);
    tests.frames.end(count, &[0, 9, 10, 11, 12]);
    tests.fetches.end(count, &[0]);
    let events = [seen.begins, seen.stops, seen.joins_later, seen.second_odd_packets, seen.fourth_breaks].iter().all(|times| *times > 100);
    let waits = [seen.held_off, seen.restoring, seen.fell, seen.restored].iter().all(|times| *times > 20);
    let marks = [HELD, SURE].iter().all(|mark| seen.marks[usize::from(*mark)] > 1000);
    count.note("all that can happen to a fixed group happens there", events && waits && marks);
    count.note("no report of it is doubtful, and RS-Ack never turns", seen.marks[usize::from(DOUBTFUL)] == 0 && seen.turns == 0);

    let mut seen = Seen::default();
    let mut tests = Tests { frames: Test::new("frames on states of fixed groups that no call wrote"), fetches: Test::new("fetches from these") };
    histories(&mut tests, &mut random, &mut seen, KIND_FIXED, true, hosts);
    println!("seen\t{:?}", seen);
    tests.frames.end(count, &[0, 9, 10, 11, 12]);
    tests.fetches.end(count, &[0]);
    let marks = [HELD, SURE].iter().all(|mark| seen.marks[usize::from(*mark)] > 200);
    count.note("held and sure reports come from such states", marks && seen.damages > 1000);
}

/// Starts with any numbers and lengths.
fn starts(count: &mut Count, random: &mut Random) {
    let mut test = Test::new("starts of a receiver");
    for _ in 0..60_000 {
        let number = |random: &mut Random, around: &[u32]| match random.below(12) {
            0 => random.one_of(&[0, 256, 65536, 1 << 31, u32::MAX]),
            1 => random.below(4096) as u32,
            _ => random.one_of(around),
        };
        let ports = number(random, &[1, 2, 5, 63, 64, 65]);
        let payload = number(random, &[1, 2, 756, 2339, 2340, 2341]);
        let window = number(random, &[15, 16, 17, 2047, 2048, 2049]);
        let right = rows_for((ports % 66) as usize);
        let mut by_reference = vec![[random.next() as u8; 16]; random.one_of(&[right, right, right, right + 1, right - 1, 0])];
        let mut by_card = by_reference.clone();
        let store = (ports as usize).wrapping_mul(window as usize).wrapping_mul(payload as usize + 1);
        let store = random.one_of(&[store, store, store, store.wrapping_add(1), store.wrapping_sub(1), 0]);
        let expected = rows::start(&mut by_reference, ports, payload, window, store);
        let answer = card::receiver_start(ports, payload, window, store, &mut by_card);
        test.case(expected, &(expected, by_reference), &(answer, by_card), &(ports, payload, window, store, right));
    }
    test.end(count, &[0, 4, 9]);

    let mut test = Test::new("starts of a receiver with times");
    for _ in 0..60_000 {
        let ports = random.one_of(&[1, 1, 2, 2, 3, 3, 5, 63, 64, 65, 0]);
        let (payload, window) = (random.one_of(&[1, 2, 3, 3, 4, 2341]), random.one_of(&[16, 16, 17, 40, 40, 2049]));
        let list = |random: &mut Random| -> Vec<u32> {
            let right = ports as usize;
            let length = random.one_of(&[0, 0, right, right, right, right, right, right, right, right + 1, right.saturating_sub(1)]);
            let any = random.below(5001) as u32;
            let mut list: Vec<u32> = (0..length).map(|_| random.one_of(&[0, 1, 5000, any])).collect();
            if length > 0 && random.below(8) == 0 {
                list[random.below(length as u64) as usize] = random.one_of(&[5001, 5001, 65536, 65535, 1 << 31, u32::MAX]);
            }
            list
        };
        let (hold_off, restore) = (list(random), list(random));
        let kind = random.one_of(&[0, 0, 0, 0, 0, 0, 2, 2, 2, 2, 1, 3, 256, 258, u32::MAX]);
        let store_bytes = ports as usize * window as usize * (payload as usize + 1) + random.below(16) as usize / 15;
        let right = rows_for(ports as usize);
        let mut by_reference = vec![[random.next() as u8; 16]; random.one_of(&[right, right, right, right, right, right, right + 1, right - 1, 0])];
        let mut by_card = by_reference.clone();
        let start = Start { kind, ports, payload, window, store_bytes, hold_off: &hold_off, restore: &restore };
        let expected = start_rows(&start, &mut by_reference);
        let answer = card::receiver_start_as(&start, &mut by_card);
        test.case(expected, &(expected, by_reference), &(answer, by_card), &(&start, right));
    }
    test.end(count, &[0, 4, 9]);
}
