//! The step rule: what keeps a port in step and what loses it, and what one hit on a running port costs.

use crate::count::Count;
use crate::limits::{begun_at, in_step_at};
use crate::source::{h4, packet, payload, Lent, Says, SAYS_IDLE};
use reference::packet::{crc, write, Fields, EOS, IDLE, NORM};
use reference::receiver::{epoch_of, first_tag, Flag, Port, Report, HELD, STATE_IDLE, STATE_OK, SURE, TAGS};

pub fn check(count: &mut Count) {
    count.note("P5: tag 4095 then 0 keeps step, and then 1 does, with tag 0 counted", over_4095());
    count.note("4095, then frames that carry 1, 2, 3, 4: 0 0 0 12", fourth_break());
    count.note("a right frame sets the breaks to none", breaks_in_a_row());
    count.note("a fourth break of MFI1 0 is the first of a new 32, an earlier one is not", starts_anew());
    count.note("a frame answered 11 is no break", outside_is_no_break());
    count.note("a switch by one multiframe loses step with the second packet's end", switches());
    count.note("a switch by one multiframe at any place loses step 23 to 47 frames later", switches_anywhere());
    count.note("step is lost exactly so, on any record and frame", lost_exactly_so());
    count.note("a port that has not joined is judged alike", unjoined_alike());
    count.note("a packet with another number is no good one for states and RS-Ack", other_number());
    count.note("one hit in any bit of any frame costs one epoch at most", one_hit());
    count.note("three broken frames in a row cost their packets alone", three_broken());
    count.note("a switch by whole multiframes, at any place: one epoch may be sure and wrong, with a flagged frame none", switched_paths());
}

/// Step, breaks in a row and the tag to come.
fn record(lent: &Lent) -> (bool, u8, usize) {
    let p = &lent.receiver.ports[0];
    (p.in_step(), p.breaks, p.next_tag())
}

fn over_4095() -> bool {
    let mut kept = in_step_at(4095);
    let mut broken = kept.clone();
    let right = kept.hand_tag(0, 0, SAYS_IDLE) == 0 && record(&kept) == (true, 0, 1);
    let counted = broken.hand_tag(0, 1, SAYS_IDLE) == 0 && record(&broken) == (true, 1, 1);
    // the next frame carries 1 again, which the own count says too
    right && counted && broken.hand_tag(0, 1, SAYS_IDLE) == 0 && record(&broken) == (true, 0, 2)
}

fn fourth_break() -> bool {
    let mut lent = in_step_at(4095);
    let taken = (1..4).all(|k| lent.hand_tag(0, k, SAYS_IDLE) == 0 && record(&lent) == (true, k as u8, k));
    let lost = lent.hand_tag(0, 4, SAYS_IDLE) == 12 && record(&lent) == (false, 0, 0);
    taken && lost && lent.receiver.ports[0].count == 0
}

fn breaks_in_a_row() -> bool {
    let mut lent = in_step_at(100);
    (101..1000).all(|tag| {
        let carried = if tag % 4 == 0 { tag } else { tag + 5 };
        lent.hand_tag(0, carried, SAYS_IDLE) == 0 && record(&lent) == (true, [0, 1, 2, 3][tag % 4], tag + 1)
    })
}

fn starts_anew() -> bool {
    // own tags 101, 102, 103 and 104, with frames that carry MFI1 0
    let mut lent = in_step_at(100);
    let amid = (0..3).all(|_| lent.hand_tag(0, 1600, SAYS_IDLE) == 0);
    let fourth = lent.hand_tag(0, 1600, SAYS_IDLE) == 12 && lent.receiver.ports[0].count == 1;
    let answers = lent.hand_run(0, 1601, 31, SAYS_IDLE);
    let anew = answers[..30].iter().all(|a| *a == 12) && answers[30] == 0 && record(&lent) == (true, 0, 1632);
    // and after one such frame the own count goes on
    let mut lent = in_step_at(100);
    let one = lent.hand_tag(0, 1600, SAYS_IDLE) == 0 && lent.hand_tag(0, 102, SAYS_IDLE) == 0;
    amid && fourth && anew && one && record(&lent) == (true, 0, 103)
}

fn outside_is_no_break() -> bool {
    let (mut lent, first) = begun_at(100, 2, 16, 2);
    lent.hand_run(0, 101, first + 16 - 101, SAYS_IDLE);
    lent.hand_run(1, 101, first + 16 - 101, SAYS_IDLE);
    // the first epoch is gathered, and the window goes on from here
    let gathered = lent.receiver.gathered.is_set();
    lent.hand_run(1, first + 16, 16, SAYS_IDLE);
    lent.hand_run(0, first + 16, 14, SAYS_IDLE);
    let broken = |lent: &mut Lent| lent.hand_tag(0, 12, SAYS_IDLE);
    let two = broken(&mut lent) == 0 && broken(&mut lent) == 0 && lent.receiver.ports[0].breaks == 2;
    let before = lent.clone();
    let outside = broken(&mut lent) == 11 && broken(&mut lent) == 11 && lent == before;
    let report = lent.fetch() != Report::NONE;
    let third = broken(&mut lent) == 0 && lent.receiver.ports[0].breaks == 3;
    // 12 comes before 11
    gathered && two && outside && report && third && broken(&mut lent) == 12
}

/// A port in step before an epoch's start whose frames then are those of this many tags later, with these bits of the first
/// packets changed; how many frames are answered 0 before the first 12.
fn frames_kept(by: usize, hits: &[u64]) -> usize {
    let epoch_start = 16 * 20 + 8;
    let mut lent = in_step_at(epoch_start - 1);
    (0..200)
        .take_while(|k| {
            let hit = hits.get(k / 16).map_or(0, |bits| (bits >> (4 * (k % 16)) & 15) as u8);
            lent.hand(0, false, h4(epoch_start + by + k, SAYS_IDLE) ^ hit << 4, &[0]) == 0
        })
        .count()
}

fn switches() -> bool {
    // CRC nibbles are the last two; a damaged packet starts the row anew, wherever it stands
    let damaged = 1 << 63;
    [16, 32, 160, TAGS - 16].iter().all(|by| {
        frames_kept(*by, &[]) == 31
            && frames_kept(*by, &[damaged]) == 47
            && frames_kept(*by, &[0, damaged]) == 63
            && frames_kept(*by, &[damaged, damaged, 0, damaged]) == 95
    }) && frames_kept(0, &[]) == 200
}

/// The frames of a switch at this place up to the 12. MST, which stands first in a packet, is one in all packets or is not.
fn frames_to_12(place: usize, alike: bool) -> usize {
    let start = 16 * 20 + 8;
    let mut lent = in_step_at(start - 1);
    let sent = |tag: usize| {
        let epoch = epoch_of(tag).into();
        let fields = Fields { epoch, word: IDLE, gid: 0, mst: if alike { 255 } else { epoch * 16 % 256 }, rs_ack: 0, sq: 255, reserved: 0 };
        let mut h4 = [0; 16];
        assert_eq!(write(&fields, &mut h4), 0);
        h4[(tag + 8) % 16]
    };
    let lost = (0..200).find(|k| lent.hand(0, false, sent(start + k + if *k < place { 0 } else { 16 }), &[0]) == 12);
    lost.map_or(0, |k| k + 1 - place)
}

fn switches_anywhere() -> bool {
    let frames = |alike: bool| (0..16).map(|place| frames_to_12(place, alike)).collect::<Vec<_>>();
    // the packet that the switch falls into is whole, with the other number, or its CRC is wrong
    let expected = |whole: usize| (0..16).map(|place| if place < whole { 32 - place } else { 48 - place }).collect::<Vec<_>>();
    frames(true) == expected(10) && frames(false) == expected(1)
}

/// A record in step: any own tag, breaks, odd and row.
fn in_step_record(next: usize, breaks: u8, odd: bool, gathering: [u8; 16]) -> Lent {
    let mut lent = Lent::start(2, 1, 16);
    let p: &mut Port = &mut lent.receiver.ports[0];
    (p.had, p.count, p.next, p.breaks, p.odd, p.gathering) = (Flag(1), 32, next as u16, breaks, Flag::from(odd), gathering);
    lent
}

/// The nibbles of a packet with this MFI2, its CRC right or not.
fn nibbles(mfi2: u8, right: bool) -> [u8; 16] {
    let mut nibbles = packet(mfi2, SAYS_IDLE).map(|b| b >> 4);
    let check = crc(&nibbles) ^ u8::from(!right);
    (nibbles[14], nibbles[15]) = (check >> 4, check & 15);
    nibbles
}

/// The same with another word, FIXED or an unassigned one too, and the CRC that goes with it.
fn with_word(mut nibbles: [u8; 16], word: u8) -> [u8; 16] {
    nibbles[10] = word;
    let check = crc(&nibbles);
    (nibbles[14], nibbles[15]) = (check >> 4, check & 15);
    nibbles
}

fn lost_exactly_so() -> bool {
    let mut cases = 0;
    let mut right = true;
    for next in [0, 1, 2, 7, 8, 15, 256 + 16 + 7, 4080, 4081, 4087, 4095] {
        let epoch = (next / 16) as u8;
        for (breaks, odd) in (0..4).flat_map(|breaks| [(breaks, false), (breaks, true)]) {
            let other = nibbles(epoch ^ 1, true);
            for row in [nibbles(epoch, true), other, nibbles(epoch ^ 0x80, true), nibbles(epoch ^ 1, false), with_word(other, 0), with_word(other, 4)] {
                for carried in 0..=255u8 {
                    let mut lent = in_step_record(next, breaks, odd, row);
                    let answer = lent.hand(0, false, carried, &[0]);
                    let p = &lent.receiver.ports[0];
                    let (nibble, mfi1) = (usize::from(carried >> 4), usize::from(carried & 15));
                    let is_break = mfi1 != next % 16 || next % 16 == 0 && nibble != next / 256 || next % 16 == 1 && nibble != next / 16 % 16;
                    let mut ended = row;
                    ended[15] = carried >> 4;
                    let checked = crc(&ended) == ended[14] << 4 | ended[15];
                    let odd_now = next % 16 == 7 && checked && ended[8] << 4 | ended[9] != epoch;
                    let lost = is_break && breaks == 3 || odd_now && odd;
                    let expected = if !lost {
                        let odd_after = if next % 16 == 7 { odd_now } else { odd };
                        (0, 32, (next + 1) % TAGS, if is_break { breaks + 1 } else { 0 }, odd_after)
                    } else if mfi1 == 0 {
                        (12, 1, nibble * 256 + 1, 0, false)
                    } else {
                        (12, 0, 0, 0, false)
                    };
                    right &= (answer, p.count, p.next_tag(), p.breaks, p.odd.is_set()) == expected;
                    cases += 1;
                }
            }
        }
    }
    right && cases == 11 * 8 * 6 * 256
}

fn unjoined_alike() -> bool {
    // the third port is in step far from the window, and never joins
    let (mut lent, first) = begun_at(100, 2, 16, 3);
    let far = (first + 2048) / 16 * 16;
    lent.hand_run(2, far, 40, SAYS_IDLE);
    let unjoined = lent.receiver.ports[2].in_step() && !lent.receiver.ports[2].joined.is_set();
    let answers = lent.hand_run(2, far + 40 + 16, 32, SAYS_IDLE);
    unjoined && answers[..31].iter().all(|a| *a == 0) && answers[31] == 12
}

/// One port sends IDLE, and in the packet of epoch 6 EOS, under its own number or another. States and RS-Ack go by good packets.
fn other_number() -> bool {
    let says = Says { word: EOS, sq: 0, gid: 0 };
    let told = |later: usize| {
        let mut lent = Lent::start(1, 2, 64);
        lent.hand_run(0, 16, 72, SAYS_IDLE);
        let before = lent.fetch().epoch == 5;
        let taken = lent.hand_run(0, 88 + 16 * later, 16, says).iter().all(|a| *a == 0);
        let report = lent.fetch();
        let state = (lent.receiver.ports[0].word, lent.receiver.ports[0].state, lent.receiver.reply(0));
        lent.hand_run(0, 104, 16, SAYS_IDLE);
        let next = lent.fetch();
        (before && taken && (report.mark, report.epoch, next.epoch) == (SURE, 6, 7), state, next.mark)
    };
    told(0) == (true, (EOS as u8, STATE_OK, (0x7F, 1)), SURE) && told(1) == (true, (IDLE as u8, STATE_IDLE, (255, 0)), HELD)
}

const PORTS: usize = 3;
/// The epoch with whose first frame a run's frames are counted from 0.
const FIRST_EPOCH: u8 = 190;
const SENDS: [Says; PORTS] = [Says { word: NORM, sq: 1, gid: 1 }, Says { word: EOS, sq: 2, gid: 1 }, Says { word: NORM, sq: 0, gid: 1 }];

/// A run of three ports that carry payload: all reports with their bytes, states and replies, and the receiver at the end.
/// Frame k of port 1 carries what the function makes of its H4 byte; k counts from an epoch's start on, and the ports are
/// readable by then.
fn run(epochs: usize, of: &dyn Fn(usize, u8) -> Option<(u8, usize)>) -> (Vec<Told>, Lent, Vec<u8>) {
    let mut lent = Lent::start(PORTS, 2, 64);
    let start = first_tag(FIRST_EPOCH);
    let mut told = Vec::new();
    let mut answers = Vec::new();
    for tag in start - 72..start + 16 * epochs {
        for port in 0..PORTS {
            let sent = h4(tag, SENDS[port]);
            let (carried, from) = match tag.checked_sub(start).filter(|_| port == 1) {
                Some(k) => match of(k, sent) {
                    Some((carried, by)) => (carried, tag + by),
                    None => {
                        answers.push(lent.hand_flag(port));
                        continue;
                    }
                },
                None => (sent, tag),
            };
            let answer = lent.hand(port, false, carried, &payload(port, from % TAGS, 2));
            if tag >= start && port == 1 {
                answers.push(answer);
            }
        }
        for report in lent.fetch_all() {
            let bytes = lent.output[..report.bytes].to_vec();
            told.push(Told { report, bytes, ports: lent.receiver.ports(), reply: lent.receiver.reply(0) });
        }
    }
    (told, lent, answers)
}

#[derive(Clone, PartialEq, Debug)]
struct Told {
    report: Report,
    bytes: Vec<u8>,
    ports: Vec<reference::receiver::Shown>,
    reply: (u8, u8),
}

/// Whether two runs tell the same but for the epochs in this list, which are held in the first.
fn alike_but(told: &[Told], plain: &[Told], held: &[u8]) -> bool {
    told.len() == plain.len()
        && told.iter().zip(plain).all(|(t, p)| {
            let same = (&t.ports, t.reply, t.report.epoch) == (&p.ports, p.reply, p.report.epoch);
            same && if held.contains(&t.report.epoch) { t.report.mark == HELD && t.bytes.is_empty() } else { t == p }
        })
}

fn one_hit() -> bool {
    let (plain, end, _) = run(8, &|_, h4| Some((h4, 0)));
    let sure = plain.iter().all(|t| t.report.mark == SURE) && plain.iter().filter(|t| t.report.x == 3).count() >= 8;
    sure && (0..48).all(|frame| {
        (0..8).all(|bit| {
            let (told, at_end, answers) = run(8, &|k, h4| Some((h4 ^ u8::from(k == frame) << bit, 0)));
            // a hit of MFI1 costs nothing: the nibble goes to its own place
            let ruled = (FIRST_EPOCH + 1).wrapping_add((frame / 16) as u8);
            let held: &[u8] = if bit < 4 { &[] } else { &[ruled] };
            answers.iter().all(|a| *a == 0) && alike_but(&told, &plain, held) && at_end.receiver == end.receiver
        })
    })
}

fn three_broken() -> bool {
    let (plain, end, _) = run(8, &|_, h4| Some((h4, 0)));
    (0..48).all(|first| {
        [0x00, 0x5A, 0xF0, 0xFF].iter().all(|bytes| {
            let broken = |k: usize, more: usize| (first..first + 3 + more).contains(&k);
            // MFI1 differs in each of them, and so do some nibbles
            let change = |k: usize, more: usize| if broken(k, more) { bytes ^ (k as u8) << 4 & 0x70 | 3 } else { 0 };
            let (told, at_end, answers) = run(8, &|k, h4| Some((h4 ^ change(k, 0), 0)));
            let damaged = |k: usize| change(k, 0) >> 4 != 0;
            let mut held: Vec<u8> = (first..first + 3).filter(|k| damaged(*k)).map(|k| (FIRST_EPOCH + 1).wrapping_add((k / 16) as u8)).collect();
            held.dedup();
            let three = answers.iter().all(|a| *a == 0) && alike_but(&told, &plain, &held) && at_end.receiver == end.receiver;
            let (_, _, answers) = run(8, &|k, h4| Some((h4 ^ change(k, 1), 0)));
            three && answers[..first + 3].iter().all(|a| *a == 0) && answers[first + 3] == 12
        })
    })
}

/// How many sure reports are not what the plain run tells, where the frames of port 1 from one on are those of so many tags
/// later; with a flagged frame between, or without.
fn wrong_and_sure(from: usize, by: usize, flagged: bool) -> usize {
    let (plain, _, _) = run(12, &|_, h4| Some((h4, 0)));
    let start = first_tag(FIRST_EPOCH);
    let (told, _, _) = run(12, &|k, h4_sent| match k {
        k if k < from => Some((h4_sent, 0)),
        k if k == from && flagged => None,
        k => Some((h4(start + k + by, SENDS[1]), by)),
    });
    let right = |t: &Told| plain.iter().any(|p| (p.report, &p.bytes) == (t.report, &t.bytes));
    told.iter().filter(|t| t.report.mark == SURE && !right(t)).count()
}

/// By whole multiframes at any of the sixteen places, by one frame at the last three. Where the packet's last nibble is the same
/// in both, as from epoch 191 to 192, and the switch falls on it, that packet comes right and the next epoch is wrong too.
fn switched_paths() -> bool {
    let places =
        |epoch: usize, by: usize, flagged: bool| -> Vec<usize> { (16 * epoch..16 * epoch + 16).map(|from| wrong_and_sure(from, by, flagged)).collect() };
    let one_frame: Vec<usize> = (0..16).map(|place| usize::from(place >= 13)).collect();
    let without = places(4, 16, false) == [1; 16] && places(4, TAGS - 16, false) == [1; 16] && places(4, 1, false) == one_frame;
    let twice = places(1, 16, false)[..15] == [1; 15] && places(1, 16, false)[15] == 2;
    let with = [1, 16, 32, TAGS - 16].iter().all(|by| places(1, *by, true).iter().chain(&places(4, *by, true)).all(|n| *n == 0));
    without && twice && with
}
