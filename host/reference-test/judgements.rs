//! Which epochs are held, doubtful and sure; member states and reply.

use crate::count::Count;
use crate::random::Random;
use crate::source::{packet, Lent, Says, SAYS_IDLE};
use reference::packet::{crc, ADD, DNU, EOS, IDLE, NORM};
use reference::receiver::{Report, DOUBTFUL, HELD, STATE_FAIL, STATE_IDLE, STATE_OK, SURE, TAGS};

/// What a port brings in the epoch that is gathered, whose packets rule the first one reported.
#[derive(Clone, Copy, Debug)]
enum Brings {
    Packet(Says),
    /// A word that no sender writes, with its right CRC.
    Word(u8),
    /// A packet with this bit changed.
    Damaged(Says, u8),
    /// The port is failed.
    Nothing,
    /// The packet, but then not all frames of the epoch that it rules.
    Lacks(Says),
}

use Brings::{Damaged, Lacks, Nothing, Packet, Word};

pub fn says(word: u32, sq: u32) -> Says {
    Says { word, sq, gid: 0 }
}

fn h4_bytes(epoch: u8, brings: Brings) -> [u8; 16] {
    match brings {
        Packet(says) | Lacks(says) => packet(epoch, says),
        Nothing => [0; 16],
        Damaged(says, bit) => {
            let mut h4 = packet(epoch, says);
            h4[usize::from(bit / 4)] ^= 0x10 << (bit % 4);
            h4
        }
        Word(word) => {
            let mut nibbles = packet(epoch, SAYS_IDLE).map(|b| b / 16);
            nibbles[10] = word;
            (nibbles[14], nibbles[15]) = (0, 0);
            let check = crc(&nibbles);
            (nibbles[14], nibbles[15]) = (check / 16, check % 16);
            std::array::from_fn(|k| nibbles[k] * 16 + ((k + 8) % 16) as u8)
        }
    }
}

const FIRST_EPOCH: usize = 254;

/// Ports that bring these packets, up to where the first report is due.
fn up_to_report(brings: &[Brings]) -> Lent {
    let mut lent = Lent::start(brings.len() + 1, 2, 64);
    // one port more, IDLE, so that some port is always in step
    let all: Vec<Brings> = brings.iter().copied().chain([Packet(SAYS_IDLE)]).collect();
    let gathered = FIRST_EPOCH * 16 - 8;
    let last_lacks = |tag: usize, b: &Brings| tag == gathered + 30 && matches!(b, Lacks(_));
    for tag in gathered - 40..gathered + 32 {
        for (port, b) in all.iter().enumerate() {
            if matches!(b, Nothing) || last_lacks(tag, b) {
                lent.hand_flag(port);
            } else if (gathered..gathered + 16).contains(&tag) {
                let h4 = h4_bytes(FIRST_EPOCH as u8, *b)[tag - gathered];
                assert_eq!(lent.hand(port, false, h4, &[port as u8, tag as u8]), 0);
            } else {
                lent.hand_tag(port, tag % TAGS, SAYS_IDLE);
            }
        }
    }
    assert!(lent.receiver.gathered.is_set());
    lent
}

fn report(brings: &[Brings]) -> Report {
    let mut lent = up_to_report(brings);
    let reports = lent.fetch_all();
    assert_eq!((reports.len(), reports[0].epoch), (1, FIRST_EPOCH as u8 + 1));
    reports[0]
}

fn marked(brings: &[Brings], mark: u8, x: usize) -> bool {
    let r = report(brings);
    (r.mark, r.x, r.bytes) == (mark, x, x * 32)
}

pub fn check(count: &mut Count) {
    let (norm0, norm1, eos0, eos1, eos2) = (says(NORM, 0), says(NORM, 1), says(EOS, 0), says(EOS, 1), says(EOS, 2));
    let dnu = |sq| Packet(says(DNU, sq));
    count.note("sure", {
        marked(&[], SURE, 0)
            && marked(&[Packet(eos0)], SURE, 1)
            && marked(&[Packet(eos2), Packet(norm0), Packet(norm1)], SURE, 3)
            && marked(&[Packet(eos2), dnu(0), dnu(1)], SURE, 1)
            && marked(&[Packet(eos0), dnu(1)], SURE, 1)
            && marked(&[dnu(1), dnu(0)], SURE, 0)
            && marked(&[Packet(says(ADD, 1)), Packet(says(ADD, 1)), Packet(eos0)], SURE, 1)
            && marked(&[Packet(Says { gid: 1, ..eos0 })], SURE, 1)
    });
    count.note("held for a refused packet", {
        (0..64).all(|bit| (32..40).contains(&bit) || marked(&[Packet(eos0), Damaged(SAYS_IDLE, bit)], HELD, 0))
            && [0, 4, 6, 7, 8, 9, 10, 11, 12, 13, 14].iter().all(|word| marked(&[Packet(eos0), Word(*word)], HELD, 0))
            && marked(&[Packet(eos0), Word(5)], SURE, 1)
    });
    count.note("held for a missing frame of an active port alone", {
        marked(&[Packet(norm0), Lacks(eos1)], HELD, 0)
            && marked(&[Packet(eos0), Lacks(says(DNU, 1))], SURE, 1)
            && marked(&[Packet(eos0), Lacks(SAYS_IDLE)], SURE, 1)
            && marked(&[Packet(eos0), Lacks(says(ADD, 1))], SURE, 1)
    });
    count.note("held for repeated numbers of active and DNU ports", {
        marked(&[Packet(norm0), Packet(norm0), Packet(eos1)], HELD, 0)
            && marked(&[Packet(eos0), dnu(0)], HELD, 0)
            && marked(&[dnu(0), dnu(0)], HELD, 0)
            && marked(&[Packet(eos0), Packet(eos0)], HELD, 0)
            && marked(&[Packet(norm0), Packet(norm0), Nothing], HELD, 0)
    });
    count.note("held for another GID, but for IDLE ports", {
        let other = |s: Says| Packet(Says { gid: 1, ..s });
        marked(&[Packet(norm0), other(eos1)], HELD, 0)
            && marked(&[Packet(eos0), other(says(ADD, 1))], HELD, 0)
            && marked(&[Packet(eos0), other(says(DNU, 1))], HELD, 0)
            && marked(&[other(says(ADD, 1)), Packet(says(ADD, 1))], HELD, 0)
            && marked(&[Packet(eos0), other(SAYS_IDLE)], SURE, 1)
    });
    count.note("held for EOS elsewhere than on the highest active port alone", {
        marked(&[Packet(norm0)], HELD, 0)
            && marked(&[Packet(eos0), Packet(norm1)], HELD, 0)
            && marked(&[Packet(eos0), Packet(eos1)], HELD, 0)
            && marked(&[Packet(norm0), Nothing], DOUBTFUL, 1)
            && marked(&[Packet(eos0), Packet(norm1), Nothing], HELD, 0)
            && marked(&[Packet(eos0), Packet(eos1), Nothing], HELD, 0)
    });
    count.note("doubtful", {
        marked(&[Packet(eos0), Nothing], DOUBTFUL, 1)
            && marked(&[Nothing], DOUBTFUL, 0)
            && marked(&[Packet(norm0), Packet(eos2)], DOUBTFUL, 2)
            && marked(&[Packet(eos1)], DOUBTFUL, 1)
            && marked(&[dnu(1)], DOUBTFUL, 0)
            && marked(&[Packet(eos0), dnu(200)], DOUBTFUL, 1)
    });
    count.note("judgements on any packets", any_packets());
    count.note("member states and MST", states());
    count.note("RS-Ack turns with the list, and where ADD becomes IDLE", rs_ack());
}

/// The judgement in another form: 01's sentences one by one, over ports and not over lists.
fn expected(brings: &[Brings]) -> u8 {
    let n = brings.len();
    let good = |i: usize| match brings[i] {
        Packet(says) | Lacks(says) => Some(says),
        _ => None,
    };
    let active = |i: usize| good(i).map_or(false, |s| s.word == NORM || s.word == EOS);
    let end = |i: usize| good(i).map_or(false, |s| s.word == EOS);
    let counted = |i: usize| active(i) || good(i).map_or(false, |s| s.word == DNU);
    let sq = |i: usize| good(i).map_or(999, |s| s.sq);
    let missing = brings.iter().any(|b| matches!(b, Nothing));
    let mut held = brings.iter().any(|b| matches!(b, Word(_) | Damaged(..)));
    for i in 0..n {
        held |= active(i) && matches!(brings[i], Lacks(_));
        for j in 0..i {
            held |= counted(i) && counted(j) && sq(i) == sq(j);
            let speak = |k: usize| good(k).filter(|s| s.word != IDLE).map(|s| s.gid);
            held |= speak(i).is_some() && speak(j).is_some() && speak(i) != speak(j);
        }
    }
    let highest = |i: usize| active(i) && (0..n).all(|j| !active(j) || sq(j) <= sq(i));
    let some_active = (0..n).any(active);
    let right = (0..n).all(|i| end(i) == highest(i));
    let none = !(0..n).any(end);
    held |= some_active && !right && !(none && missing);
    let total = (0..n).filter(|i| counted(*i)).count() as u32;
    let exact = (0..n).all(|i| !counted(i) || sq(i) < total);
    if held {
        HELD
    } else if missing || !exact {
        DOUBTFUL
    } else {
        SURE
    }
}

fn any_packets() -> bool {
    let mut random = Random::new(22);
    let mut seen = [0; 4];
    let right = (0..3000).all(|_| {
        let ports = 1 + random.below(4) as usize;
        let mut brings: Vec<Brings> = (0..ports)
            .map(|i| {
                let word = if i + 1 == ports { EOS } else { random.one_of(&[NORM, NORM, NORM, DNU]) };
                Packet(says(word, i as u32))
            })
            .collect();
        for _ in 0..random.below(3) {
            let changed = random.below(ports as u64) as usize;
            let gid = u32::from(random.below(8) == 0);
            let any = Says { word: random.one_of(&[ADD, NORM, EOS, IDLE, DNU]), sq: random.below(5) as u32, gid };
            brings[changed] = match random.below(12) {
                0 => Damaged(any, random.below(32) as u8),
                1 => Word(0),
                2..=3 => Nothing,
                4 => Lacks(any),
                _ => Packet(any),
            };
        }
        let mark = report(&brings).mark;
        seen[usize::from(mark)] += 1;
        mark == expected(&brings)
    });
    right && seen[1..].iter().all(|times| *times > 300)
}

/// Ports that send these packets from now on, over a whole epoch and its report.
pub fn epoch(lent: &mut Lent, tag: &mut usize, packets: &[Option<Says>]) {
    for _ in 0..16 {
        for (port, says) in packets.iter().enumerate() {
            match says {
                Some(says) => lent.hand_tag(port, *tag % TAGS, *says),
                None => lent.hand_flag(port),
            };
        }
        *tag += 1;
    }
    lent.fetch_all();
}

/// A group after its first report, whose ports are all IDLE; and the tag that comes next.
fn idle_group(ports: usize) -> (Lent, usize) {
    let mut lent = Lent::start(ports, 1, 48);
    let mut tag = 8;
    for _ in 0..5 {
        epoch(&mut lent, &mut tag, &vec![Some(SAYS_IDLE); ports]);
    }
    (lent, tag)
}

fn states() -> bool {
    let (mut lent, mut tag) = idle_group(4);
    let shown = |lent: &Lent| -> Vec<(u8, u8)> { lent.receiver.ports().iter().map(|p| (p.state, p.number)).collect() };
    let (idle, fail, ok) = ((STATE_IDLE, 255), |q| (STATE_FAIL, q), |q| (STATE_OK, q));
    let at_first = shown(&lent) == [idle; 4] && lent.receiver.reply(0) == (0xFF, 0);
    let add = |sq: u32| Some(says(ADD, sq));
    let nothing = Some(SAYS_IDLE);
    // two ask for one number: the lower port has it; a number of 64 or more is FAIL
    epoch(&mut lent, &mut tag, &[nothing, add(5), add(5), add(64)]);
    let first = shown(&lent) == [idle, ok(5), fail(5), fail(64)] && lent.receiver.reply(0).0 == 0b1111_1011;
    let far = lent.receiver.reply(8).0 == 0xFF && lent.receiver.reply(32).0 == 0b1111_1011;
    // a lower port asks for it as well: who had it under this number chooses first
    epoch(&mut lent, &mut tag, &[add(5), add(5), add(5), add(63)]);
    let second = shown(&lent) == [fail(5), ok(5), fail(5), ok(63)] && lent.receiver.reply(7).0 == 0xFE;
    // it moves on, and so has no claim from before on its new number
    epoch(&mut lent, &mut tag, &[add(6), add(6), add(5), add(63)]);
    let third = shown(&lent) == [ok(6), fail(6), ok(5), ok(63)] && lent.receiver.reply(0).0 == 0b1111_1001;
    // who fails is no candidate and keeps its last good number
    epoch(&mut lent, &mut tag, &[None, add(6), None, add(63)]);
    let fourth = shown(&lent) == [fail(6), ok(6), fail(5), ok(63)];
    at_first && first && far && second && third && fourth
}

fn rs_ack() -> bool {
    let (mut lent, mut tag) = idle_group(2);
    let send = |word: u32, sq: u32| Some(says(word, sq));
    let idle = Some(SAYS_IDLE);
    let steps = [
        ([send(ADD, 0), idle], false),
        ([send(ADD, 0), send(ADD, 1)], false),
        ([send(NORM, 0), send(ADD, 1)], true),
        ([send(EOS, 0), send(ADD, 1)], false),
        ([send(EOS, 0), idle], true),  // ADD became IDLE
        ([send(DNU, 0), idle], false), // all alike
        ([send(DNU, 0), send(ADD, 1)], false),
        ([send(EOS, 0), send(ADD, 1)], false),
        ([send(EOS, 0), send(ADD, 2)], false),
        ([idle, send(EOS, 0)], true), // the same number of another port
        ([idle, send(EOS, 1)], true),
        ([idle, None], false), // a failed port keeps its last good packet
        ([None, None], false),
    ];
    steps.iter().all(|(packets, turns)| {
        let before = lent.receiver.reply(0).1;
        epoch(&mut lent, &mut tag, packets);
        (lent.receiver.reply(0).1 != before) == *turns
    })
}
