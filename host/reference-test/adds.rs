//! An add that is sure to finish (request 2026-13): sender and receiver joined, whole epochs out and back, other ports that
//! fail and come back, and times. At each start, in this order: what is due has been fetched, the back packet that has
//! wholly come is handed over, the reply is read, and the epoch starts.

use crate::count::Count;
use crate::random::Random;
use crate::source::Lent;
use reference::packet::{ADD, EOS, NORM};
use reference::receiver::{KIND_H4, STATE_FAIL, STATE_OK};
use reference::sender::Sender;
use std::collections::VecDeque;

const LOOPS: u64 = 400;
const WINDOW: usize = 48;

/// The two ends and what is under way between them.
struct Loop {
    sender: Sender,
    far: Lent,
    slots: usize,
    /// The packets sent and not yet come, epoch by epoch, and the replies.
    out: VecDeque<Vec<[u8; 16]>>,
    back: VecDeque<(u8, u8, u8)>,
    out_delay: usize,
    back_delay: usize,
    /// The number of the back epoch that starts next.
    number: u8,
    /// For how many frames each port's frames come flagged.
    dark: Vec<u64>,
}

impl Loop {
    fn new(random: &mut Random, slots: usize, hold_off: &[u32], restore: &[u32]) -> Loop {
        Loop {
            sender: Sender::start(slots as u32, random.below(256) as u32).expect("the count fits"),
            far: Lent::start_as(KIND_H4, slots, 1, WINDOW, hold_off, restore),
            slots,
            out: VecDeque::new(),
            back: VecDeque::new(),
            out_delay: random.below(5) as usize,
            back_delay: random.below(5) as usize,
            number: random.below(256) as u8,
            dark: vec![0; slots],
        }
    }

    /// One start, and the frames of the epoch behind it.
    fn epoch(&mut self) {
        if self.back.len() > self.back_delay {
            let (epoch, mst, rs_ack) = self.back.pop_front().expect("one has come");
            assert_eq!(self.sender.table.report(epoch.into(), mst.into(), rs_ack == 1), 0);
        }
        let (mst, rs_ack) = self.far.receiver.reply(self.number);
        self.back.push_back((self.number, mst, rs_ack));
        self.number = self.number.wrapping_add(1);
        assert_eq!(self.sender.start_epoch(0, 255, 0), 0);
        let mut packets = vec![[0; 16]; self.slots];
        for (slot, packet) in packets.iter_mut().enumerate() {
            assert_eq!(self.sender.packet(slot as u32, packet), 0);
        }
        self.out.push_back(packets);
        if self.out.len() > self.out_delay {
            let packets = self.out.pop_front().expect("one has come");
            for place in 0..16 {
                for (port, packet) in packets.iter().enumerate() {
                    self.far.hand(port, self.dark[port] > 0, packet[place], &[0]);
                    self.dark[port] = self.dark[port].saturating_sub(1);
                }
            }
            self.far.fetch_all();
        }
    }

    fn word(&self, slot: usize) -> u32 {
        self.sender.table.board().rows[slot].word
    }

    fn is_active(&self, slot: usize) -> bool {
        [NORM, EOS].contains(&self.word(slot))
    }

    /// No wait is open, and no slot is ADD.
    fn is_settled(&self) -> bool {
        !self.sender.table.waits() && (0..self.slots).all(|slot| self.word(slot) != ADD)
    }

    /// Adds slots from the first on, and waits until they are active.
    fn with_active(&mut self, slots: usize) {
        for _ in 0..6 {
            self.epoch();
        }
        for slot in 0..slots {
            assert_eq!(self.sender.table.add(slot as u32), 0);
        }
        for _ in 0..300 {
            self.epoch();
        }
        assert!(self.is_settled() && (0..slots).all(|slot| self.is_active(slot)));
    }

    /// Other ports fail, for a while each.
    fn others_fail(&mut self, random: &mut Random, ours: usize) {
        for port in (0..self.slots).filter(|p| *p != ours) {
            if self.dark[port] == 0 && random.below(60) == 0 {
                self.dark[port] = 1 + random.below(600);
            }
        }
    }
}

/// What one add came to: after how many starts, and the bound.
struct Took {
    starts: u64,
    bound: u64,
    failed: bool,
}

/// None where what the request lets be so is not so: the port was not readable, or another was OK under its number while
/// it waited to restore.
fn added(seed: u64) -> Option<Took> {
    let mut random = Random::new(seed);
    let slots = 1 + random.below(11) as usize;
    let (ours, failed) = (slots - 1, random.below(2) == 0);
    let most = random.one_of(&[1, 5, 40]);
    let hold_off: Vec<u32> = (0..slots).map(|_| random.below(most) as u32).collect();
    let restore: Vec<u32> = (0..slots).map(|_| random.below(most) as u32).collect();
    let mut both = Loop::new(&mut random, slots, &hold_off, &restore);
    // a port that is FAIL as its ADD comes: active, dark, and its slot removed and added again between two starts
    both.with_active(if failed { slots } else { slots - 1 });
    let unruly = random.below(4) > 0;
    for _ in 0..random.below(64) {
        if unruly {
            both.others_fail(&mut random, ours);
        }
        both.epoch();
    }
    if failed {
        both.dark[ours] = 16 * (u64::from(hold_off[ours]) + 2 + random.below(20));
        while both.dark[ours] > 0 {
            both.epoch();
        }
        for _ in 0..random.below(8) {
            both.epoch();
        }
        if both.sender.table.remove(ours as u32) != 0 || both.sender.table.lapse() != 0 {
            return None;
        }
    }
    if !both.is_settled() || both.sender.table.add(ours as u32) != 0 {
        return None;
    }
    let number = both.sender.table.board().rows[ours].number as u8;
    let (a, b, r) = (both.out_delay as u64, both.back_delay as u64, if failed { u64::from(restore[ours]) } else { 0 });
    let bound = 34 + a + b + r;
    // start 1 is the first behind the add; the report of start k has been fetched when start k comes
    for start in 1..=bound {
        if unruly {
            both.others_fail(&mut random, ours);
        }
        if start >= a + 2 {
            let ports = both.far.receiver.ports();
            let taken = ports.iter().enumerate().any(|(port, p)| port != ours && p.state == STATE_OK && p.number == number);
            if !ports[ours].readable || r > 0 && taken {
                return None;
            }
        }
        both.epoch();
        if both.is_active(ours) {
            return Some(Took { starts: start, bound, failed });
        }
    }
    println!("differs\tseed {seed}\tnot active {bound} starts after the add\tport FAIL {}", both.far.receiver.ports()[ours].state == STATE_FAIL);
    Some(Took { starts: bound + 1, bound, failed })
}

pub fn check(count: &mut Count) {
    let all: Vec<Took> = (1..=LOOPS).filter_map(added).collect();
    let failed = all.iter().filter(|t| t.failed).count();
    let met = all.iter().filter(|t| t.starts == t.bound).count();
    println!("adds\tloops {}\twith a port that was FAIL {failed}\tat the bound {met}", all.len());
    count.note("an add is active within 34 + a + b starts, and within r more where its port was FAIL", all.iter().all(|t| t.starts <= t.bound));
    count.note("of either kind there are many, and some take all of the bound", all.len() - failed > 100 && failed > 60 && met > 0);
}
