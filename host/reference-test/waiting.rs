//! Hold-off and wait-to-restore: both edges, who holds a number against whom, and starts with times.

use crate::count::Count;
use crate::judgements::{epoch, says};
use crate::source::{Lent, Says, SAYS_IDLE};
use reference::packet::{ADD, EOS, NORM};
use reference::receiver::rows::{self, rows_for};
use reference::receiver::{Receiver, KIND_H4, STATE_FAIL, STATE_IDLE, STATE_OK, WAITING_HOLD_OFF, WAITING_NONE, WAITING_RESTORE};

pub fn check(count: &mut Count) {
    count.note("both edges to the report, IDLE at once and back at once", edges());
    count.note("a hold-off of 300 is counted in reports, and not by the epoch's number", beyond_a_round_of_epochs());
    count.note("a held number is kept against a newcomer until the hold-off ends", newcomer());
    count.note("who waits to restore takes its number from nobody", two_wait_for_one());
    count.note("restoring goes on through a renumbering, and stops with the claim", renumbered_meanwhile());
    count.note("a removal with the ports in reverse order, and a swap, hold nobody", nobody_held());
    count.note("a chain of ports that lose their claims is held whole, up to 64", chains());
    count.note("a held number can push a healthy port without hold-off into FAIL and its restoring", pushed());
    count.note("a failure shorter than the hold-off is not heard, a longer one is heard once", failures());
    count.note("starts with times: 4 before 9, whatever the lists", starts());
}

/// A port that is readable and has this number; 64 is no number to claim.
fn add(sq: u32) -> Option<Says> {
    Some(says(ADD, sq))
}

const IDLE: Option<Says> = Some(SAYS_IDLE);
const LOST: u32 = 64;

struct Group {
    lent: Lent,
    tag: usize,
}

impl Group {
    /// A group after its first report, whose ports are all IDLE.
    fn new(hold_off: &[u32], restore: &[u32]) -> Group {
        let mut lent = Lent::start_as(KIND_H4, hold_off.len(), 1, 48, hold_off, restore);
        let mut tag = 8;
        for _ in 0..5 {
            epoch(&mut lent, &mut tag, &vec![IDLE; hold_off.len()]);
        }
        Group { lent, tag }
    }

    /// State and number of each port after the next report.
    fn after(&mut self, packets: &[Option<Says>]) -> Vec<(u8, u8)> {
        epoch(&mut self.lent, &mut self.tag, packets);
        self.lent.receiver.ports().iter().map(|p| (p.state, p.number)).collect()
    }

    fn waiting(&self) -> Vec<u8> {
        self.lent.receiver.ports().iter().map(|p| p.waiting).collect()
    }
}

fn ok(q: u8) -> (u8, u8) {
    (STATE_OK, q)
}

fn fail(q: u8) -> (u8, u8) {
    (STATE_FAIL, q)
}

fn edges() -> bool {
    let mut group = Group::new(&[2], &[3]);
    let told: Vec<(u8, u8)> = "r--r---rrrrIr"
        .chars()
        .map(|c| {
            let packet = match c {
                'r' => add(5),
                '-' => add(LOST),
                _ => IDLE,
            };
            (group.after(&[packet])[0].0, group.waiting()[0])
        })
        .collect();
    let (o, f, i) = (STATE_OK, STATE_FAIL, STATE_IDLE);
    let (n, h, w) = (WAITING_NONE, WAITING_HOLD_OFF, WAITING_RESTORE);
    let expected = [(o, n), (o, h), (o, h), (o, n), (o, h), (o, h), (f, n), (f, w), (f, w), (f, w), (o, n), (i, n), (o, n)];
    // IDLE in the midst of either wait is at once, and sets it to none
    let mut group = Group::new(&[9], &[9]);
    group.after(&[add(5)]);
    group.after(&[add(LOST)]);
    let held = group.waiting() == [h] && group.after(&[IDLE])[0].0 == i && group.waiting() == [n];
    let at_once = group.after(&[add(LOST)]) == [fail(64)] && group.after(&[add(5)]) == [fail(5)] && group.waiting() == [w];
    let idle = group.after(&[IDLE])[0].0 == i && group.waiting() == [n] && group.after(&[add(5)]) == [ok(5)];
    told == expected && held && at_once && idle
}

fn beyond_a_round_of_epochs() -> bool {
    let mut group = Group::new(&[300], &[0]);
    group.after(&[add(5)]);
    let held = (0..300).all(|_| group.after(&[add(LOST)]) == [ok(5)] && group.lent.receiver.reply(0).0 == 0b1111_1011);
    held && group.after(&[add(LOST)]) == [fail(64)] && group.lent.receiver.reply(0).0 == 0xFF
}

fn newcomer() -> bool {
    let mut group = Group::new(&[3, 0], &[0, 0]);
    group.after(&[add(5), IDLE]);
    let held = (0..3).all(|_| group.after(&[add(LOST), add(5)]) == [ok(5), fail(5)]);
    held && group.after(&[add(LOST), add(5)]) == [fail(64), ok(5)]
}

fn two_wait_for_one() -> bool {
    let mut group = Group::new(&[0; 3], &[3, 5, 0]);
    group.after(&[add(LOST), add(LOST), IDLE]);
    let both = (0..3).all(|_| group.after(&[add(5), add(5), IDLE]) == [fail(5), fail(5), (STATE_IDLE, 255)] && group.waiting() == [2, 2, 0]);
    // the first has waited, and takes the number: the other's claim is gone
    let first = group.after(&[add(5), add(5), IDLE])[..2] == [ok(5), fail(5)] && group.waiting() == [0, 0, 0];
    // while they wait the number is free for a third
    let mut group = Group::new(&[0; 3], &[3, 5, 0]);
    group.after(&[add(LOST), add(LOST), IDLE]);
    group.after(&[add(5), add(5), IDLE]);
    let third = group.after(&[add(5), add(5), add(5)]) == [fail(5), fail(5), ok(5)] && group.waiting() == [0, 0, 0];
    both && first && third
}

fn renumbered_meanwhile() -> bool {
    let mut group = Group::new(&[0, 0], &[4, 0]);
    group.after(&[add(LOST), add(9)]);
    let on = [5, 6, 7, 5].iter().all(|q| group.after(&[add(*q), add(9)])[0] == fail(*q as u8)) && group.after(&[add(8), add(9)])[0] == ok(8);
    let mut group = Group::new(&[0, 0], &[4, 0]);
    group.after(&[add(LOST), add(9)]);
    group.after(&[add(5), add(9)]);
    let stopped = group.waiting()[0] == WAITING_RESTORE && group.after(&[add(9), add(9)])[0] == fail(9) && group.waiting()[0] == WAITING_NONE;
    let anew = (0..4).all(|_| group.after(&[add(5), add(9)])[0] == fail(5)) && group.after(&[add(5), add(9)])[0] == ok(5);
    on && stopped && anew
}

fn nobody_held() -> bool {
    let mut group = Group::new(&[100; 3], &[100; 3]);
    group.after(&[add(2), add(1), add(0)]);
    let removed = group.after(&[add(1), add(0), IDLE]) == [ok(1), ok(0), (STATE_IDLE, 255)] && group.waiting() == [0; 3];
    let mut group = Group::new(&[100; 2], &[100; 2]);
    group.after(&[add(0), add(1)]);
    removed && group.after(&[add(1), add(0)]) == [ok(1), ok(0)] && group.waiting() == [0; 2]
}

fn chains() -> bool {
    [3, 4, 20, 64].iter().all(|n| {
        let mut group = Group::new(&vec![2; *n], &vec![0; *n]);
        let own: Vec<Option<Says>> = (0..*n as u32).map(add).collect();
        group.after(&own);
        // the first is lost, and each other one goes to the number of the one before it
        let down: Vec<Option<Says>> = (0..*n as u32).map(|q| add(q.checked_sub(1).unwrap_or(LOST))).collect();
        let all_held: Vec<(u8, u8)> = (0..*n as u8).map(ok).collect();
        let held = (0..2).all(|_| group.after(&down) == all_held && group.waiting() == vec![WAITING_HOLD_OFF; *n]);
        // where the hold-off of all ends at once nobody keeps a number from its claimant
        let moved: Vec<(u8, u8)> = (0..*n as u8).map(|q| if q == 0 { fail(64) } else { ok(q - 1) }).collect();
        held && group.after(&down) == moved
    })
}

fn pushed() -> bool {
    let mut group = Group::new(&[2, 0], &[0, 3]);
    group.after(&[add(0), add(1)]);
    let pushed = group.after(&[add(LOST), add(0)]) == [ok(0), fail(0)] && group.after(&[add(LOST), add(0)]) == [ok(0), fail(0)];
    let restoring = (0..3).all(|_| group.after(&[add(LOST), add(0)]) == [fail(64), fail(0)]);
    pushed && restoring && group.after(&[add(LOST), add(0)]) == [fail(64), ok(0)]
}

/// What is heard of the second port, which comes flagged for so many epochs: its states where they change.
fn heard(flagged: usize, hold_off: u32, restore: u32) -> Vec<u8> {
    let mut group = Group::new(&[hold_off; 2], &[restore; 2]);
    let carry = [Some(says(NORM, 0)), Some(says(EOS, 1))];
    let mut heard = vec![STATE_IDLE];
    for k in 0..200 {
        let packets = if (50..50 + flagged).contains(&k) { [carry[0], None] } else { carry };
        let state = group.after(&packets)[1].0;
        if heard.last() != Some(&state) {
            heard.push(state);
        }
    }
    heard
}

fn failures() -> bool {
    // a port is back some four epochs after its last flagged frame
    (1..30).all(|flagged| {
        let short = heard(flagged, flagged as u32 + 5, 7) == [STATE_IDLE, STATE_OK];
        let long = heard(flagged + 20, 20, 7) == [STATE_IDLE, STATE_OK, STATE_FAIL, STATE_OK];
        short && long && heard(flagged, 0, 0) == [STATE_IDLE, STATE_OK, STATE_FAIL, STATE_OK]
    })
}

fn starts() -> bool {
    let length = 2 * 16 * 2;
    let answer = |kind: u32, ports: u32, store: usize, hold_off: &[u32], restore: &[u32]| {
        let mut receiver = Receiver::empty();
        let mut lent = vec![[0xEE; 16]; rows_for(2)];
        let answer = receiver.start_as(kind, ports, 1, 16, store, hold_off, restore);
        let same = rows::start_as(&mut lent, kind, ports, 1, 16, store, hold_off, restore) == answer;
        let left = match answer {
            0 => Receiver::from_rows(&lent) == receiver,
            4 => lent[0][1..] == [0; 15] && lent[1..].iter().all(|row| *row == [0xEE; 16]),
            _ => lent.iter().all(|row| *row == [0xEE; 16]),
        };
        if same && left {
            answer
        } else {
            255
        }
    };
    let right = answer(0, 2, length, &[], &[]) == 0 && answer(0, 2, length, &[5000, 0], &[]) == 0 && answer(0, 2, length, &[0, 1], &[2, 5000]) == 0;
    let four = answer(0, 2, length, &[5001, 0], &[]) == 4
        && answer(0, 2, length, &[0, 0], &[0, 65536]) == 4
        && answer(0, 2, length + 1, &[0, 0, 5001], &[]) == 4
        && answer(0, 2, length, &[1], &[u32::MAX, 0, 0, 0]) == 4
        && answer(1, 2, length, &[], &[]) == 4
        && answer(u32::MAX, 2, 0, &[1], &[]) == 4
        && answer(0, 65, length, &[], &[]) == 4;
    let nine = answer(0, 2, length, &[1], &[]) == 9
        && answer(0, 2, length, &[0; 3], &[0; 2]) == 9
        && answer(0, 2, length, &[0; 2], &[0; 1]) == 9
        && answer(0, 2, length, &[], &[0; 3]) == 9
        && answer(0, 2, length - 1, &[0; 2], &[]) == 9;
    right && four && nine
}
