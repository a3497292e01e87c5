//! The archive's sender against the reference on long made-up histories: answers, boards, ranks, packets and payload.

use crate::card;
use crate::count::{Count, Test};
use crate::random::Random;
use crate::tellings;
use reference::receiver::{clock, KIND_H4, KIND_VC12};
use reference::sender::Sender;

const STATE_BYTES: usize = 397;

pub fn compare(count: &mut Count) {
    let mut random = Random::new(9);
    let mut calls = Test::new("histories of the sender's calls");
    let mut sent = Test::new("what slots send over these histories");
    let mut told = Test::new("what is told of the boards going out over these histories");
    for _ in 0..400 {
        history(&mut random, KIND_H4, &mut calls, &mut sent, &mut told);
    }
    calls.end(count, &[0, 1, 2, 3, 8, 9]);
    sent.end(count, &[0, 1, 2, 4, 9]);
    told.end(count, &[0, 4, 9]);

    let mut calls = Test::new("histories of a VC-12 sender's calls");
    let mut sent = Test::new("what its slots send over these histories");
    let mut told = Test::new("what is told of its boards going out over these histories");
    for _ in 0..400 {
        history(&mut random, KIND_VC12, &mut calls, &mut sent, &mut told);
    }
    calls.end(count, &[0, 1, 2, 3, 8, 9]);
    sent.end(count, &[0, 1, 2, 4, 9]);
    told.end(count, &[0, 4, 9]);

    let mut starts = Test::new("starts of a sender");
    for given in (0..300).chain([65536, 65600, u32::MAX]) {
        for first in [0, 1, 7, 42, 128, 254, 255, 256, 511, u32::MAX] {
            for length in [0, STATE_BYTES - 1, STATE_BYTES, STATE_BYTES, STATE_BYTES + 1] {
                start(&mut starts, None, given, first, length);
            }
        }
    }
    starts.end(count, &[4]);

    let mut starts = Test::new("starts of a sender of a kind");
    for kind in [0, 1, 2, 3, 256, 257, u32::MAX] {
        for given in (0..70).chain([256, 257, u32::MAX]) {
            for first in [0, 1, 30, 31, 32, 33, 255, 256, 287, u32::MAX] {
                for length in [0, STATE_BYTES - 1, STATE_BYTES, STATE_BYTES, STATE_BYTES + 1] {
                    start(&mut starts, Some(kind), given, first, length);
                }
            }
        }
    }
    starts.end(count, &[0, 4, 8, 9]);
}

/// The greatest first epoch of a kind.
pub fn epoch_most(kind: u32) -> u32 {
    if kind == KIND_VC12 {
        31
    } else {
        255
    }
}

/// One start, of a kind or by the call that has none: its answer, and what stands in the state afterwards, by its boards and ranks.
/// That of H4 leaves the same bytes as the call that has no kind.
fn start(starts: &mut Test, of: Option<u32>, given: u32, first: u32, length: usize) {
    let mut state = vec![0xA5u8; length];
    let kind = of.unwrap_or(KIND_H4);
    let answer = match of {
        Some(kind) => card::sender_start_as(kind, given, first, &mut state),
        None => card::sender_start(given, first, &mut state),
    };
    if of == Some(KIND_H4) {
        let mut plain = vec![0xA5u8; length];
        assert_eq!((card::sender_start(given, first, &mut plain), &plain), (answer, &state));
    }
    let (expected, sender) = match Sender::start_as(kind, given, first) {
        Err(number) => (number, Some(Sender::empty())),
        Ok(_) if length != STATE_BYTES => (9, None),
        Ok(_) if first > epoch_most(kind) => (8, None),
        Ok(sender) => (0, Some(sender)),
    };
    let shown = |state: &[u8]| {
        let (mut board, mut going, mut ranks) = (vec![0u8; 130], vec![0u8; 130], vec![0u8; 68]);
        card::sender_board(state, &mut board);
        card::sender_board_going(state, &mut going);
        card::sender_ranks(state, &mut ranks);
        vec![board, going, ranks]
    };
    match sender {
        Some(s) if length == STATE_BYTES => {
            let wanted = vec![s.table.board().bytes(), s.going.bytes(), s.ranks()];
            starts.case(expected, &(expected, wanted), &(answer, shown(&state)), &(kind, given, first, length));
        }
        _ => starts.case(expected, &(expected, vec![vec![0xA5u8; length]]), &(answer, vec![state]), &(kind, given, first, length)),
    }
}

/// 0 or 1, and now and then a number that is no bit.
fn bit(random: &mut Random) -> u32 {
    match random.below(30) {
        0 => random.one_of(&[2, 3, 255, 256, u32::MAX]),
        _ => random.below(2) as u32,
    }
}

fn any_slot(random: &mut Random, slots: u64) -> u32 {
    match random.below(12) {
        0 => random.one_of(&[64, 65, 255, 256, 1 << 16, u32::MAX]),
        _ => random.below(slots + 1) as u32,
    }
}

fn history(random: &mut Random, kind: u32, calls: &mut Test, sent: &mut Test, told: &mut Test) {
    let slots = random.one_of(&[1u64, 2, 3, 5, 8, 20, 64]);
    let first = random.below(u64::from(epoch_most(kind)) + 1) as u32;
    let mut state = vec![0u8; STATE_BYTES];
    let mut sender = Sender::start_as(kind, slots as u32, first).expect("the count fits");
    assert_eq!(card::sender_start_as(kind, slots as u32, first, &mut state), 0);
    let mut board_told = sender.going.bytes();
    for turn in 0..300 {
        let before = state.clone();
        let (expected, answer) = match random.below(20) {
            0..=5 => {
                let slot = any_slot(random, slots);
                (sender.table.add(slot), card::sender_add(&mut state, slot))
            }
            6..=7 => {
                let slot = any_slot(random, slots);
                (sender.table.remove(slot), card::sender_remove(&mut state, slot))
            }
            8..=12 => {
                let epoch = 32 * random.below(8) as u32 + random.below(1 + slots / 8) as u32;
                let mst = (random.next() & random.next() & 0xFF) as u32;
                let ack = random.one_of(&[0, 1, 0, 1, 0, 1, 2, 3, 254, 255]);
                match random.below(20) {
                    0 => (8, card::sender_report(&mut state, 256, mst, ack)),
                    1 => (8, card::sender_report(&mut state, epoch, mst + 256, ack)),
                    2 => (8, card::sender_report(&mut state, epoch, mst, 1 << 8)),
                    _ => (sender.table.report(epoch, mst, ack % 2 == 1), card::sender_report(&mut state, epoch, mst, ack)),
                }
            }
            13..=14 => (sender.table.lapse(), card::sender_lapse(&mut state)),
            15 => (9, card::sender_lapse(&mut state[..STATE_BYTES - 1])),
            _ => {
                let (gid, ack) = (bit(random), bit(random));
                let mst = random.below(256) as u32 + if random.below(20) == 0 { 256 } else { 0 };
                (sender.start_epoch(gid, mst, ack), card::sender_start_epoch(&mut state, gid, mst, ack))
            }
        };
        let (mut board, mut going, mut ranks, mut settings) = (vec![0u8; 130], vec![0u8; 130], vec![0u8; 68], vec![0u8; 5]);
        let read = [
            card::sender_board(&state, &mut board),
            card::sender_board_going(&state, &mut going),
            card::sender_ranks(&state, &mut ranks),
            card::sender_settings(&state, &mut settings),
        ];
        let untouched = expected == 0 || state == before;
        let wanted = (expected, [0; 4], sender.table.board().bytes(), sender.going.bytes(), sender.ranks(), sender.settings(), true);
        calls.case(expected, &wanted, &(answer, read, board, going, ranks, settings, untouched), &(slots, turn));
        sends(random, kind, sent, &sender, &state, slots);
        tellings::tell(random, told, &sender.going.bytes(), &mut board_told, |board, changes| card::sender_changes(&state, board, changes));
    }
}

/// A length of packets that is right most often, and a P: of VC-12 mostly 136.
pub fn sizes(random: &mut Random, kind: u32) -> (usize, u32) {
    let right = clock(kind).frames;
    let p = if kind == KIND_VC12 { random.one_of(&[136, 136, 136, 136, 1, 135, 137, 0, 2341]) } else { random.one_of(&[1, 2, 3, 8, 0, 2341]) };
    (random.one_of(&[right, right, right, 48 - right, right - 1, right + 1, 0]), p)
}

fn sends(random: &mut Random, kind: u32, sent: &mut Test, sender: &Sender, state: &[u8], slots: u64) {
    let slot = any_slot(random, slots);
    let (length, p) = sizes(random, kind);
    let mut by_reference = vec![0x5A; length];
    let mut by_card = by_reference.clone();
    let expected = sender.packet(slot, &mut by_reference);
    let answer = card::sender_packet(state, slot, &mut by_card);
    sent.case(expected, &(expected, by_reference), &(answer, by_card), &("packet", slot, length));

    let right = sender.ranked().len() * p as usize;
    let mut frame = vec![0u8; right + usize::from(random.below(10) == 0)];
    random.fill(&mut frame);
    let mut by_reference = vec![0x5A; p as usize + usize::from(random.below(10) == 0)];
    let mut by_card = by_reference.clone();
    let expected = sender.payload(slot, p, &frame, &mut by_reference);
    let answer = card::sender_payload(state, slot, p, &frame, &mut by_card);
    sent.case(expected, &(expected, by_reference), &(answer, by_card), &("payload", slot, p));
}
