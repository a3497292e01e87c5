//! Two circuits on one card: the archive's card against the reference on long made-up histories of both groups, and
//! pairs of cards on which one group makes the same calls and the other makes any: all that the one is given back is the
//! same, also from state bytes that no call returned.

use crate::card;
use crate::count::{Count, Test};
use crate::random::Random;
use crate::senders::{epoch_most, sizes};
use crate::tellings;
use reference::circuits::{answered, Card};
use reference::receiver::{KIND_H4, KIND_VC12};

const STATE_BYTES: usize = 858;
const ROW_BYTES: usize = 64;
const PART_BYTES: usize = 397;

pub fn compare(count: &mut Count) {
    let mut random = Random::new(23);
    let mut calls = Test::new("histories of a card's calls");
    let mut sent = Test::new("what a card's slots send over these histories");
    let mut told = Test::new("what is told of each group's boards going out over these histories");
    for _ in 0..300 {
        history(&mut random, KIND_H4, &mut calls, &mut sent, &mut told);
    }
    calls.end(count, &[0, 1, 2, 3, 8, 9, 14, 15]);
    sent.end(count, &[0, 1, 2, 4, 9, 14]);
    told.end(count, &[0, 4, 9]);

    let mut calls = Test::new("histories of the calls of a card of VC-12");
    let mut sent = Test::new("what its slots send over these histories");
    let mut told = Test::new("what is told of each of its groups' boards going out over these histories");
    for _ in 0..300 {
        history(&mut random, KIND_VC12, &mut calls, &mut sent, &mut told);
    }
    calls.end(count, &[0, 1, 2, 3, 8, 9, 14, 15]);
    sent.end(count, &[0, 1, 2, 4, 9, 14]);
    told.end(count, &[0, 4, 9]);

    let mut starts = Test::new("starts of a card");
    for given in (0..300).chain([65536, 65600, u32::MAX]) {
        for first in [[0, 0], [7, 200], [255, 0], [256, 0], [0, 256], [u32::MAX, u32::MAX]] {
            for length in [0, STATE_BYTES - 1, STATE_BYTES, STATE_BYTES + 1] {
                start(&mut starts, None, given, first, length);
            }
        }
    }
    starts.end(count, &[4, 9]);

    let mut starts = Test::new("starts of a card of a kind");
    for kind in [0, 1, 2, 3, 256, 257, u32::MAX] {
        for given in (0..70).chain([u32::MAX]) {
            for first in [[0, 0], [31, 31], [32, 0], [0, 32], [255, 255], [256, 0], [0, 256], [u32::MAX, u32::MAX]] {
                for length in [0, STATE_BYTES - 1, STATE_BYTES, STATE_BYTES + 1] {
                    start(&mut starts, Some(kind), given, first, length);
                }
            }
        }
    }
    starts.end(count, &[4, 9]);

    let mut pairs = Test::new("pairs of cards, alike in one group's calls");
    for _ in 0..900 {
        pair(&mut random, &mut pairs);
    }
    pairs.end(count, &[0, 1, 2, 3, 8, 14, 15]);
}

/// All that is read out of a group: answers, then the bytes.
type Shown = (Vec<u8>, Vec<Vec<u8>>);

fn shown(state: &[u8], group: u32) -> Shown {
    let mut bytes = vec![vec![0x5Au8; 130], vec![0x5A; 130], vec![0x5A; 68], vec![0x5A; 64]];
    let answers = vec![
        card::card_board(state, group, &mut bytes[0]),
        card::card_board_going(state, group, &mut bytes[1]),
        card::card_ranks(state, group, &mut bytes[2]),
        card::card_owned(state, group, &mut bytes[3]),
    ];
    (answers, bytes)
}

fn wanted(reference: &mut Card, group: u32) -> Shown {
    let owned = reference.owned(group);
    let sender = reference.of(group).expect("a group of the two");
    (vec![0; 4], vec![sender.table.board().bytes(), sender.going.bytes(), sender.ranks(), owned])
}

/// One start, of a kind or by the call that has none: its answer, and what is read out afterwards. That of H4 leaves the same bytes as
/// the call that has no kind.
fn start(starts: &mut Test, of: Option<u32>, given: u32, first: [u32; 2], length: usize) {
    let mut state = vec![0xA5u8; length];
    let kind = of.unwrap_or(KIND_H4);
    let answer = match of {
        Some(kind) => card::card_start_as(kind, given, first, &mut state),
        None => card::card_start(given, first, &mut state),
    };
    if of == Some(KIND_H4) {
        let mut plain = vec![0xA5u8; length];
        assert_eq!((card::card_start(given, first, &mut plain), &plain), (answer, &state));
    }
    let (expected, reference) = match Card::start_as(kind, given, first) {
        Err(number) => (number, Some(Card::empty())),
        Ok(_) if length != STATE_BYTES => (9, None),
        Ok(_) if first.iter().any(|epoch| *epoch > epoch_most(kind)) => (8, None),
        Ok(reference) => (0, Some(reference)),
    };
    match reference {
        Some(mut r) if length == STATE_BYTES => {
            let all = (expected, wanted(&mut r, 0), wanted(&mut r, 1));
            starts.case(expected, &all, &(answer, shown(&state, 0), shown(&state, 1)), &(kind, given, first, length));
        }
        _ => starts.case(expected, &(expected, vec![0xA5u8; length]), &(answer, state), &(kind, given, first, length)),
    }
}

/// A call of a group that may change the card.
#[derive(Clone, Copy, Debug)]
enum Call {
    Claim(u32),
    Release(u32),
    Add(u32),
    Remove(u32),
    Report(u32, u32, u32),
    Lapse,
    StartEpoch(u32, u32, u32),
}

/// A number that is mostly below the limit, and now and then far beyond.
fn about(random: &mut Random, limit: u32) -> u32 {
    match random.below(24) {
        0 => random.one_of(&[limit, limit + 1, 64, 255, 256, 1 << 16, u32::MAX]),
        _ => random.below(u64::from(limit)) as u32,
    }
}

fn any_call(random: &mut Random, slots: u32) -> Call {
    match random.below(20) {
        0..=3 => Call::Claim(about(random, slots)),
        4..=5 => Call::Release(about(random, slots)),
        6..=9 => Call::Add(about(random, slots)),
        10..=11 => Call::Remove(about(random, slots)),
        12..=15 => Call::Report(about(random, 1 + slots / 8), (random.next() & random.next() & 0xFF) as u32, about(random, 2)),
        16..=17 => Call::Lapse,
        _ => Call::StartEpoch(about(random, 2), about(random, 256), about(random, 2)),
    }
}

/// The call through C.
fn make(state: &mut [u8], group: u32, call: Call) -> u8 {
    match call {
        Call::Claim(slot) => card::card_claim(state, group, slot),
        Call::Release(slot) => card::card_release(state, group, slot),
        Call::Add(slot) => card::card_add(state, group, slot),
        Call::Remove(slot) => card::card_remove(state, group, slot),
        Call::Report(epoch, mst, ack) => card::card_report(state, group, epoch, mst, ack),
        Call::Lapse => card::card_lapse(state, group),
        Call::StartEpoch(gid, mst, ack) => card::card_start_epoch(state, group, gid, mst, ack),
    }
}

/// The call on the reference: 1 for the group, 8 for what is no byte, then as the card has it.
fn expected(reference: &mut Card, group: u32, call: Call) -> u8 {
    match call {
        Call::Claim(slot) => reference.claim(group, slot),
        Call::Release(slot) => reference.release(group, slot),
        Call::Add(slot) => answered(reference.own(group, slot), |sender| sender.table.add(slot)),
        Call::Remove(slot) => answered(reference.own(group, slot), |sender| sender.table.remove(slot)),
        Call::Report(epoch, mst, ack) => answered(reference.of(group), |sender| match epoch.max(mst).max(ack) {
            0..=255 => sender.table.report(epoch, mst, ack % 2 == 1),
            _ => 8,
        }),
        Call::Lapse => answered(reference.of(group), |sender| sender.table.lapse()),
        Call::StartEpoch(gid, mst, ack) => answered(reference.of(group), |sender| sender.start_epoch(gid, mst, ack)),
    }
}

/// The part of a group within the state.
fn part(state: &[u8], group: u32) -> &[u8] {
    let at = ROW_BYTES + group as usize * PART_BYTES;
    &state[at..at + PART_BYTES]
}

fn history(random: &mut Random, kind: u32, calls: &mut Test, sent: &mut Test, told: &mut Test) {
    let slots = random.one_of(&[1u32, 2, 3, 5, 8, 20, 64]);
    let epochs = u64::from(epoch_most(kind)) + 1;
    let first = [random.below(epochs) as u32, random.below(epochs) as u32];
    let mut state = vec![0u8; STATE_BYTES];
    let mut reference = Card::start_as(kind, slots, first).expect("the count fits");
    assert_eq!(card::card_start_as(kind, slots, first, &mut state), 0);
    let mut boards_told = [0, 1].map(|group| reference.of(group).expect("a group of the two").going.bytes());
    for turn in 0..400 {
        let before = state.clone();
        let group = match random.below(40) {
            0 => random.one_of(&[2, 3, 256, u32::MAX]),
            _ => random.below(2) as u32,
        };
        let call = any_call(random, slots);
        let short = random.below(25) == 0;
        let (right, answer) = match short {
            true => (9, make(&mut state[..STATE_BYTES - 1], group, call)),
            false => (expected(&mut reference, group, call), make(&mut state, group, call)),
        };
        // a refusal changes nothing, and a call nothing of the other's part
        let untouched = if right == 0 { part(&state, 1 - group) == part(&before, 1 - group) } else { state == before };
        let all = (right, wanted(&mut reference, 0), wanted(&mut reference, 1), true);
        calls.case(right, &all, &(answer, shown(&state, 0), shown(&state, 1), untouched), &(slots, turn, group, call));
        sends(random, kind, sent, &mut reference, &state, group, slots);
        for (group, board_told) in (0..).zip(&mut boards_told) {
            let going = reference.of(group).expect("a group of the two").going.bytes();
            tellings::tell(random, told, &going, board_told, |board, changes| card::card_changes(&state, group, board, changes));
        }
    }
}

fn sends(random: &mut Random, kind: u32, sent: &mut Test, reference: &mut Card, state: &[u8], group: u32, slots: u32) {
    let slot = about(random, slots);
    let (length, p) = sizes(random, kind);
    let mut by_reference = vec![0x5A; length];
    let mut by_card = by_reference.clone();
    let right = answered(reference.own(group, slot), |sender| sender.packet(slot, &mut by_reference));
    let answer = card::card_packet(state, group, slot, &mut by_card);
    sent.case(right, &(right, by_reference), &(answer, by_card), &("packet", group, slot, length));

    let x = reference.of(group).map_or(0, |sender| sender.ranked().len());
    let mut frame = vec![0u8; x * p as usize + usize::from(random.below(10) == 0)];
    random.fill(&mut frame);
    let mut by_reference = vec![0x5A; p as usize + usize::from(random.below(10) == 0)];
    let mut by_card = by_reference.clone();
    let right = answered(reference.own(group, slot), |sender| sender.payload(slot, p, &frame, &mut by_reference));
    let answer = card::card_payload(state, group, slot, p, &frame, &mut by_card);
    sent.case(right, &(right, by_reference), &(answer, by_card), &("payload", group, slot, p));
}

/// Whether the other group owns a slot.
fn others(state: &[u8], group: u32, slot: u32) -> bool {
    let mut owned = vec![0u8; ROW_BYTES];
    card::card_owned(state, 1 - group, &mut owned) == 0 && owned.get(slot as usize) == Some(&1)
}

/// All that a group is given back without a change: boards, ranks, what it owns, and what each of some slots sends.
fn given_back(state: &[u8], group: u32, slots: u32) -> (Shown, Vec<(u8, Vec<u8>, u8, Vec<u8>)>) {
    let all = shown(state, group);
    let frame = vec![0xC3u8; usize::from(all.1[2][3]) * 3];
    let each = (0..slots.min(6)).map(|slot| {
        let (mut h4, mut member) = (vec![0x5Au8; 16], vec![0x5Au8; 3]);
        let packet = card::card_packet(state, group, slot, &mut h4);
        (packet, h4, card::card_payload(state, group, slot, 3, &frame, &mut member), member)
    });
    let each = each.collect();
    (all, each)
}

/// Two states of which one group sees the same: its part, and which slots it owns. All else is any bytes.
fn two_states(random: &mut Random, group: u32, slots: u32) -> [Vec<u8>; 2] {
    let mut one = vec![0u8; STATE_BYTES];
    if random.below(2) == 0 {
        assert_eq!(card::card_start(slots, [3, 4], &mut one), 0);
        let two = one.clone();
        return [one, two];
    }
    random.fill(&mut one);
    for byte in &mut one[..ROW_BYTES] {
        *byte %= 4;
    }
    let at = ROW_BYTES + group as usize * PART_BYTES;
    one[at + 384] = slots as u8;
    let mut two = vec![0u8; STATE_BYTES];
    random.fill(&mut two);
    two[at..at + PART_BYTES].copy_from_slice(&one[at..at + PART_BYTES]);
    let mark = group as u8 + 1;
    for slot in 0..ROW_BYTES {
        two[slot] = match one[slot] == mark {
            true => mark,
            false => random.one_of(&[0, 3 - mark, 3, 255]),
        };
    }
    [one, two]
}

fn pair(random: &mut Random, pairs: &mut Test) {
    let slots = random.one_of(&[1u32, 2, 3, 5, 8, 64]);
    let group = random.below(2) as u32;
    let mut states = two_states(random, group, slots);
    for turn in 0..150 {
        // the other group, and no group, each card by itself
        for state in &mut states {
            for _ in 0..random.below(4) {
                let by = if random.below(12) == 0 { 2 } else { 1 - group };
                let call = any_call(random, slots);
                make(state, by, call);
            }
        }
        let call = any_call(random, slots);
        // what a claim tells is the one bit that may part them
        if let Call::Claim(slot) = call {
            if others(&states[0], group, slot) != others(&states[1], group, slot) {
                continue;
            }
        }
        let first = (make(&mut states[0], group, call), given_back(&states[0], group, slots));
        let second = (make(&mut states[1], group, call), given_back(&states[1], group, slots));
        pairs.case(first.0, &first, &second, &(slots, group, turn, call));
    }
}
