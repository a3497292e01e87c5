//! The archive's spoken board against the reference: boards of any bytes compared, changes applied and spoken, and each
//! way in which changes may not fit.

use crate::card;
use crate::count::{Count, Test};
use crate::random::Random;
use reference::spoken;
use reference::spoken::{BOARD_BYTES, CHANGES_BYTES, TEXT_ROOM};

pub fn compare(count: &mut Count) {
    let mut random = Random::new(10);
    let mut changes = Test::new("changes between boards");
    let mut applies = Test::new("changes applied to a board");
    let mut speaks = Test::new("changes as lines");
    let mut runs = Test::new("changes as lines of runs");
    let mut wholes = Test::new("whole boards as lines of runs");
    for turn in 0..60_000 {
        let old = if turn % 2 == 0 { board(&mut random) } else { stretched(&mut random) };
        let mut new = if turn % 4 == 1 { restretched(&mut random, &old) } else { another(&mut random, &old) };
        let told = compared(&mut random, &mut changes, &old, &new);
        if told.len() != CHANGES_BYTES {
            continue;
        }
        let held = if random.below(4) == 0 { another(&mut random, &old) } else { old.clone() };
        let list = bent(&mut random, &told);
        applied(&mut random, &mut applies, &held, &list);
        said(&mut random, &mut speaks, &list, spoken::speak, card::board_speak);
        said(&mut random, &mut runs, &list, spoken::speak_runs, card::board_speak_runs);
        said(&mut random, &mut wholes, &new, spoken::speak_whole, card::board_speak_whole);
        // what a call returned fits the board that it came from, and gives the other one; where it was refused the count is no count
        if told[0] <= 64 {
            new[1] = u8::from(new[1] != 0);
            let mut after = old.clone();
            let answer = card::board_apply(&mut after, &told);
            let shown = 2 + 2 * usize::from(new[0]);
            applies.case(answer, &(0, &new[..shown]), &(answer, &after[..shown]), &(&old, &new));
        }
    }
    changes.end(count, &[0, 4, 9]);
    applies.end(count, &[0, 2, 9]);
    speaks.end(count, &[0, 2, 9]);
    runs.end(count, &[0, 2, 9]);
    wholes.end(count, &[0, 2, 9]);
}

fn word(random: &mut Random) -> u8 {
    match random.below(60) {
        0 => random.below(256) as u8,
        _ => random.one_of(&[1, 2, 3, 5, 15]),
    }
}

fn board(random: &mut Random) -> Vec<u8> {
    let mut bytes = vec![0u8; BOARD_BYTES];
    random.fill(&mut bytes);
    bytes[0] = match random.below(30) {
        0 => random.below(256) as u8,
        _ => random.one_of(&[0, 1, 2, 3, 5, 8, 33, 63, 64]),
    };
    bytes[1] = random.one_of(&[0, 0, 1, 1, 1, 7]);
    for i in 0..64 {
        bytes[2 + 2 * i] = word(random);
        bytes[3 + 2 * i] = random.one_of(&[i as u8, 0, 63, 255]);
    }
    bytes
}

/// A stretch of slots from a place on, of one word, with numbers that rise or are alike.
fn stretch(random: &mut Random, bytes: &mut [u8], at: usize) {
    let (most, word, number, by) = (1 + random.below(20) as usize, word(random), random.below(256) as u8, random.below(2) as u8);
    let (word, number, by) = if random.below(3) == 0 { (5, 255, 0) } else { (word, number, by) };
    for (i, row) in bytes[2 + 2 * at..].chunks_mut(2).take(most).enumerate() {
        row.copy_from_slice(&[word, number.wrapping_add(by * i as u8)]);
    }
}

/// A board of such stretches.
fn stretched(random: &mut Random) -> Vec<u8> {
    let mut bytes = board(random);
    for _ in 0..random.below(12) {
        let at = random.below(64) as usize;
        stretch(random, &mut bytes, at);
    }
    bytes
}

/// The same with other stretches.
fn restretched(random: &mut Random, board: &[u8]) -> Vec<u8> {
    let mut bytes = board.to_vec();
    for _ in 0..random.below(6) {
        let at = random.below(64) as usize;
        stretch(random, &mut bytes, at);
    }
    bytes
}

/// A board that is like another one in most of its slots.
fn another(random: &mut Random, board: &[u8]) -> Vec<u8> {
    let mut bytes = board.to_vec();
    for i in 0..64 {
        match random.below(12) {
            0 => bytes[2 + 2 * i] = word(random),
            1 => bytes[3 + 2 * i] = random.below(256) as u8,
            2 => bytes[2 + 2 * i] ^= bytes[3 + 2 * i] & 1,
            _ => (),
        }
    }
    match random.below(20) {
        0 => bytes[0] = random.below(256) as u8,
        1 => bytes[0] ^= 1,
        2..=8 => bytes[1] = random.one_of(&[0, 1, 2]),
        _ => (),
    }
    bytes
}

/// A buffer that now and then has a wrong length.
fn cut(random: &mut Random, bytes: &[u8]) -> Vec<u8> {
    match random.below(40) {
        0 => bytes[..bytes.len() - 1].to_vec(),
        1 => [bytes, &[0]].concat(),
        2 => Vec::new(),
        _ => bytes.to_vec(),
    }
}

/// The changes that the card gives, held to the reference's.
fn compared(random: &mut Random, test: &mut Test, old: &[u8], new: &[u8]) -> Vec<u8> {
    let (old, new) = (cut(random, old), cut(random, new));
    let mut by_reference = cut(random, &[0xA5; CHANGES_BYTES]);
    let mut by_card = by_reference.clone();
    let expected = spoken::changes(&old, &new, &mut by_reference);
    let answer = card::board_changes(&old, &new, &mut by_card);
    test.case(expected, &(expected, &by_reference), &(answer, &by_card), &(&old, &new));
    by_card
}

/// Changes with, mostly, one thing in them that is not so.
fn bent(random: &mut Random, changes: &[u8]) -> Vec<u8> {
    let mut bytes = changes.to_vec();
    let count = usize::from(bytes[0]).min(64);
    let at = 2 + 5 * (random.below(count as u64 + 1) as usize).min(63);
    match random.below(16) {
        0 => bytes[0] = random.below(256) as u8,
        1 => bytes[0] = bytes[0].wrapping_add(1),
        2 => bytes[1] = random.below(4) as u8,
        3 => bytes[1] = random.below(256) as u8,
        4 => bytes[at] = bytes[at].wrapping_add(1),
        5 => bytes[at] = random.below(256) as u8,
        6 => bytes[at + 1] = word(random),
        7 => bytes[at + 2] ^= 1,
        8 => bytes.copy_within(at + 1..at + 3, at + 3),
        9 => bytes[at + 3] = random.below(256) as u8,
        10 if at > 2 => bytes[at] = bytes[at - 5],
        11 => random.fill(&mut bytes),
        _ => (),
    }
    bytes
}

fn applied(random: &mut Random, test: &mut Test, board: &[u8], changes: &[u8]) {
    let changes = cut(random, changes);
    let mut by_reference = cut(random, board);
    let mut by_card = by_reference.clone();
    let expected = spoken::apply(&mut by_reference, &changes);
    let answer = card::board_apply(&mut by_card, &changes);
    test.case(expected, &(expected, &by_reference), &(answer, &by_card), &(board, &changes));
}

type Speaks = fn(&[u8], &mut [u8], &mut usize) -> u8;

/// What is told of changes, or of a board, by one call and by the other.
fn said(random: &mut Random, test: &mut Test, bytes: &[u8], reference: Speaks, card: Speaks) {
    let bytes = cut(random, bytes);
    let mut by_reference = cut(random, &vec![0xA5; TEXT_ROOM]);
    let mut by_card = by_reference.clone();
    let (mut expected_length, mut length) = (77, 77);
    let expected = reference(&bytes, &mut by_reference, &mut expected_length);
    let answer = card(&bytes, &mut by_card, &mut length);
    test.case(expected, &(expected, expected_length, &by_reference), &(answer, length, &by_card), &bytes);
}
