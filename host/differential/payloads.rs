//! The archive's spreading and joining against the reference: answer and every byte of what is written, and around it.

use crate::card;
use crate::count::{Count, Test};
use crate::random::Random;
use reference::payload::{self, MEMBERS_MOST, PAYLOAD_MOST};

const MARGIN: usize = 16;

pub fn compare(count: &mut Count) {
    let mut random = Random::new(6);
    let mut test = Test::new("spreading and joining group frames");
    for _ in 0..4000 {
        let (x, p) = sizes(&mut random);
        case(&mut test, &mut random, x, p, 0, 0);
    }
    test.end(count, &[0]);

    let mut test = Test::new("spreading and joining with any numbers and lengths");
    for _ in 0..40000 {
        let x = any_number(&mut random, MEMBERS_MOST);
        let p = any_number(&mut random, 40);
        let (from, to) = (random.one_of(&[0, 0, 0, -1, 1, 7]), random.one_of(&[0, 0, 0, -1, 1, 7]));
        case(&mut test, &mut random, x, p, from, to);
    }
    test.end(count, &[0, 4, 9]);
}

/// Sizes that fit, small ones and multiples of eight more often, since blocks of eight by eight have edges.
fn sizes(random: &mut Random) -> (u32, u32) {
    let x = match random.below(3) {
        0 => 8 * random.below(9) as u32,
        _ => random.below(u64::from(MEMBERS_MOST) + 1) as u32,
    };
    let p = match random.below(8) {
        0 => random.one_of(&[756, 2340, 2339]),
        1 => 1 + random.below(u64::from(PAYLOAD_MOST)) as u32,
        _ => 1 + random.below(40) as u32,
    };
    (x, p)
}

fn any_number(random: &mut Random, most: u32) -> u32 {
    match random.below(8) {
        0 => random.one_of(&[0, 1, 64, 65, 256, 2340, 2341, 65536, 1 << 31, u32::MAX]),
        1 => random.below(u64::from(most)) as u32 | 1 << random.below(32),
        _ => random.below(u64::from(most)) as u32,
    }
}

/// Spreads and joins with both, the lengths off by so much from what they should be.
fn case(test: &mut Test, random: &mut Random, x: u32, p: u32, from: isize, to: isize) {
    let right = (u64::from(x) * u64::from(p)).min(200_000) as isize;
    let length = |off: isize| usize::try_from(right + off).unwrap_or(0);
    let mut read = vec![0u8; length(from)];
    random.fill(&mut read);
    let mut by_reference = vec![0u8; MARGIN + length(to) + MARGIN];
    random.fill(&mut by_reference);
    for joining in [false, true] {
        let mut by_card = by_reference.clone();
        let mut expected = by_reference.clone();
        let reference_part = &mut expected[MARGIN..MARGIN + length(to)];
        let card_part = &mut by_card[MARGIN..MARGIN + length(to)];
        let (answer, card_answer) = if joining {
            (payload::join(x, p, &read, reference_part), card::join(x, p, &read, card_part))
        } else {
            (payload::spread(x, p, &read, reference_part), card::spread(x, p, &read, card_part))
        };
        test.case(answer, &(answer, expected), &(card_answer, by_card), &(joining, x, p, from, to));
    }
}
