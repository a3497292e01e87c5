//! The archive's planner and its check against the reference: answer and every byte of the result, and around it.

use crate::card;
use crate::count::{Count, Test};
use crate::random::Random;
use reference::paths::{self, DELAY_MOST, PLAN_BYTES, WINDOW_LEAST};

const MARGIN: usize = 16;

pub fn compare(count: &mut Count) {
    let mut random = Random::new(9);
    for (name, most) in [("plans of up to 12 paths, every set tried", 12), ("plans of up to 64 paths, by a sliding window", 64)] {
        let mut test = Test::new(name);
        let mut times = [0u64; 2];
        for _ in 0..20000 {
            let case = drawn(&mut random, most);
            times[usize::from(plan(&mut test, &mut random, &case, PLAN_BYTES))] += 1;
        }
        test.end(count, &[0]);
        both(count, "proposed", &times);
    }

    let mut test = Test::new("plans and checks with any numbers and lengths");
    for _ in 0..40000 {
        let mut case = drawn(&mut random, 66);
        for _ in 0..1 + random.below(3) {
            spoil(&mut random, &mut case);
        }
        let off = random.one_of(&[0, 0, 0, -65, -1, 1, 7]);
        plan(&mut test, &mut random, &case, (PLAN_BYTES as isize + off) as usize);
        let set: Vec<u8> = (0..random.below(6)).map(|_| random.below(256) as u8).collect();
        let length = random.one_of(&[1, 1, 1, 0, 2]);
        check(&mut test, &mut random, &case, &set, length);
    }
    test.end(count, &[0, 4, 9]);

    let mut test = Test::new("checks of what is proposed, and of each set a step from it");
    let mut times = [0u64; 2];
    for _ in 0..4000 {
        let case = drawn(&mut random, 20);
        let mut made = [0; PLAN_BYTES];
        if paths::plan(&case.delays, case.k, case.window, &mut made) != 0 || made[0] == 0 {
            continue;
        }
        let set = made[1..=usize::from(made[0])].to_vec();
        times[usize::from(check(&mut test, &mut random, &case, &set, 1))] += 1;
        for near in steps_from(&mut random, &set, case.delays.len()) {
            times[usize::from(check(&mut test, &mut random, &case, &near, 1))] += 1;
        }
    }
    test.end(count, &[0]);
    both(count, "accepted", &times);
}

/// A test shows little where nearly all sets come out alike.
fn both(count: &mut Count, what: &str, times: &[u64; 2]) {
    println!("{}\ttimes\t{}", what, times[1]);
    println!("not {}\ttimes\t{}", what, times[0]);
    count.note(&format!("{} a thousand times, and not a thousand times", what), times.iter().all(|n| *n >= 1000));
}

#[derive(Debug)]
struct Case {
    delays: Vec<u32>,
    k: u32,
    window: u32,
}

/// Numbers that fit, for the most part: delays far apart, close together or equal, and windows about what is wanted.
fn drawn(random: &mut Random, most: u64) -> Case {
    let range = random.one_of(&[1, 3, 20, 100, 1000, u64::from(DELAY_MOST) + 1]);
    let lowest = random.below(u64::from(DELAY_MOST) + 2 - range);
    let delays: Vec<u32> = (0..1 + random.below(most)).map(|_| (lowest + random.below(range)) as u32).collect();
    let k = 1 + random.below(delays.len() as u64) as u32;
    let about = range * u64::from(k) / delays.len() as u64;
    let window = u64::from(WINDOW_LEAST) + random.below(2 * about + 4);
    Case { delays, k, window: window.min(2048) as u32 }
}

/// One number out of its range, or at its edge.
fn spoil(random: &mut Random, case: &mut Case) {
    let n = case.delays.len() as u32;
    match random.below(5) {
        0 => case.k = random.one_of(&[0, n, n + 1, 65, 256, 1 << 16, 1 << 31, u32::MAX]),
        1 => case.window = random.one_of(&[0, 15, 16, 2048, 2049, 65536, 65552, u32::MAX]),
        2 => {
            let at = random.below(u64::from(n.max(1))) as usize;
            if let Some(delay) = case.delays.get_mut(at) {
                *delay = random.one_of(&[0, 4095, 4096, 8191, 65536, 70000, 1 << 31, u32::MAX]);
            }
        }
        3 => case.delays.truncate(random.below(2) as usize),
        _ => {}
    }
}

/// Every set a step from a good one: an entry changed, left out, doubled, or one more.
fn steps_from(random: &mut Random, set: &[u8], n: usize) -> Vec<Vec<u8>> {
    let mut sets = Vec::new();
    for at in 0..set.len() {
        for number in [0, n - 1, n, 255, random.below(n as u64) as usize] {
            let mut changed = set.to_vec();
            changed[at] = number as u8;
            sets.push(changed);
        }
        let mut without = set.to_vec();
        without.remove(at);
        sets.push(without);
        let mut more = set.to_vec();
        more.push(set[at]);
        sets.push(more);
    }
    let mut turned = set.to_vec();
    turned.reverse();
    sets.push(turned);
    sets
}

/// Whether a set is proposed.
fn plan(test: &mut Test, random: &mut Random, case: &Case, length: usize) -> bool {
    let mut expected = vec![0u8; MARGIN + length + MARGIN];
    random.fill(&mut expected);
    let mut by_card = expected.clone();
    let answer = paths::plan(&case.delays, case.k, case.window, &mut expected[MARGIN..MARGIN + length]);
    let card_answer = card::paths_plan(&case.delays, case.k, case.window, &mut by_card[MARGIN..MARGIN + length]);
    let proposed = answer == 0 && expected[MARGIN] > 0;
    test.case(answer, &(answer, expected), &(card_answer, by_card), case);
    proposed
}

/// Whether the set is accepted.
fn check(test: &mut Test, random: &mut Random, case: &Case, set: &[u8], length: usize) -> bool {
    let mut expected = vec![0u8; MARGIN + length + MARGIN];
    random.fill(&mut expected);
    let mut by_card = expected.clone();
    let answer = paths::check(&case.delays, case.k, case.window, set, &mut expected[MARGIN..MARGIN + length]);
    let card_answer = card::paths_check(&case.delays, case.k, case.window, set, &mut by_card[MARGIN..MARGIN + length]);
    let accepted = answer == 0 && expected[MARGIN] == 1;
    test.case(answer, &(answer, expected), &(card_answer, by_card), &(case, set));
    accepted
}
