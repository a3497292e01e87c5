//! A whole work order at once: the archive's order against single calls and against the reference, on random lists from
//! started cards, from damaged state bytes and from any bytes.

use crate::card;
use crate::count::{Count, Test};
use crate::random::Random;
use reference::circuits::{answered, Card};

const STATE_BYTES: usize = 858;

type Command = [u32; 3];

pub fn compare(count: &mut Count) {
    let mut random = Random::new(24);
    let mut orders = Test::new("commands of work orders, beside the reference");
    for _ in 0..600 {
        history(&mut random, &mut orders);
    }
    orders.end(count, &[0, 1, 2, 3, 8, 14, 15]);

    let mut bytes = Test::new("orders beside single calls, from damaged and from any bytes");
    for _ in 0..4000 {
        from_bytes(&mut random, &mut bytes);
    }
    bytes.end(count, &[0]);

    let mut lengths = Test::new("orders with lists of other lengths");
    for _ in 0..9000 {
        with_lengths(&mut random, &mut lengths);
    }
    lengths.end(count, &[0, 9]);
}

fn about(random: &mut Random, limit: u32) -> u32 {
    match random.below(24) {
        0 => random.one_of(&[limit, limit + 1, 64, 255, 256, 1 << 16, u32::MAX]),
        _ => random.below(u64::from(limit)) as u32,
    }
}

fn any_commands(random: &mut Random, n: usize, slots: u32) -> Vec<Command> {
    (0..n).map(|_| [about(random, 4), about(random, 2), about(random, slots)]).collect()
}

/// The command by its own C call; a host that knows no such kind makes none.
fn single(state: &mut [u8], c: &Command) -> u8 {
    match c[0] {
        0 => card::card_add(state, c[1], c[2]),
        1 => card::card_remove(state, c[1], c[2]),
        2 => card::card_claim(state, c[1], c[2]),
        3 => card::card_release(state, c[1], c[2]),
        _ => 8,
    }
}

fn expected(reference: &mut Card, c: &Command) -> u8 {
    let (group, slot) = (c[1], c[2]);
    match c[0] {
        0 => answered(reference.own(group, slot), |sender| sender.table.add(slot)),
        1 => answered(reference.own(group, slot), |sender| sender.table.remove(slot)),
        2 => reference.claim(group, slot),
        3 => reference.release(group, slot),
        _ => 8,
    }
}

/// Orders one behind the other, with what closes waits and makes members active in between.
fn history(random: &mut Random, orders: &mut Test) {
    let slots = random.one_of(&[1u32, 2, 5, 20, 64]);
    let mut state = vec![0u8; STATE_BYTES];
    card::card_start(slots, [0, 0], &mut state);
    let mut reference = Card::start(slots, [0, 0]).unwrap_or_else(|_| Card::empty());
    for _ in 0..20 {
        let n = random.below(40) as usize;
        let commands = any_commands(random, n, slots);
        let mut answers = vec![0x5Au8; commands.len()];
        let whole = card::card_order(&mut state, &commands, &mut answers);
        let wanted: Vec<u8> = commands.iter().map(|c| expected(&mut reference, c)).collect();
        for (answer, command) in wanted.iter().zip(&commands) {
            orders.case(*answer, &(0u8, &wanted), &(whole, &answers), command);
        }
        for group in 0..2 {
            let (epoch, mst) = (random.below(1 + u64::from(slots) / 8) as u32, (random.next() & random.next() & 0xFF) as u32);
            card::card_report(&mut state, group, epoch, mst, 0);
            card::card_lapse(&mut state, group);
            if let Ok(sender) = reference.of(group) {
                sender.table.report(epoch, mst, false);
                sender.table.lapse();
            }
        }
    }
}

/// Answers and bytes of an order and of the single calls.
fn from_bytes(random: &mut Random, bytes: &mut Test) {
    let mut state: Vec<u8> = (0..STATE_BYTES).map(|_| random.next() as u8).collect();
    if random.below(2) == 0 {
        card::card_start(random.one_of(&[1u32, 8, 64]), [0, 0], &mut state);
        let n = random.below(100) as usize;
        for c in any_commands(random, n, 64) {
            single(&mut state, &c);
        }
        for _ in 0..random.below(4) {
            let at = random.below(STATE_BYTES as u64) as usize;
            state[at] = random.next() as u8;
        }
    }
    let n = random.below(100) as usize;
    let commands = any_commands(random, n, 64);
    let mut alone = state.clone();
    let wanted: Vec<u8> = commands.iter().map(|c| single(&mut alone, c)).collect();
    let mut answers = vec![0x5Au8; commands.len()];
    let whole = card::card_order(&mut state, &commands, &mut answers);
    bytes.case(0, &(0u8, wanted, alone), &(whole, answers, state), &commands);
}

/// More or fewer answers than commands, or a state of another length: 9, and no byte changes.
fn with_lengths(random: &mut Random, lengths: &mut Test) {
    let length = random.one_of(&[STATE_BYTES, STATE_BYTES, STATE_BYTES, 0, STATE_BYTES - 1, STATE_BYTES + 1]);
    let mut state: Vec<u8> = (0..length).map(|_| random.next() as u8).collect();
    let n = random.below(5) as usize;
    let commands = any_commands(random, n, 64);
    let mut answers = vec![0x5Au8; if random.below(3) == 0 { commands.len() } else { random.below(6) as usize }];
    let fits = length == STATE_BYTES && answers.len() == commands.len();
    let (before, unwritten) = (state.clone(), answers.clone());
    let whole = card::card_order(&mut state, &commands, &mut answers);
    let wanted = if fits { 0 } else { 9 };
    let kept = fits || (state == before && answers == unwritten);
    lengths.case(wanted, &(wanted, true), &(whole, kept), &(length, &commands, unwritten.len()));
}
