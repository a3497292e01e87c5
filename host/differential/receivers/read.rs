//! What the host reads of a receiver beside ports and reply: what it saw, why the next report is not sure, what the far end says, how far ports lie behind, and its
//! settings. On states that calls returned the reference reads its plain form, on others its rows.

use crate::card;
use crate::random::Random;
use reference::receiver::read;
use reference::receiver::rows::Row;
use reference::receiver::Receiver;

/// Ports whose packets were read so, by what is seen of them: whole, refused, of another number; and what was heard.
#[derive(Default, Debug)]
pub struct Read {
    pub whole: u64,
    pub refused: u64,
    pub other: u64,
    pub heard: u64,
    pub silent: u64,
    pub behind: u64,
    /// By each cause, how often a port above the first is to blame.
    pub blamed: [u64; 8],
}

/// A call of the card with a buffer of the right length, now and then of another.
fn lent<T: Clone>(random: &mut Random, right: usize, blank: T) -> Vec<T> {
    let length = match random.below(40) {
        0 => right + 1,
        1 => right.saturating_sub(1),
        _ => right,
    };
    vec![blank; length]
}

/// The buffer as it is to be: what is expected where its length is right, and as it was under 9.
fn wanted<T: Clone>(expected: &Result<Vec<T>, u8>, lent: &[T]) -> (u8, Vec<T>) {
    match expected {
        Ok(new) if new.len() == lent.len() => (0, new.clone()),
        _ => (9, lent.to_vec()),
    }
}

/// The first call that differs.
pub fn difference(
    random: &mut Random, plain: Option<&Receiver>, by_rows: &[Row], rows: &[Row], ports: usize, read: &mut Read,
) -> Option<(&'static str, usize)> {
    let seen = plain.map_or_else(|| read::seen(by_rows), |p| Ok(p.seen()));
    let cause = plain.map_or_else(|| read::cause(by_rows), |p| Ok(p.cause())).map(Vec::from);
    let heard = plain.map_or_else(|| read::heard(by_rows), |p| Ok(p.heard())).map(Vec::from);
    let behind = plain.map_or_else(|| read::behind(by_rows), |p| Ok(p.behind()));
    let settings = plain.map_or_else(|| read::settings(by_rows), |p| Ok(p.settings())).map(Vec::from);
    let count = seen.as_ref().map_or(ports, Vec::len);
    for s in seen.iter().flatten().filter(|s| s[0] == 1) {
        read.whole += 1;
        read.refused += u64::from(s[1] != 0);
        read.other += u64::from(s[2] == 1);
    }
    for c in cause.iter().filter(|c| (1..read::NOBODY).contains(&c[1])) {
        read.blamed[usize::from(c[0])] += 1;
    }
    read.heard += u64::from(heard.as_ref().map_or(false, |h| h[0] == 1));
    read.silent += u64::from(heard.as_ref().map_or(false, |h| h[0] == 0));
    read.behind += behind.iter().flatten().filter(|b| (1..65535).contains(*b)).count() as u64;

    let mut by_card = lent(random, count, [0xA5; 10]);
    let expected = wanted(&seen, &by_card);
    if (card::receiver_seen(rows, &mut by_card), by_card) != expected {
        return Some(("seen", 0));
    }
    let mut by_card = lent(random, 2, 0xA5);
    let expected = wanted(&cause, &by_card);
    if (card::receiver_cause(rows, &mut by_card), by_card) != expected {
        return Some(("cause", 0));
    }
    let mut by_card = lent(random, 4, 0xA5);
    let expected = wanted(&heard, &by_card);
    if (card::receiver_heard(rows, &mut by_card), by_card) != expected {
        return Some(("heard", 0));
    }
    let mut by_card = lent(random, count, 0xA5A5A5A5);
    let expected = wanted(&behind, &by_card);
    if (card::receiver_behind(rows, &mut by_card), by_card) != expected {
        return Some(("behind", 0));
    }
    let mut by_card = lent(random, 4, 0xA5A5A5A5);
    let expected = wanted(&settings, &by_card);
    if (card::receiver_settings(rows, &mut by_card), by_card) != expected {
        return Some(("settings", 0));
    }
    None
}
