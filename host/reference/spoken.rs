//! The spoken board: what has changed from one board to the next, changes laid on a board, and changes as lines. Boards
//! are 130 bytes as the sender shows them, changes 322.

pub const BOARD_BYTES: usize = 130;
pub const CHANGES_BYTES: usize = 322;
pub const TEXT_ROOM: usize = 2188;
const SLOTS_MOST: usize = 64;

/// A slot's word and number.
type Row = (u8, u8);

struct Change {
    slot: usize,
    old: Row,
    new: Row,
}

fn row(board: &[u8], slot: usize) -> Row {
    (board[2 + 2 * slot], board[3 + 2 * slot])
}

fn is_open(board: &[u8]) -> bool {
    board[1] != 0
}

/// The changes of a list, as many as it says it has, if there is room for so many.
fn listed(changes: &[u8]) -> Option<Vec<Change>> {
    let count = changes[0] as usize;
    if count > SLOTS_MOST {
        return None;
    }
    let each = changes[2..].chunks(5).take(count);
    Some(each.map(|c| Change { slot: c[0] as usize, old: (c[1], c[2]), new: (c[3], c[4]) }).collect())
}

/// Whether some board could be told this: slots that rise, below the most that a board has, each from one thing to another.
fn is_list(changes: &[Change], slots: usize) -> bool {
    changes.iter().all(|c| c.slot < slots && c.old != c.new) && changes.windows(2).all(|two| two[0].slot < two[1].slot)
}

pub fn changes(old: &[u8], new: &[u8], out: &mut [u8]) -> u8 {
    if old.len() != BOARD_BYTES || new.len() != BOARD_BYTES || out.len() != CHANGES_BYTES {
        return 9;
    }
    if old[0] != new[0] || old[0] as usize > SLOTS_MOST {
        return 4;
    }
    let changed: Vec<usize> = (0..old[0] as usize).filter(|i| row(old, *i) != row(new, *i)).collect();
    out.fill(0);
    out[0] = changed.len() as u8;
    out[1] = match (is_open(old), is_open(new)) {
        (false, true) => 1,
        (true, false) => 2,
        _ => 0,
    };
    for (bytes, slot) in out[2..].chunks_mut(5).zip(changed) {
        let (old, new) = (row(old, slot), row(new, slot));
        bytes.copy_from_slice(&[slot as u8, old.0, old.1, new.0, new.1]);
    }
    0
}

pub fn apply(board: &mut [u8], changes: &[u8]) -> u8 {
    if board.len() != BOARD_BYTES || changes.len() != CHANGES_BYTES {
        return 9;
    }
    let slots = board[0] as usize;
    let waits = match changes[1] {
        0 => true,
        1 => !is_open(board),
        2 => is_open(board),
        _ => false,
    };
    let list = match listed(changes) {
        Some(list) if waits && slots <= SLOTS_MOST && is_list(&list, slots) => list,
        _ => return 2,
    };
    if list.iter().any(|c| row(board, c.slot) != c.old) {
        return 2;
    }
    for c in list {
        board[2 + 2 * c.slot] = c.new.0;
        board[3 + 2 * c.slot] = c.new.1;
    }
    let open = if changes[1] == 0 { is_open(board) } else { changes[1] == 1 };
    board[1] = u8::from(open);
    0
}

fn word(code: u8) -> Option<&'static str> {
    match code {
        1 => Some("ADD"),
        2 => Some("NORM"),
        3 => Some("EOS"),
        5 => Some("IDLE"),
        15 => Some("DNU"),
        _ => None,
    }
}

fn wait(byte: u8) -> Option<&'static str> {
    match byte {
        0 => Some(""),
        1 => Some("wait\topen\n"),
        2 => Some("wait\tclosed\n"),
        _ => None,
    }
}

/// The lines of changes that some board could be told, if each word has a name.
fn lines(changes: &[u8]) -> Option<String> {
    let list = listed(changes).filter(|l| is_list(l, SLOTS_MOST))?;
    let mut text = String::new();
    for c in list {
        text += &format!("slot\t{}\twas\t{}\t{}\tnow\t{}\t{}\n", c.slot, word(c.old.0)?, c.old.1, word(c.new.0)?, c.new.1);
    }
    Some(text + wait(changes[1])?)
}

/// How the numbers of some slots go: by nothing or by one with each slot, if they do either.
fn step(numbers: &[u8]) -> Option<u8> {
    [0, 1].into_iter().find(|by| numbers.windows(2).all(|two| two[0].checked_add(*by) == Some(two[1])))
}

fn is_run(list: &[Change]) -> bool {
    let numbers = |of: fn(&Change) -> Row| list.iter().map(|c| of(c).1).collect::<Vec<u8>>();
    let next_to = list.windows(2).all(|two| two[1].slot == two[0].slot + 1);
    let alike = list.iter().all(|c| c.old.0 == list[0].old.0 && c.new.0 == list[0].new.0);
    next_to && alike && step(&numbers(|c| c.old)).is_some() && step(&numbers(|c| c.new)).is_some()
}

/// The changes parted into runs, each as long as it can be.
fn runs(mut list: &[Change]) -> Vec<&[Change]> {
    let mut parts = Vec::new();
    while !list.is_empty() {
        let longest = (1..=list.len()).take_while(|n| is_run(&list[..*n])).last().unwrap_or(1);
        let (run, rest) = list.split_at(longest);
        parts.push(run);
        list = rest;
    }
    parts
}

fn numbers(first: u8, last: u8) -> String {
    if first == last {
        first.to_string()
    } else {
        format!("{}\tto\t{}", first, last)
    }
}

/// The word and the numbers of slots in a run.
fn rows(first: Row, last: Row) -> Option<String> {
    match (first, last) {
        ((5, 255), (5, 255)) => Some("IDLE".to_string()),
        _ => Some(format!("{}\t{}", word(first.0)?, numbers(first.1, last.1))),
    }
}

fn slots(run: &[Change]) -> String {
    format!("slots\t{}\tto\t{}", run[0].slot, run[run.len() - 1].slot)
}

/// The lines of changes in runs, on the same terms.
fn lines_in_runs(changes: &[u8]) -> Option<String> {
    let list = listed(changes).filter(|l| is_list(l, SLOTS_MOST))?;
    let mut text = String::new();
    for run in runs(&list) {
        let (first, last) = (&run[0], &run[run.len() - 1]);
        text += &match run.len() {
            1 => format!("slot\t{}\twas\t{}\t{}\tnow\t{}\t{}\n", first.slot, word(first.old.0)?, first.old.1, word(first.new.0)?, first.new.1),
            _ => format!("{}\twas\t{}\tnow\t{}\n", slots(run), rows(first.old, last.old)?, rows(first.new, last.new)?),
        };
    }
    Some(text + wait(changes[1])?)
}

/// A whole board in runs, if it is one and each word has a name.
pub fn whole(board: &[u8]) -> Option<String> {
    let count = Some(board[0] as usize).filter(|n| *n <= SLOTS_MOST)?;
    let standing: Vec<Change> = (0..count).map(|slot| Change { slot, old: row(board, slot), new: row(board, slot) }).collect();
    let mut text = String::new();
    for run in runs(&standing) {
        let (first, last) = (&run[0], &run[run.len() - 1]);
        text += &match run.len() {
            1 => format!("slot\t{}\t{}\t{}\n", first.slot, word(first.new.0)?, first.new.1),
            _ => format!("{}\t{}\n", slots(run), rows(first.new, last.new)?),
        };
    }
    Some(text + &format!("wait\t{}\n", u8::from(is_open(board))))
}

/// The lines from one board to the next, if these are boards of one group: one a slot, or in runs.
pub fn told(old: &[u8], new: &[u8], in_runs: bool) -> Option<String> {
    let mut list = [0; CHANGES_BYTES];
    if changes(old, new, &mut list) != 0 {
        return None;
    }
    if in_runs {
        lines_in_runs(&list)
    } else {
        lines(&list)
    }
}

/// Lines written to the front of a text, or 2 where there are none to write.
fn written_to(said: Option<String>, text: &mut [u8], written: &mut usize) -> u8 {
    match said {
        None => 2,
        Some(said) => {
            text[..said.len()].copy_from_slice(said.as_bytes());
            *written = said.len();
            0
        }
    }
}

pub fn speak(changes: &[u8], text: &mut [u8], written: &mut usize) -> u8 {
    if changes.len() != CHANGES_BYTES || text.len() < TEXT_ROOM {
        return 9;
    }
    written_to(lines(changes), text, written)
}

pub fn speak_runs(changes: &[u8], text: &mut [u8], written: &mut usize) -> u8 {
    if changes.len() != CHANGES_BYTES || text.len() < TEXT_ROOM {
        return 9;
    }
    written_to(lines_in_runs(changes), text, written)
}

pub fn speak_whole(board: &[u8], text: &mut [u8], written: &mut usize) -> u8 {
    if board.len() != BOARD_BYTES || text.len() < TEXT_ROOM {
        return 9;
    }
    written_to(whole(board), text, written)
}
