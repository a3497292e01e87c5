//! The receiver's state as lent rows of sixteen bytes: row 0 the group's, then five a port: step, member, the packet being
//! gathered, the packet that rules, marks. Numbers of two bytes have the higher one first. Any rows are a state, and
//! bytes that have no meaning stay as they are.
//!
//! On rows that calls returned, a frame does what it does in the plain form. On rows that no call returned 01 says nothing,
//! and the proved definitions do (crates/step/specs): the second frame of a run has MFI1 1, whatever tag stands there
//! as the next; a port that is not in step has not joined, whatever stands there; and only some frames are looked at for
//! what follows for all ports.

use super::{Flag, Port, Receiver, Report, Shown, KIND_FIXED, KIND_H4, KIND_VC12};

pub type Row = [u8; 16];

pub const ROWS_A_PORT: usize = 5;

/// The rows of a group of so many ports.
pub fn rows_for(ports: usize) -> usize {
    ports * ROWS_A_PORT + 1
}

fn pair(row: &Row, at: usize) -> u16 {
    u16::from_be_bytes([row[at], row[at + 1]])
}

fn put_pair(row: &mut Row, at: usize, number: u16) {
    row[at..at + 2].copy_from_slice(&number.to_be_bytes());
}

impl Port {
    fn from_rows(kind: u32, rows: &[Row; ROWS_A_PORT]) -> Port {
        let [step, member, gathering, ruling, marks] = rows;
        Port {
            kind,
            had: Flag(step[0]),
            failed: Flag(step[1]),
            count: step[2],
            next: pair(step, 3),
            joined: Flag(step[5]),
            since: Flag(step[6]),
            later: step[7],
            whole: Flag(step[8]),
            breaks: step[9],
            odd: Flag(step[10]),
            bits: step[11],
            word: member[0],
            number: member[1],
            state: member[2],
            state_number: member[3],
            told_word: member[4],
            told_number: member[5],
            hold_off: pair(member, 6),
            restore: pair(member, 8),
            run: pair(member, 10),
            gathering: *gathering,
            ruling: *ruling,
            // mark i is bit i mod 8, lowest first, of byte i div 8
            marks: u128::from_le_bytes(*marks),
        }
    }

    fn to_rows(&self, rows: &mut [Row]) {
        let step = &mut rows[0];
        (step[0], step[1], step[2]) = (self.had.0, self.failed.0, self.count);
        put_pair(step, 3, self.next);
        (step[5], step[6], step[7], step[8]) = (self.joined.0, self.since.0, self.later, self.whole.0);
        (step[9], step[10], step[11]) = (self.breaks, self.odd.0, self.bits);
        let member = &mut rows[1];
        member[..6].copy_from_slice(&[self.word, self.number, self.state, self.state_number, self.told_word, self.told_number]);
        put_pair(member, 6, self.hold_off);
        put_pair(member, 8, self.restore);
        put_pair(member, 10, self.run);
        rows[2] = self.gathering;
        rows[3] = self.ruling;
        rows[4] = self.marks.to_le_bytes();
    }
}

impl Receiver {
    /// No rows, or a kind, count, P or W out of range, are an empty group. Rows that are not there read as zeros.
    pub fn from_rows(rows: &[Row]) -> Receiver {
        let row = |at: usize| rows.get(at).copied().unwrap_or([0; 16]);
        let group = row(0);
        let (kind, count, payload, window) = (group[0], group[1], pair(&group, 2), pair(&group, 4));
        if !Receiver::fits_as(kind.into(), count.into(), payload.into(), window.into()) {
            return Receiver { kind: kind.into(), ..Receiver::empty() };
        }
        let port = |i: usize| Port::from_rows(kind.into(), &std::array::from_fn(|k| row(rows_for(i) + k)));
        Receiver {
            kind: kind.into(),
            ports: (0..usize::from(count)).map(port).collect(),
            payload: payload.into(),
            window: window.into(),
            begun: Flag(group[6]),
            gathered: Flag(group[7]),
            oldest: group[8],
            origin: pair(&group, 9),
            rs_ack: Flag(group[11]),
        }
    }

    /// Writes the state into rows that fit it.
    pub fn to_rows(&self, rows: &mut [Row]) {
        let group = &mut rows[0];
        (group[0], group[1]) = (self.kind as u8, self.ports.len() as u8);
        put_pair(group, 2, self.payload as u16);
        put_pair(group, 4, self.window as u16);
        (group[6], group[7], group[8]) = (self.begun.0, self.gathered.0, self.oldest);
        put_pair(group, 9, self.origin);
        group[11] = self.rs_ack.0;
        for (port, rows) in self.ports.iter().zip(rows[1..].chunks_mut(ROWS_A_PORT)) {
            port.to_rows(rows);
        }
    }
}

/// Whether the number of rows fits the group in them. Any number fits an empty group.
pub(super) fn fit(receiver: &Receiver, rows: &[Row]) -> bool {
    receiver.ports.is_empty() || rows.len() == rows_for(receiver.ports.len())
}

/// A start writes every byte; a refusal with 4 the group's row alone, if it is lent, in which nothing but the kind stands. The kind is a
/// byte there, 255 for all that are greater.
pub fn start(rows: &mut [Row], ports: u32, payload: u32, window: u32, store_length: usize) -> u8 {
    start_as(rows, KIND_H4, ports, payload, window, store_length, &[], &[])
}

pub fn start_as(rows: &mut [Row], kind: u32, ports: u32, payload: u32, window: u32, store_length: usize, hold_off: &[u32], restore: &[u32]) -> u8 {
    let mut receiver = Receiver::empty();
    let answer = receiver.start_as(kind, ports, payload, window, store_length, hold_off, restore);
    match answer {
        0 if !fit(&receiver, rows) => return 9,
        0 => {
            rows.fill([0; 16]);
            receiver.to_rows(rows);
        }
        4 => {
            if let Some(group) = rows.first_mut() {
                *group = [0; 16];
                group[0] = kind.min(255) as u8;
            }
        }
        _ => {}
    }
    answer
}

/// A port one frame into a run, of whose next tag nothing is known but MFI2's high nibble. Of VC-12 the first packet's tag is not
/// looked at before its count has come.
fn after_first_frame(port: &mut Port) {
    if port.kind != KIND_VC12 && port.count == 1 {
        port.next = (port.next_tag() / 256 * 256 + 1) as u16;
    }
}

/// Whether something may follow for all ports from a frame that was not refused: where receiving has not begun, where a
/// port that was in step no longer is, and where the first epoch's last frame is stored.
fn concerns_all(before: &Receiver, now: &Receiver, port: usize) -> bool {
    let (was, is) = (&before.ports[port], &now.ports[port]);
    let clock = now.clock();
    let ends_oldest = clock.after(is.latest_tag(), clock.first_tag(now.oldest)) == clock.frames - 1;
    let loses_step = was.in_step() && !is.in_step();
    !before.begun.is_set() || loses_step || is.in_step() && is.joined.is_set() && ends_oldest && !before.gathered.is_set()
}

pub fn frame(rows: &mut [Row], port: u32, flagged: bool, h4: u8, payload: &[u8], store: &mut [u8]) -> u8 {
    let mut receiver = Receiver::from_rows(rows);
    if (port as usize) < receiver.ports.len() && !fit(&receiver, rows) {
        return 9;
    }
    if let Some(port) = receiver.ports.get_mut(port as usize) {
        after_first_frame(port);
    }
    let before = receiver.clone();
    let answer = receiver.take(port, flagged, h4, payload, store);
    if !matches!(answer, 0 | 10 | 12) {
        return answer;
    }
    let port = port as usize;
    if !receiver.ports[port].in_step() {
        receiver.ports[port].leave();
    }
    if concerns_all(&before, &receiver, port) {
        receiver.follow(store);
    }
    receiver.to_rows(rows);
    answer
}

pub fn fetch(rows: &mut [Row], store: &[u8], output: &mut [u8]) -> (u8, Report) {
    let mut receiver = Receiver::from_rows(rows);
    if !fit(&receiver, rows) {
        return (9, Report::NONE);
    }
    let (answer, report) = receiver.fetch(store, output);
    if report != Report::NONE {
        receiver.to_rows(rows);
    }
    (answer, report)
}

pub fn ports(rows: &[Row]) -> Result<Vec<Shown>, u8> {
    let receiver = Receiver::from_rows(rows);
    if fit(&receiver, rows) {
        Ok(receiver.ports())
    } else {
        Err(9)
    }
}

/// RS-Ack is read from the group's row, also where the group is an empty one, unless that is FIXED.
pub fn reply(rows: &[Row], epoch: u8) -> Result<(u8, u8), u8> {
    let receiver = Receiver::from_rows(rows);
    if !fit(&receiver, rows) {
        return Err(9);
    }
    let (mst, _) = receiver.reply(epoch);
    let turned = rows.first().map_or(false, |group| group[11] != 0) && receiver.kind != KIND_FIXED;
    Ok((mst, u8::from(turned)))
}
