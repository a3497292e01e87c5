//! The same for speed: once through the bytes, each port followed as its lines come, digits set in what has come out already. A line is
//! taken by where its fields must stand; where they do not, it is read once more as the plain form reads it.

use super::{without_end, Mended, COUNTS};
use crate::receiver::{KIND_VC12, TIMER_MOST};
use crate::replay::{frame, settings, MALFORMED, OUT_OF_RANGE};

/// A line that breaks its port's count: its number, where its digit stands in the recording and in what comes out, and its count less its
/// place among the port's lines, modulo 16.
#[derive(Clone, Copy, Default)]
struct Broken {
    number: usize,
    torn: usize,
    out: usize,
    offset: u8,
    place: u8,
}

/// A port: the offset of its last good line, its lines so far, and the broken ones since.
#[derive(Clone, Default)]
struct Port {
    good: Option<u8>,
    lines: u8,
    broken: [Broken; 3],
    count: usize,
}

/// What is noted of a line: that it was dropped, from where to where it stood, or that its digit was another.
enum Noted {
    Dropped(usize, usize),
    Restored(usize, u8),
}

impl Port {
    fn take(&mut self, line: Broken, out: &mut [u8], notes: &mut Vec<(usize, Noted)>) {
        if self.good.map_or(true, |good| good == line.offset) {
            self.good = Some(line.offset);
            for broken in &self.broken[..self.count] {
                let digit = b"0123456789ABCDEF"[usize::from((line.offset + broken.place) % COUNTS as u8)];
                out[broken.out] = digit;
                notes.push((broken.number, Noted::Restored(broken.torn, digit)));
            }
            self.count = 0;
        } else if self.count < self.broken.len() {
            self.broken[self.count] = line;
            self.count += 1;
        } else {
            self.afresh(out, notes);
            self.take(line, out, notes);
        }
    }

    /// From the first broken line on, now taken as good.
    fn afresh(&mut self, out: &mut [u8], notes: &mut Vec<(usize, Noted)>) {
        let (broken, count) = (self.broken, self.count);
        self.good = None;
        self.count = 0;
        broken[..count].iter().for_each(|line| self.take(*line, out, notes));
    }
}

/// Whether all of these are hex digits, with no branch in the loop.
fn all_hex(digits: &[u8]) -> bool {
    digits.iter().fold(0, |bad, b| bad | u8::from((b.wrapping_sub(b'0') > 9) & ((b | 0x20).wrapping_sub(b'a') > 5))) == 0
}

fn value(digit: u8) -> u8 {
    if digit <= b'9' {
        digit - b'0'
    } else {
        (digit | 0x20) - b'a' + 10
    }
}

/// The port of a frame's line that begins here, where its count stands and where its bytes end, if the port has one digit or two.
fn at_its_places(text: &[u8], ports: u32, digits: usize) -> Option<(u32, usize, usize)> {
    let (port, tab) = match *text {
        [port, b'\t', ..] if port.is_ascii_digit() => (u32::from(port - b'0'), 1),
        [ten, port, b'\t', ..] if ten.is_ascii_digit() && port.is_ascii_digit() => (u32::from(ten - b'0') * 10 + u32::from(port - b'0'), 2),
        _ => return None,
    };
    let end = tab + 6 + digits;
    let head = text.get(tab + 1..tab + 6)?;
    let right = port < ports && all_hex(&head[..2]) && head[2] == b'\t' && (head[3] == b'0' || head[3] == b'1') && head[4] == b'\t';
    (right && text.len() >= end && matches!(text.get(end), None | Some(b'\n')) && all_hex(&text[tab + 6..end])).then(|| (port, tab + 2, end))
}

pub fn mended(torn: &[u8]) -> Result<Mended, u8> {
    let mut out = Mended::default();
    mend(torn, &mut out).map(|()| out)
}

/// The same into what is lent, whose memory is used again. Under a refusal it is as it was.
pub fn mend(torn: &[u8], to: &mut Mended) -> Result<(), u8> {
    let end_of = |from: usize| torn[from..].iter().position(|b| *b == b'\n').map_or(torn.len(), |end| from + end + 1);
    let first = end_of(0);
    let group = settings(without_end(&torn[..first])).ok_or(MALFORMED)?;
    let times_fit = group.hold_off.iter().chain(&group.restore).all(|time| *time <= TIMER_MOST);
    if !group.fit() || !times_fit {
        return Err(OUT_OF_RANGE);
    }
    let digits = 2 * group.payload as usize;
    let mut payload = vec![0; group.payload as usize];
    let mut ports = vec![Port::default(); group.ports as usize];
    let out = &mut to.recording;
    let mut notes = Vec::new();
    out.clear();
    out.reserve(torn.len());
    out.extend(&torn[..first]);
    let (mut at, mut number) = (first, 2);
    while at < torn.len() {
        let taken = at_its_places(&torn[at..], group.ports, digits).map(|(port, low, end)| (port, low, (at + end + 1).min(torn.len())));
        let (port, low, end) = taken.unwrap_or_else(|| {
            let end = end_of(at);
            let line = without_end(&torn[at..end]);
            let low = line.len().wrapping_sub(digits + 4);
            frame(line, group.ports, &mut payload).map_or((u32::MAX, 0, end), |(port, _, _)| (port, low, end))
        });
        if port == u32::MAX {
            notes.push((number, Noted::Dropped(at, end)));
        } else {
            let follow = &mut ports[port as usize];
            let count = value(torn[at + low]);
            let line = Broken { number, torn: at + low, out: out.len() + low, offset: (count + 16 - follow.lines) % 16, place: follow.lines };
            follow.lines = (follow.lines + 1) % 16;
            out.extend(&torn[at..end]);
            // of VC-12 there is no count to follow
            if group.kind != KIND_VC12 {
                follow.take(line, out, &mut notes);
            }
        }
        at = end;
        number += 1;
    }
    for port in &mut ports {
        while port.count > 0 {
            port.afresh(out, &mut notes);
        }
    }
    write_notes(torn, notes, to);
    Ok(())
}

/// The notes as lines, in the order of the recording.
fn write_notes(torn: &[u8], mut notes: Vec<(usize, Noted)>, out: &mut Mended) {
    notes.sort_unstable_by_key(|(number, _)| *number);
    out.notes.clear();
    (out.dropped, out.restored) = (0, 0);
    for (number, noted) in notes {
        out.notes.extend(number.to_string().bytes());
        match noted {
            Noted::Dropped(from, to) => {
                out.dropped += 1;
                out.notes.extend(b"\tline\t");
                out.notes.extend(without_end(&torn[from..to]));
                out.notes.extend(b"\t\n");
            }
            Noted::Restored(at, digit) => {
                out.restored += 1;
                out.notes.extend([b'\t', b'H', b'4', b'\t', torn[at - 1], torn[at], b'\t', torn[at - 1], digit, b'\n']);
            }
        }
    }
}
