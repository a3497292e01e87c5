//! A torn recording mended. Written from the request (2026-11) and its readings, as lists of lines.

pub mod fast;

use crate::receiver::{KIND_VC12, TIMER_MOST};
use crate::replay::{frame, settings, MALFORMED, OUT_OF_RANGE};

const COUNTS: usize = 16;

/// 'After four broken lines in a row', nothing is restored by what comes behind.
const BROKEN_MOST: usize = 3;

/// The counts of one port's lines as they come out. 'A line is good when its count is the last good one plus the lines of that port since,
/// modulo 16. One to three broken lines followed by a good one get their counts restored. After four broken lines in a row, or at the end of
/// the recording, nothing is restored and the following starts afresh at the first broken line, now taken as good.'
pub fn followed(torn: &[u8]) -> Vec<u8> {
    let mut counts = torn.to_vec();
    let mut good = 0;
    while good + 1 < counts.len() {
        let from = usize::from(counts[good]);
        let told = |line: usize| ((from + line - good) % COUNTS) as u8;
        let mut ahead = good + 1..counts.len().min(good + BROKEN_MOST + 2);
        match ahead.find(|line| counts[*line] == told(*line)) {
            Some(next) => {
                (good + 1..next).for_each(|line| counts[line] = told(line));
                good = next;
            }
            None => good += 1,
        }
    }
    counts
}

fn without_end(line: &[u8]) -> &[u8] {
    line.strip_suffix(b"\n").unwrap_or(line)
}

/// What comes out, with one note for each line that was dropped or altered, and how many of each there are.
#[derive(Debug, Default, PartialEq, Eq)]
pub struct Mended {
    pub recording: Vec<u8>,
    pub notes: Vec<u8>,
    pub dropped: usize,
    pub restored: usize,
}

/// A recording lent whole; Err has the answer of one that is refused.
pub fn mended(torn: &[u8]) -> Result<Mended, u8> {
    let mut lines = torn.split_inclusive(|b| *b == b'\n');
    let first = lines.next().unwrap_or_default();
    let group = settings(without_end(first)).ok_or(MALFORMED)?;
    let times_fit = group.hold_off.iter().chain(&group.restore).all(|time| *time <= TIMER_MOST);
    if !group.fit() || !times_fit {
        return Err(OUT_OF_RANGE);
    }

    // each line with its port, if it is a frame's
    let mut payload = vec![0; group.payload as usize];
    let mut counts = vec![Vec::new(); group.ports as usize];
    let mut read = Vec::new();
    for line in lines {
        let port = frame(without_end(line), group.ports, &mut payload).map(|(port, h4, _)| {
            counts[port as usize].push(h4 % COUNTS as u8);
            port as usize
        });
        read.push((line, port));
    }
    // VC-12's lines have no H4 count (2026-01)
    let counted = group.kind != KIND_VC12;
    let followed: Vec<Vec<u8>> = counts.iter().map(|counts| if counted { followed(counts) } else { counts.clone() }).collect();

    let mut out = Mended { recording: first.to_vec(), notes: Vec::new(), dropped: 0, restored: 0 };
    let mut before = vec![0; counts.len()];
    for (i, (line, port)) in read.iter().enumerate() {
        let (number, text) = (i + 2, without_end(line));
        let port = match port {
            Some(port) => *port,
            None => {
                out.notes.extend(format!("{}\tline\t", number).bytes().chain(text.iter().copied()).chain(*b"\t\n"));
                out.dropped += 1;
                continue;
            }
        };
        let start = out.recording.len();
        out.recording.extend(*line);
        let (was, is) = (counts[port][before[port]], followed[port][before[port]]);
        before[port] += 1;
        if was != is {
            // before the payload stand H4, a tab, the flag and a tab
            let low = text.len() - 2 * payload.len() - 4;
            let (high, old) = (char::from(text[low - 1]), char::from(text[low]));
            out.recording[start + low] = format!("{:X}", is).as_bytes()[0];
            out.notes.extend(format!("{}\tH4\t{}{}\t{}{:X}\n", number, high, old, high, is).bytes());
            out.restored += 1;
        }
    }
    Ok(out)
}

/// A note taken apart: the line's number, the field, its old text, which may hold tabs, and its new one.
fn note(line: &[u8]) -> Option<(usize, &[u8], &[u8])> {
    let tab = |text: &[u8]| text.iter().position(|b| *b == b'\t');
    let (number, rest) = line.split_at(tab(line)?);
    let (field, rest) = rest[1..].split_at(tab(&rest[1..])?);
    let last = rest.iter().rposition(|b| *b == b'\t').filter(|last| *last > 0)?;
    Some((std::str::from_utf8(number).ok()?.parse().ok()?, field, &rest[1..last]))
}

/// The torn recording again, from what came out and the notes, with an end behind a dropped last line.
pub fn undone(mended: &[u8], notes: &[u8]) -> Option<Vec<u8>> {
    let mut lines = mended.split_inclusive(|b| *b == b'\n');
    let mut notes = notes.split(|b| *b == b'\n').filter(|line| !line.is_empty()).map(note);
    let mut next = notes.next();
    let mut torn = Vec::new();
    for number in 1.. {
        let noted = match next {
            Some(None) => return None,
            Some(Some((of, field, old))) if of == number => {
                next = notes.next();
                Some((field, old))
            }
            _ => None,
        };
        match noted {
            Some((b"line", old)) => torn.extend(old.iter().copied().chain([b'\n'])),
            Some((_, old)) => {
                let line = lines.next()?;
                let tab = line.iter().position(|b| *b == b'\t')?;
                torn.extend(line[..=tab].iter().chain(old).chain(&line[tab + 1 + old.len()..]));
            }
            None => match lines.next() {
                Some(line) => torn.extend(line),
                None => break,
            },
        }
    }
    next.is_none().then(|| torn)
}
