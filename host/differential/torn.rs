//! Torn recordings, made up: lines cut, run together and damaged, counts that jump, and lines that are too long.

use crate::random::Random;

const COUNTS: u64 = 16;
const PAYLOAD_VC12: u64 = 136;

/// A first line: mostly one that is taken, with pairs now and then.
fn first_line(random: &mut Random, ports: u64, size: u64) -> Vec<u8> {
    let vc12 = size == PAYLOAD_VC12 && random.below(8) > 0;
    let windows: &[u64] = if vc12 { &[31, 32, 64, 64, 64, 512, 512, 513] } else { &[16, 17, 64, 64, 64, 2048, 2048, 2049] };
    let mut line = format!("{}\t{}\t{}", ports, size, random.one_of(windows));
    if vc12 {
        line += "\tkind\tVC12";
    } else if random.below(4) == 0 {
        line += random.one_of(&["\tkind\tH4", "\tkind\tFIXED", "\tkind\tFIXED", "\tkind\tK4", "\tkind\tVC12"]);
    }
    for name in ["hold-off", "wait-to-restore"] {
        if random.below(4) == 0 {
            let times: &[u32] = if random.below(6) == 0 { &[5000, 5001] } else { &[0, 7, 5000] };
            let list: String = (0..ports).map(|_| format!("\t{}", random.one_of(times))).collect();
            line += &format!("\t{}{}", name, list);
        }
    }
    if random.below(30) == 0 {
        line += random.one_of(&["\t", "\r", "\thold-off", " "]);
    }
    line.into_bytes()
}

/// The digits of a payload, and of H4, in either case.
fn digits(random: &mut Random, count: u64) -> Vec<u8> {
    (0..count).map(|_| random.one_of(b"0123456789abcdefABCDEF")).collect()
}

/// A line and its end, in some way torn: the power was lost in it, it has run together with the next one, or a byte is another.
fn tear(random: &mut Random, line: &mut Vec<u8>) {
    let at = random.below(line.len() as u64) as usize;
    match random.below(9) {
        0 => line.truncate(at),
        1 => line.drain(..at).for_each(drop),
        2 => line.pop().into_iter().for_each(drop),
        3 => line[at] = random.below(256) as u8,
        4 => line[at] = random.one_of(b"\t\n\r 0aF"),
        5 => line.insert(at, random.one_of(b"\t\n0")),
        6 => line.insert(0, b'\n'),
        7 => {
            let length = random.one_of(&[8191, 8192, 8193, 9000]);
            line.splice(0..0, std::iter::repeat(b'0').take(length)).for_each(drop);
        }
        _ => line.splice(0..1, *b"63").for_each(drop),
    }
}

/// Ports that count, some of them badly, in a recording of so many lines.
pub fn recording(random: &mut Random, lines: u64) -> Vec<u8> {
    let ports = random.one_of(&[1, 1, 2, 3, 5, 64]);
    let size = random.one_of(&[1, 1, 1, 1, 2, 2, 30, PAYLOAD_VC12]);
    let mut text = first_line(random, ports, size);
    text.push(b'\n');
    let mut counts: Vec<u64> = (0..ports).map(|_| random.below(COUNTS)).collect();
    let (jumps, breaks, tears) = (random.one_of(&[4, 12, 60]), random.one_of(&[2, 3, 10]), random.one_of(&[3, 20, 100]));
    for _ in 0..lines {
        let among = random.one_of(&[1, ports]);
        let port = random.below(among) as usize;
        counts[port] += if random.below(jumps) == 0 { random.below(COUNTS) } else { 1 };
        let low = if random.below(breaks) == 0 { random.below(COUNTS) } else { counts[port] % COUNTS };
        let low = if random.below(2) == 0 { format!("{:x}", low) } else { format!("{:X}", low) };
        let mut line = format!("{}{}\t", random.one_of(&["", "", "", "0", "000000"]), port).into_bytes();
        line.extend(digits(random, 1));
        line.extend(low.bytes());
        line.extend(format!("\t{}\t", random.below(2)).bytes());
        line.extend(digits(random, 2 * size));
        line.push(b'\n');
        if random.below(tears) == 0 {
            tear(random, &mut line);
        }
        text.extend(line);
    }
    // the end may be missing, or more
    let missing = random.one_of(&[0, 0, 1, 2, 5, 12]);
    text.truncate(text.len().saturating_sub(missing));
    text
}

/// Any bytes, mostly those of which recordings are made.
pub fn any_bytes(random: &mut Random, most: u64) -> Vec<u8> {
    let length = random.below(most + 1);
    let plain = random.below(4) > 0;
    let byte = |random: &mut Random| if plain { random.one_of(b"\t\t\t\n0011aF5x") } else { random.below(256) as u8 };
    let mut text: Vec<u8> = (0..length).map(|_| byte(random)).collect();
    if random.below(2) == 0 {
        text.splice(0..0, *b"2\t1\t16\n").for_each(drop);
    }
    text
}

/// A whole recording torn behind its first line: bytes damaged, taken out and put in, and its end cut off.
#[allow(dead_code)] // not used by every test
pub fn tear_all(random: &mut Random, text: &mut Vec<u8>) {
    let first = text.iter().position(|b| *b == b'\n').map_or(text.len(), |end| end + 1);
    for _ in 0..1 + random.below(12) {
        if text.len() == first {
            return;
        }
        let at = first + random.below((text.len() - first) as u64) as usize;
        match random.below(8) {
            0 => text[at] = random.below(256) as u8,
            1 => text[at] = random.one_of(b"0123456789ABCDEF\t\n"),
            2 => {
                text.remove(at);
            }
            3 => text.insert(at, random.one_of(b"\t\n0")),
            // the count of a line, two bytes behind its first tab
            4..=6 => {
                let tab =
                    text[at..].iter().position(|b| *b == b'\n').and_then(|end| text[at + end..].iter().position(|b| *b == b'\t').map(|tab| at + end + tab));
                if let Some(digit) = tab.and_then(|tab| text.get_mut(tab + 2)) {
                    *digit = random.one_of(b"0123456789abcdefABCDEF");
                }
            }
            _ => {
                let end = text.len().min(at + random.below(200) as usize);
                text.drain(at..end).for_each(drop);
            }
        }
    }
    let missing = random.below(40) as usize;
    text.truncate((text.len().saturating_sub(missing)).max(first));
}
