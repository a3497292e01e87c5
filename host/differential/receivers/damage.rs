//! State bytes that no call wrote.

use crate::random::Random;
use reference::packet::VC12_START;
use reference::receiver::rows::{rows_for, Row, ROWS_A_PORT};
use reference::receiver::{clock, Receiver, KIND_VC12};

fn flag(random: &mut Random) -> u8 {
    random.one_of(&[0, 0, 1, 1, 7, 255])
}

/// Damages rows, but for kind, count, P and W, so that frames and reports still come to something.
pub fn rows(random: &mut Random, rows: &mut [Row], window: usize) {
    let ports = (rows.len() - 1) / ROWS_A_PORT;
    let first = rows_for(random.below(ports as u64) as usize);
    let any = random.next() as u8;
    let clock = clock(rows[0][0].into());
    match random.below(15) {
        0 => rows[0][6] = flag(random),
        1 => rows[0][7] = flag(random),
        2 => rows[0][8] = any,
        3 => rows[0][9 + random.below(7) as usize] = any,
        4 | 5 => {
            let byte = random.one_of(&[0, 1, 5, 6, 8]);
            rows[first][byte] = flag(random);
        }
        6 => rows[first][2] = random.one_of(&[0, 1, 2, 4, 5, 17, 30, 31, 31, 32, 33, 62, 63, 63, 64, 65, 255]),
        7 => rows[first][7] = random.one_of(&[0, 1, 2, 127, 128, 255]),
        8 => {
            // near the window, or a number that is no tag
            let tag = clock.first_tag(rows[0][8]) + random.below(window as u64 + 2) as usize + clock.tags * random.below(16) as usize;
            rows[first][3..5].copy_from_slice(&(tag as u16).to_be_bytes());
        }
        9 => {
            // of word, number, states and times; a count of times is near one of them
            let byte = random.below(16) as usize;
            rows[first + 1][byte] = random.one_of(&[0, 1, 2, 3, 5, 15, 63, 64, 200, 255]);
            if random.below(4) == 0 {
                let times = 6 + 2 * random.below(2) as usize;
                let time = u16::from_be_bytes([rows[first + 1][times], rows[first + 1][times + 1]]);
                let run = random.one_of(&[time, time.wrapping_sub(1), time.wrapping_add(1), u16::MAX]);
                rows[first + 1][10..12].copy_from_slice(&run.to_be_bytes());
            }
        }
        10 => rows[first][9] = random.one_of(&[0, 1, 2, 3, 3, 4, 255]),
        11 => rows[first][10] = flag(random),
        12 => rows[first][11] = random.one_of(&[0, 1, 15, 16, 31, 32, any]),
        13 => {
            let (row, byte) = (first + 2 + random.below(3) as usize, random.below(16) as usize);
            rows[row][byte] = any;
        }
        _ => {
            let row = first + random.below(ROWS_A_PORT as u64) as usize;
            random.fill(&mut rows[row]);
        }
    }
}

/// Another kind, count, P or W in the group's row.
pub fn sizes(random: &mut Random, group: &mut Row) {
    let byte = random.below(6) as usize;
    group[byte] = random.one_of(&[0, 1, 2, 9, 16, 64, 65, 255]);
}

/// A byte that goes on from what the rows say of a port, most often.
pub fn h4(random: &mut Random, rows: &[Row], port: usize) -> u8 {
    let receiver = Receiver::from_rows(rows);
    let next = receiver.ports.get(port).map_or(0, |p| p.next_tag());
    if receiver.kind == KIND_VC12 {
        return match (random.below(10), next % 32) {
            (0, _) => random.next() as u8,
            (_, 0) => VC12_START + (next / 512) as u8,
            (_, place) if place < 5 => (next / 32 >> (4 - place)) as u8 & 1,
            _ => random.next() as u8 & !VC12_START,
        };
    }
    let count = rows.get(rows_for(port)).map_or(0, |step| step[2]);
    match (random.below(10), next % 16) {
        (0, _) => random.next() as u8,
        (1, _) if count == 1 => random.below(16) as u8 * 16 + 1,
        (_, 0) => (next / 256 * 16) as u8,
        (_, 1) => (next / 16 % 16 * 16 + 1) as u8,
        (_, mfi1) => random.below(16) as u8 * 16 + mfi1 as u8,
    }
}
