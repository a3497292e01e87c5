//! Made-up recordings: ports with delays of their own that send packets, fail, lose frames and bring damaged ones, written as
//! lines of which some are torn.

use crate::random::Random;
use reference::packet::{self, Fields};
use reference::receiver::{epoch_of, PAYLOAD_VC12, TAGS};

const EPOCH: usize = 16;

/// VC-12: the frames of an epoch, and how many epochs there are.
const EPOCH_VC12: usize = 32;
const EPOCHS_VC12: usize = 32;

/// The words and numbers of all ports in one epoch: some are active, the others IDLE; now and then two share a number.
fn words(random: &mut Random, ports: usize) -> Vec<(u32, u32)> {
    let active = random.below(ports as u64 + 1) as usize;
    (0..ports)
        .map(|port| match port {
            _ if port + 1 == active => (packet::EOS, port as u32),
            _ if port < active && random.below(40) == 0 => (packet::NORM, 0),
            _ if port < active && random.below(20) == 0 => (packet::DNU, port as u32),
            _ if port < active => (packet::NORM, port as u32),
            _ if random.below(6) == 0 => (packet::ADD, port as u32),
            _ => (packet::IDLE, 255),
        })
        .collect()
}

/// What a port sends: an H4 byte for each tag of a stretch of time.
struct Sending {
    h4: Vec<Vec<u8>>,
}

fn sending(random: &mut Random, ports: usize, first: usize, frames: usize, fixed: bool) -> Sending {
    let mut h4 = vec![vec![0; frames]; ports];
    let mut said = words(random, ports);
    let start = (first + 8) / EPOCH * EPOCH;
    for epoch_start in (start..first + frames + EPOCH).step_by(EPOCH) {
        if random.below(5) == 0 {
            said = words(random, ports);
        }
        // an epoch's first frame has MFI1 8 of the multiframe before
        let tag = epoch_start + TAGS - 8;
        for (port, (word, sq)) in said.iter().enumerate() {
            let mut sixteen = [0; EPOCH];
            let epoch = u32::from(epoch_of(tag % TAGS));
            if fixed {
                // mostly each port's own number
                let own = if random.below(60) == 0 { *sq } else { port as u32 };
                packet::write_fixed(epoch, own, &mut sixteen);
            } else {
                let fields = Fields { epoch, word: *word, gid: 0, mst: random.below(256) as u32, rs_ack: 0, sq: *sq, reserved: 0 };
                packet::write(&fields, &mut sixteen);
            }
            for (k, byte) in sixteen.iter().enumerate() {
                let place = (epoch_start + k).wrapping_sub(first + 8);
                if place < frames {
                    h4[port][place] = *byte;
                }
            }
        }
    }
    Sending { h4 }
}

/// The same of VC-12: a byte for each frame, with 2 for a packet's start.
fn sending_vc12(random: &mut Random, ports: usize, first: usize, frames: usize) -> Sending {
    let mut h4 = vec![vec![0; frames]; ports];
    let mut said = words(random, ports);
    for epoch in first / EPOCH_VC12..(first + frames) / EPOCH_VC12 + 1 {
        if random.below(5) == 0 {
            said = words(random, ports);
        }
        for (port, (word, sq)) in said.iter().enumerate() {
            let mut bytes = [0; EPOCH_VC12];
            // IDLE's number is 63
            let (epoch_sent, sq) = ((epoch % EPOCHS_VC12) as u32, (*sq).min(63));
            let fields = Fields { epoch: epoch_sent, word: *word, gid: 0, mst: random.below(256) as u32, rs_ack: 0, sq, reserved: 0 };
            packet::write_vc12(&fields, &mut bytes);
            for (k, byte) in bytes.iter().enumerate() {
                let place = (epoch * EPOCH_VC12 + k).wrapping_sub(first);
                if place < frames {
                    h4[port][place] = *byte;
                }
            }
        }
    }
    Sending { h4 }
}

pub fn line(port: usize, h4: u8, flag: u8, payload: &[u8], lower: bool) -> Vec<u8> {
    let mut line = format!("{}\t{:02X}\t{}\t", port, h4, flag).into_bytes();
    for byte in payload {
        line.extend(if lower { format!("{:02x}", byte) } else { format!("{:02X}", byte) }.bytes());
    }
    line
}

/// Ports, P and W, and pairs in any order; no name stands for no kind.
fn first_line(random: &mut Random, ports: usize, size: usize, window: usize, kind: &str) -> Vec<u8> {
    let mut pairs = Vec::new();
    if !kind.is_empty() {
        pairs.push(format!("\tkind\t{}", kind));
    }
    for name in ["hold-off", "wait-to-restore"] {
        if random.below(2) == 0 {
            let most = random.one_of(&[1, 3, 20, 5001]);
            let list: String = (0..ports).map(|_| format!("\t{}", random.below(most))).collect();
            let place = random.below(pairs.len() as u64 + 1) as usize;
            pairs.insert(place, format!("\t{}{}", name, list));
        }
    }
    format!("{}\t{}\t{}{}", ports, size, window, pairs.concat()).into_bytes()
}

/// A line that is none, mostly made of a good one.
fn torn(random: &mut Random, good: &[u8]) -> Vec<u8> {
    let mut line = good.to_vec();
    let at = random.below(line.len() as u64) as usize;
    match random.below(10) {
        0 => line.truncate(at),
        1 => line[at] = random.below(256) as u8,
        2 => line.insert(at, b'\t'),
        3 => {
            line.remove(at);
        }
        4 => line.push(b'\r'),
        5 => line.clear(),
        6 => line.push(b'0'),
        7 => line.resize(random.one_of(&[8191, 8192, 8193, 8200, 70_000]), b'0'),
        8 => line.splice(0..1, *b"64").for_each(drop),
        _ => line.extend(b"\t0"),
    }
    line.retain(|b| *b != b'\n');
    line
}

/// Lines without their ends, the settings first, for so many frames of each port.
pub fn made_up(random: &mut Random, frames: usize) -> Vec<Vec<u8>> {
    let ports = random.one_of(&[1, 1, 2, 3, 5]);
    let kind = random.one_of(&["", "", "H4", "FIXED", "VC12"]);
    let vc12 = kind == "VC12";
    let size = if vc12 { PAYLOAD_VC12 as usize } else { random.one_of(&[1, 2, 3, 30]) };
    let window = if vc12 { random.one_of(&[32, 33, 48, 64, 80]) } else { random.one_of(&[16, 17, 32, 48, 64, 100]) };
    let mut lines = vec![first_line(random, ports, size, window, kind)];
    let first = if vc12 { random.one_of(&[0, 9, 992, 1000]) } else { random.one_of(&[0, 8, 4000, 4088]) };
    let sending = if vc12 { sending_vc12(random, ports, first, frames) } else { sending(random, ports, first, frames, kind == "FIXED") };
    let spread = random.one_of(&[0, 0, 4, 15, 40]);
    let delays: Vec<usize> = (0..ports).map(|_| random.below(spread + 1) as usize).collect();
    let mut payload = vec![0; size];
    for time in 0..frames {
        for port in 0..ports {
            if time < delays[port] || random.below(2000) == 0 {
                continue;
            }
            let mut h4 = sending.h4[port][time - delays[port]];
            if random.below(500) == 0 {
                h4 ^= 1 << random.below(8);
            }
            let flag = u8::from(random.below(1000) == 0);
            random.fill(&mut payload);
            let good = line(port, h4, flag, &payload, random.below(4) == 0);
            if random.below(100) == 0 {
                let bad = torn(random, &good);
                lines.push(bad);
            }
            lines.push(good);
        }
    }
    lines
}

/// First lines that are refused, or of the greatest store that is lent and of one port more; pairs that are taken and that are not.
pub fn openings() -> Vec<Vec<u8>> {
    let mut lines: Vec<Vec<u8>> = [
        "x", "", "0\t1\t16", "1\t0\t16", "1\t1\t15", "65\t1\t16", "1\t2341\t16", "1\t1\t2049", "1\t1", "1\t1\t16\t", "1\t1\t16\tkind\tH4", "1\t1\t16\r",
        "1\t1 \t16", "000000001\t1\t16", "0000000001\t1\t16", "1\t100000\t16", "999999999\t1\t16", "4294967297\t1\t16", "-1\t1\t16", "64\t1\t512",
        "64\t1\t513", "63\t1\t520", "64\t63\t16", "64\t64\t16", "32\t31\t64", "33\t31\t64", "16\t63\t64", "17\t63\t64", "1\t31\t2048", "1\t32\t2048",
        "6\t756\t64", "1\t1\t16\tkind", "1\t1\t16\tkind\t", "1\t1\t16\tkind\tK4", "1\t1\t16\tkind\tFIXED", "1\t1\t16\tkind\tfixed",
        "1\t1\t16\tkind\tH4\tkind\tH4", "1\t1\t16\tkind\tH4\t", "1\t1\t16\thold-off", "1\t1\t16\thold-off\t", "1\t1\t16\thold-off\t0",
        "1\t1\t16\thold-off\t5000", "1\t1\t16\thold-off\t5001", "1\t1\t16\thold-off\t999999999", "1\t1\t16\thold-off\t0000005000",
        "1\t1\t16\thold-off\t000005000", "1\t1\t16\thold-off\t5\t5", "2\t1\t16\thold-off\t5", "2\t1\t16\thold-off\t5\tx", "1\t1\t16\thold-off\t5\thold-off\t5",
        "1\t1\t16\twait-to-restore\t5", "1\t1\t16\twait-to-restore\t5001", "1\t1\t16\twait-to-restore\t1\thold-off\t2",
        "1\t1\t16\thold-off\t1\twait-to-restore\t2", "1\t1\t16\thold-off\t5001\twait-to-restore\tx", "1\t1\t16\thold-off\t1\twait-to-restore",
        "1\t1\t16\twait_to_restore\t1", "1\t1\t16\tkind\tFIXED\thold-off\t3\twait-to-restore\t4", "1\t1\t16\thold-off\t3\twait-to-restore\t4\tkind\tFIXED",
        "0\t1\t16\thold-off", "0\t1\t16\thold-off\t1", "1\t1\t16\thold-off\tkind\tH4", "1\t1\t16\t\tkind\tH4", "1\t136\t32\tkind\tVC12",
        "1\t135\t32\tkind\tVC12", "1\t137\t32\tkind\tVC12", "1\t1\t32\tkind\tVC12", "1\t136\t31\tkind\tVC12", "1\t136\t478\tkind\tVC12",
        "1\t136\t479\tkind\tVC12", "1\t136\t512\tkind\tVC12", "1\t136\t513\tkind\tVC12", "14\t136\t32\tkind\tVC12", "15\t136\t32\tkind\tVC12",
        "1\t136\t32\tkind\tvc12", "1\t136\t32\tkind\tVC-12", "1\t136\t32\tkind\tVC12\thold-off\t5000", "1\t136\t32\thold-off\t5001\tkind\tVC12",
        "999999999\t1\t16\thold-off\t1",
    ]
    .iter()
    .map(|l| l.as_bytes().to_vec())
    .collect();
    // a first line of 8,192 bytes, which is long and malformed, and one byte more
    lines.push(vec![b'1'; 8192]);
    lines.push(vec![b'1'; 8193]);
    // both lists of 64 ports with nine digits, which fit into a line, and of 65 ports
    for ports in [64, 65] {
        for time in ["000005000", "000005001"] {
            let list = format!("\t{}", time).repeat(ports);
            lines.push(format!("{}\t1\t16\thold-off{}\twait-to-restore{}", ports, list, list).into_bytes());
        }
    }
    lines
}

/// Frames of one port with a payload such that a line has 8,192 bytes or one more by its leading zeros.
pub fn long_lines() -> Vec<Vec<u8>> {
    let mut lines = vec![b"1\t2340\t16".to_vec()];
    let payload = vec![0xA5; 2340];
    for tag in 0..40 {
        lines.push(line(0, (tag % 16) as u8, 0, &payload, false));
        for length in [8191, 8192, 8193] {
            let mut long = line(0, (tag % 16) as u8, 0, &payload, false);
            long.resize(length, b'0');
            lines.push(long);
        }
    }
    lines
}
