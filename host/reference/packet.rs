//! The H4 control packet, that of a fixed group (request 2026-12), and that of VC-12 (request 2026-01).

pub const PACKET_BYTES: usize = 16;
pub const FIELDS_BYTES: usize = 10;
/// The greatest number that the reserved bits make.
pub const RESERVED_MOST: u32 = (1 << 26) - 1;

pub const DONE: u8 = 0;
pub const CRC_DIFFERS: u8 = 5;
pub const WORD_UNASSIGNED: u8 = 6;
pub const WORD_FIXED: u8 = 7;
pub const FIELD_REFUSED: u8 = 8;
pub const LENGTH_WRONG: u8 = 9;

pub const FIXED: u32 = 0;
pub const ADD: u32 = 1;
pub const NORM: u32 = 2;
pub const EOS: u32 = 3;
pub const IDLE: u32 = 5;
pub const DNU: u32 = 15;

/// The words that a packet may carry.
pub const WORDS: [u32; 5] = [ADD, NORM, EOS, IDLE, DNU];

/// What a caller asks to be written.
#[derive(Clone, Copy, PartialEq, Eq, Debug)]
pub struct Fields {
    pub epoch: u32,
    pub word: u32,
    pub gid: u32,
    pub mst: u32,
    pub rs_ack: u32,
    pub sq: u32,
    /// The reserved bits and the zeros beside RS-Ack and GID.
    pub reserved: u32,
}

/// The reserved and zero bits in the order of sending: of each frame its MFI1 and how many of its nibble's bits, from the
/// highest on.
const RESERVED: [(usize, u32); 7] = [(10, 3), (11, 4), (12, 4), (13, 4), (3, 3), (4, 4), (5, 4)];

/// The MFI1 of the frame that carries the i-th nibble: 8 to 15, then 0 to 7.
fn mfi1_of_place(i: usize) -> usize {
    (i + 8) % 16
}

/// The place in the packet of the nibble that the frame with this MFI1 carries.
fn place_of_mfi1(mfi1: usize) -> usize {
    (mfi1 + 8) % 16
}

/// The remainder of the first 56 of 64 bits, first bit highest, by x^8+x^2+x+1: long division, with the last eight
/// bits taken as 0.
pub fn crc(nibbles: &[u8; 16]) -> u8 {
    let mut dividend: u64 = 0;
    for i in 0..14 {
        dividend = dividend << 4 | u64::from(nibbles[i]);
    }
    dividend <<= 8;
    for degree in (8..64).rev() {
        if dividend >> degree & 1 == 1 {
            dividend ^= 0b1_0000_0111 << (degree - 8);
        }
    }
    dividend as u8
}

/// The nibbles of a packet with these fields, in the order of sending.
fn nibbles_of(f: &Fields) -> [u8; 16] {
    let mut nibbles = [0u8; 16];
    {
        let mut put = |mfi1: usize, value: u32| nibbles[place_of_mfi1(mfi1)] = value as u8;
        put(0, f.epoch / 16);
        put(1, f.epoch % 16);
        put(2, f.word);
        put(3, f.gid);
        put(8, f.mst / 16);
        put(9, f.mst % 16);
        put(10, f.rs_ack);
        put(14, f.sq / 16);
        put(15, f.sq % 16);
    }
    let mut left = 26;
    for (mfi1, bits) in RESERVED {
        for bit in (4 - bits..4).rev() {
            left -= 1;
            nibbles[place_of_mfi1(mfi1)] |= ((f.reserved >> left & 1) << bit) as u8;
        }
    }
    let check = crc(&nibbles);
    nibbles[place_of_mfi1(6)] = check / 16;
    nibbles[place_of_mfi1(7)] = check % 16;
    nibbles
}

pub fn write(f: &Fields, h4: &mut [u8]) -> u8 {
    if h4.len() != PACKET_BYTES {
        return LENGTH_WRONG;
    }
    let too_large = f.epoch > 255 || f.mst > 255 || f.sq > 255 || f.gid > 1 || f.rs_ack > 1 || f.reserved > RESERVED_MOST;
    if too_large || !WORDS.contains(&f.word) {
        return FIELD_REFUSED;
    }
    let nibbles = nibbles_of(f);
    for i in 0..PACKET_BYTES {
        h4[i] = nibbles[i] * 16 + mfi1_of_place(i) as u8;
    }
    DONE
}

/// Puts epoch, word, GID, MST, RS-Ack and SQ into six bytes, and the reserved bits into four behind them, highest first.
pub fn read(h4: &[u8], fields: &mut [u8]) -> u8 {
    if h4.len() != PACKET_BYTES || fields.len() != FIELDS_BYTES {
        return LENGTH_WRONG;
    }
    let mut nibbles = [0u8; 16];
    for i in 0..16 {
        nibbles[i] = h4[i] / 16;
    }
    let one = |mfi1: usize| nibbles[place_of_mfi1(mfi1)];
    let two = |mfi1: usize| one(mfi1) * 16 + one(mfi1 + 1);
    if two(6) != crc(&nibbles) {
        return CRC_DIFFERS;
    }
    let word = one(2);
    if u32::from(word) == FIXED {
        return WORD_FIXED;
    }
    if !WORDS.contains(&u32::from(word)) {
        return WORD_UNASSIGNED;
    }
    fields[..6].copy_from_slice(&[two(0), word, one(3) % 2, two(8), one(10) % 2, two(14)]);
    let mut reserved: u32 = 0;
    for (mfi1, bits) in RESERVED {
        for bit in (4 - bits..4).rev() {
            reserved = reserved << 1 | u32::from(one(mfi1) >> bit & 1);
        }
    }
    fields[6..].copy_from_slice(&reserved.to_be_bytes());
    DONE
}

/// Writes a fixed group's packet: "H4 carries MFI1, MFI2 and SQ in their places. All other nibbles are written zero", and FIXED is
/// the word 0.
pub fn write_fixed(epoch: u32, sq: u32, h4: &mut [u8]) -> u8 {
    if h4.len() != PACKET_BYTES {
        return LENGTH_WRONG;
    }
    if epoch > 255 || sq > 255 {
        return FIELD_REFUSED;
    }
    for mfi1 in 0..16 {
        let nibble = match mfi1 {
            0 => epoch / 16,
            1 => epoch % 16,
            14 => sq / 16,
            15 => sq % 16,
            _ => 0,
        };
        h4[place_of_mfi1(mfi1)] = nibble as u8 * 16 + mfi1 as u8;
    }
    DONE
}

/// Reads one: of the nibbles MFI2, SQ and the word are looked at, and "a word other than FIXED is 6". All fields but epoch and SQ
/// are 0.
pub fn read_fixed(h4: &[u8], fields: &mut [u8]) -> u8 {
    if h4.len() != PACKET_BYTES || fields.len() != FIELDS_BYTES {
        return LENGTH_WRONG;
    }
    let nibble = |mfi1: usize| h4[place_of_mfi1(mfi1)] / 16;
    if u32::from(nibble(2)) != FIXED {
        return WORD_UNASSIGNED;
    }
    fields.fill(0);
    fields[0] = nibble(0) * 16 + nibble(1);
    fields[5] = nibble(14) * 16 + nibble(15);
    DONE
}

/// The frames of a VC-12 packet, one bit each; a frame's byte is its bit, and 2 more where the packet starts.
pub const VC12_BITS: usize = 32;
pub const VC12_START: u8 = 2;

/// "5 multiframe count, 6 SQ, 4 CTRL, GID, 4 reserved, RS-Ack, 8 MST", and how many bits each has.
fn vc12_parts(f: &Fields) -> [(u32, u32); 7] {
    [(f.epoch, 5), (f.sq, 6), (f.word, 4), (f.gid, 1), (f.reserved, 4), (f.rs_ack, 1), (f.mst, 8)]
}

/// "3 CRC by x^3+x+1 over the first 29": long division of the polynomial that they make, times x^3.
fn vc12_crc(bits: &[u8]) -> [u8; 3] {
    let mut dividend: Vec<u8> = bits[..29].to_vec();
    dividend.extend([0; 3]);
    for place in 0..29 {
        if dividend[place] == 1 {
            for (offset, coefficient) in [1, 0, 1, 1].into_iter().enumerate() {
                dividend[place + offset] ^= coefficient;
            }
        }
    }
    [dividend[29], dividend[30], dividend[31]]
}

pub fn write_vc12(f: &Fields, frames: &mut [u8]) -> u8 {
    if frames.len() != VC12_BITS {
        return LENGTH_WRONG;
    }
    let too_large = vc12_parts(f).into_iter().any(|(value, width)| value >= 1 << width);
    if too_large || !WORDS.contains(&f.word) {
        return FIELD_REFUSED;
    }
    let mut bits = Vec::new();
    for (value, width) in vc12_parts(f) {
        bits.extend((0..width).rev().map(|bit| (value >> bit & 1) as u8));
    }
    let check = vc12_crc(&bits);
    bits.extend(check);
    bits[0] += VC12_START;
    frames.copy_from_slice(&bits);
    DONE
}

/// Of each byte the lowest bit alone is looked at. Puts the fields as `read` does.
pub fn read_vc12(frames: &[u8], fields: &mut [u8]) -> u8 {
    if frames.len() != VC12_BITS || fields.len() != FIELDS_BYTES {
        return LENGTH_WRONG;
    }
    let bits: Vec<u8> = frames.iter().map(|byte| byte & 1).collect();
    if bits[29..] != vc12_crc(&bits) {
        return CRC_DIFFERS;
    }
    let mut left = bits.iter();
    let mut part = |width: usize| left.by_ref().take(width).fold(0, |value, bit| value << 1 | u32::from(*bit));
    let (epoch, sq, word, gid, reserved, rs_ack, mst) = (part(5), part(6), part(4), part(1), part(4), part(1), part(8));
    if word == FIXED {
        return WORD_FIXED;
    }
    if !WORDS.contains(&word) {
        return WORD_UNASSIGNED;
    }
    fields[..6].copy_from_slice(&[epoch, word, gid, mst, rs_ack, sq].map(|value| value as u8));
    fields[6..].copy_from_slice(&reserved.to_be_bytes());
    DONE
}
