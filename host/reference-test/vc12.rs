//! VC-12's packets (request 2026-01): those worked out by hand, made-up fields read back, every single changed bit, two changed bits
//! seven places apart, and the order of refusals.

use crate::count::Count;
use crate::random::Random;
use reference::packet::{read_vc12, write_vc12, Fields, DNU, EOS, FIELDS_BYTES, IDLE, NORM, VC12_BITS, WORDS};

/// 32 bits as they are printed on paper, spaces between the fields.
fn bits(text: &str) -> Vec<u8> {
    text.bytes().filter(|c| *c != b' ').map(|c| c - b'0').collect()
}

/// As they are handed in: the first with its start.
fn started(text: &str) -> Vec<u8> {
    let mut frames = bits(text);
    frames[0] += 2;
    frames
}

fn fields(epoch: u32, sq: u32, word: u32, gid: u32, reserved: u32, rs_ack: u32, mst: u32) -> Fields {
    Fields { epoch, word, gid, mst, rs_ack, sq, reserved }
}

fn written(f: &Fields) -> (u8, Vec<u8>) {
    let mut frames = vec![0xA5; VC12_BITS];
    (write_vc12(f, &mut frames), frames)
}

fn read(frames: &[u8]) -> (u8, [u8; FIELDS_BYTES]) {
    let mut fields = [0xA5; FIELDS_BYTES];
    (read_vc12(frames, &mut fields), fields)
}

fn values(f: &Fields) -> [u8; FIELDS_BYTES] {
    let bytes = [f.epoch, f.word, f.gid, f.mst, f.rs_ack, f.sq, 0, 0, 0, f.reserved];
    bytes.map(|value| value as u8)
}

pub fn check(count: &mut Count) {
    count.note("VC-12 packets worked out by hand, written and read", given());
    count.note("made-up VC-12 packets read back as written", back());
    count.note("one changed bit of a VC-12 packet is 5", one_bit());
    count.note("two bits of it 7, 14, 21 or 28 places apart pass its CRC, and no other two", two_bits());
    count.note("VC-12 packets are refused in the order 9, 8 and 9, 5, 7, 6", refusals());
}

fn given() -> bool {
    let packets = [
        (fields(0, 63, IDLE, 0, 0, 0, 0xFF), "00000 111111 0101 0 0000 0 11111111 010"),
        (fields(1, 0, EOS, 1, 0, 0, 0xFF), "00001 000000 0011 1 0000 0 11111111 111"),
        (fields(31, 63, NORM, 1, 0, 1, 0x00), "11111 111111 0010 1 0000 1 00000000 000"),
        (fields(21, 37, DNU, 1, 11, 0, 0xA5), "10101 100101 1111 1 1011 0 10100101 000"),
    ];
    packets.iter().all(|(f, text)| written(f) == (0, started(text)) && read(&started(text)) == (0, values(f)) && read(&bits(text)) == (0, values(f)))
}

fn made_up(random: &mut Random) -> Fields {
    let mut below = |n: u64| random.below(n) as u32;
    fields(below(32), below(64), WORDS[below(5) as usize], below(2), below(16), below(2), below(256))
}

fn back() -> bool {
    let mut random = Random::new(1);
    (0..100_000).all(|_| {
        let f = made_up(&mut random);
        let (answer, frames) = written(&f);
        answer == 0 && read(&frames) == (0, values(&f))
    })
}

fn one_bit() -> bool {
    let mut random = Random::new(2);
    (0..2_000).all(|_| {
        let (_, frames) = written(&made_up(&mut random));
        (0..VC12_BITS).all(|k| {
            let mut came = frames.clone();
            came[k] ^= 1;
            read(&came).0 == 5
        })
    })
}

fn two_bits() -> bool {
    let (_, frames) = written(&fields(7, 9, NORM, 0, 0, 0, 0));
    let passes = (0..VC12_BITS).all(|j| {
        (0..j).all(|k| {
            let mut came = frames.clone();
            came[j] ^= 1;
            came[k] ^= 1;
            (read(&came).0 != 5) == ((j - k) % 7 == 0)
        })
    });
    let mut came = frames;
    came[14] ^= 1;
    came[21] ^= 1;
    passes && read(&came) == (0, values(&fields(7, 9, EOS, 0, 0, 0, 0x80)))
}

fn refusals() -> bool {
    let good = fields(7, 9, NORM, 0, 0, 0, 0);
    let large = [
        Fields { epoch: 32, ..good },
        Fields { sq: 64, ..good },
        Fields { gid: 2, ..good },
        Fields { rs_ack: 2, ..good },
        Fields { mst: 256, ..good },
        Fields { reserved: 16, ..good },
        Fields { word: 0, ..good },
        Fields { word: 4, ..good },
        Fields { word: 16, ..good },
    ];
    let refused = large.iter().all(|f| written(f) == (8, vec![0xA5; VC12_BITS]));
    let lengths = [0, 16, 31, 33].iter().all(|n| {
        let mut frames = vec![0xA5; *n];
        write_vc12(&Fields { epoch: 32, ..good }, &mut frames) == 9 && frames == vec![0xA5; *n] && read(&frames) == (9, [0xA5; FIELDS_BYTES])
    });
    // a word that is unassigned, under a right CRC: 4, and all else 0
    let unassigned = bits("00000 000000 0100 0 0000 0 00000000 111");
    let zeros = read(&[0; VC12_BITS]) == (7, [0xA5; FIELDS_BYTES]);
    let ones = read(&[1; VC12_BITS]).0 == 5;
    refused && lengths && zeros && ones && read(&unassigned).0 == 6
}
