//! The receiver of VC-12 (request 2026-01) where it differs from that of H4: its step rule, and its packets in rows of sixteen, two
//! frames' bits in each entry.

use super::Port;
use crate::packet::{self, VC12_START};

/// How many bits the count has, and how many frames a packet.
const COUNT_BITS: usize = 5;
const FRAMES: usize = packet::VC12_BITS;

impl Port {
    /// The step record over a frame that is not flagged. "The host says where it starts": its byte has the bit, and 2 for a start.
    pub(super) fn count_bit(&mut self, byte: u8) {
        let (bit, is_start) = (byte & 1, byte & VC12_START != 0);
        let place = self.next_tag() % FRAMES;
        (self.breaks, self.odd.0) = (0, 0);
        if self.count == 0 || is_start != (place == 0) {
            // "A start said early or left out loses step at that frame, and a frame said to be a start is always taken as a first bit"
            self.lose_step();
            self.bits = 0;
            if is_start {
                self.first_bit(bit);
            }
            return;
        }
        match place {
            0 => self.bits = bit,
            _ if place < COUNT_BITS => self.bits = (self.bits << 1 | bit) % 32,
            _ => {}
        }
        if place == COUNT_BITS - 1 && (usize::from(self.count) < COUNT_BITS || self.bits != self.clock().epoch_of(self.next_tag())) {
            self.first_of_two(bit);
        } else {
            if !self.in_step() {
                self.count += 1;
            }
            self.put(bit);
        }
    }

    fn first_bit(&mut self, bit: u8) {
        self.count = 1;
        self.bits = bit;
        self.put(bit);
    }

    /// The count has come, and the packet is the first of two: of a run's first packet "the tag is told", any other "loses step at the fifth
    /// bit of its count".
    fn first_of_two(&mut self, bit: u8) {
        self.lose_step();
        self.count = COUNT_BITS as u8;
        self.next = (usize::from(self.bits) * FRAMES + COUNT_BITS - 1) as u16;
        self.put(bit);
    }

    /// The frame has the tag to come, and its bit goes to that tag's place.
    fn put(&mut self, bit: u8) {
        let tag = self.next_tag();
        let entry = &mut self.gathering[tag % FRAMES / 2];
        *entry = if tag % 2 == 0 { bit << 1 | *entry & 1 } else { *entry & !1 | bit };
        self.next = ((tag + 1) % self.clock().tags) as u16;
    }
}

/// Word, GID and number of a packet in a row, if it is read with 0. Its count is not looked at: where the packet is whole, the step rule has.
pub(super) fn read(row: &[u8; 16]) -> Option<(u8, u8, u8)> {
    let bits: Vec<u8> = row.iter().flat_map(|entry| [entry >> 1 & 1, entry & 1]).collect();
    let mut fields = [0u8; packet::FIELDS_BYTES];
    let answer = packet::read_vc12(&bits, &mut fields);
    let [_, word, gid, _, _, number, ..] = fields;
    (answer == packet::DONE).then_some((word, gid, number))
}
