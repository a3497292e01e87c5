//! What the receiver says of itself: what it saw, why the next report is not sure, what the far end says, how far each port lies behind, and its settings; and receiving
//! begun anew. Plain, and on rows.

use super::rows::{self, fit, Row};
use super::{is_active, is_numbered, Port, Receiver, EOS, IDLE, KIND_FIXED, KIND_VC12};
use super::{CAUSE_EOS, CAUSE_GID, CAUSE_LACKING, CAUSE_REFUSED, CAUSE_REPEATED, CAUSE_UNSEEN};
use crate::packet;

/// What stands for a port that is not in step.
pub const BEHIND_NONE: u32 = 65535;

/// What stands for no port.
pub const NOBODY: u8 = 255;

/// A port's good packet: the port, word, GID and number.
type Good = (usize, u8, u8, u8);

/// The lowest of some ports that is unlike, or like, one below it.
fn lowest_beside(ports: &[&Good], beside: impl Fn(&Good, &Good) -> bool) -> Option<usize> {
    ports.iter().enumerate().find(|(k, port)| ports[..*k].iter().any(|below| beside(below, port))).map(|(_, port)| port.0)
}

/// A packet as its kind reads it: the answer and, under 0, epoch, word, GID, MST, RS-Ack and number.
fn reading(kind: u32, nibbles: &[u8; 16]) -> (u8, [u8; 6]) {
    let mut fields = [0u8; packet::FIELDS_BYTES];
    let answer = match kind {
        KIND_VC12 => {
            let bits: [u8; 32] = std::array::from_fn(|k| nibbles[k / 2] >> (1 - k % 2) & 1);
            packet::read_vc12(&bits, &mut fields)
        }
        KIND_FIXED => packet::read_fixed(&nibbles.map(|n| n % 16 * 16), &mut fields),
        _ => packet::read(&nibbles.map(|n| n % 16 * 16), &mut fields),
    };
    (answer, std::array::from_fn(|k| if answer == packet::DONE { fields[k] } else { 0 }))
}

impl Receiver {
    /// "Carried another number than the receiver's own count": H4 and FIXED carry MFI2 in their ninth and tenth nibble.
    fn carries_other(&self, port: &Port) -> bool {
        let mfi2 = port.ruling[8] % 16 * 16 + port.ruling[9] % 16;
        self.kind != KIND_VC12 && mfi2 != self.oldest.wrapping_sub(1)
    }

    /// Of each port the packet that rules the oldest epoch not yet reported.
    pub fn seen(&self) -> Vec<[u8; 10]> {
        let seen = |port: &Port| {
            let here = u8::from(port.marks & 1 == 1);
            if !port.whole.is_set() {
                return [0, 0, 0, 0, 0, 0, 0, 0, 0, here];
            }
            let (answer, [epoch, word, gid, mst, rs_ack, number]) = reading(self.kind, &port.ruling);
            [1, answer, self.carries_other(port).into(), epoch, word, number, gid, mst, rs_ack, here]
        };
        self.ports.iter().map(seen).collect()
    }

    /// The clause that would decide the next report, and which port is to blame (docs/DECISIONS.md, D-9.11).
    pub fn cause(&self) -> [u8; 2] {
        let (cause, _, _) = self.judge();
        let whole = self.whole();
        let good: Vec<Good> = whole.iter().filter_map(|(i, packet)| packet.map(|(word, gid, number)| (*i, word, gid, number))).collect();
        // each port of a fixed group is a member, by whatever number
        let member = |word: u8, with: fn(u8) -> bool| self.kind == KIND_FIXED || with(word);
        let active: Vec<&Good> = good.iter().filter(|g| member(g.1, is_active)).collect();
        let numbered: Vec<&Good> = good.iter().filter(|g| member(g.1, is_numbered)).collect();
        let not_idle: Vec<&Good> = good.iter().filter(|g| g.1 != IDLE).collect();
        let highest = active.iter().map(|g| g.3).max();
        let blamed = match cause {
            CAUSE_REFUSED => whole.iter().find(|(_, packet)| packet.is_none()).map(|(i, _)| *i),
            CAUSE_LACKING => active.iter().map(|g| g.0).find(|i| !self.ports[*i].brought()),
            // "the one whose number a lower port has already"
            CAUSE_REPEATED => lowest_beside(&numbered, |below, port| below.3 == port.3),
            // "the one that is not as a lower port's"
            CAUSE_GID => lowest_beside(&not_idle, |below, port| below.2 != port.2),
            // "the lowest that has it and is not the highest, or is the highest and has none"
            CAUSE_EOS => active.iter().find(|g| (g.1 == EOS) != (Some(g.3) == highest)).map(|g| g.0),
            CAUSE_UNSEEN => self.ports.iter().position(|p| !p.whole.is_set()),
            _ => None,
        };
        [cause, blamed.map_or(NOBODY, |i| i as u8)]
    }

    /// "1, and epoch, MST and RS-Ack of the lowest port whose ruling packet is whole and good; or 0 0 0 0"
    pub fn heard(&self) -> [u8; 4] {
        let good = |port: &&Port| port.whole.is_set() && !self.carries_other(port) && reading(self.kind, &port.ruling).0 == packet::DONE;
        match self.ports.iter().find(good) {
            Some(port) => {
                let (_, [epoch, _, _, mst, rs_ack, _]) = reading(self.kind, &port.ruling);
                [1, epoch, mst, rs_ack]
            }
            None => [0; 4],
        }
    }

    /// "Frames by which each port in step lies behind the foremost". A tag is further than another that it follows within half a round.
    pub fn behind(&self) -> Vec<u32> {
        let clock = self.clock();
        let in_step = self.ports.iter().filter(|p| p.in_step()).map(Port::latest_tag);
        let foremost = in_step.reduce(|fore, tag| if clock.after(tag, fore) < clock.tags / 2 { tag } else { fore });
        let behind = |p: &Port| match foremost {
            Some(fore) if p.in_step() => clock.after(fore, p.latest_tag()) as u32,
            _ => BEHIND_NONE,
        };
        self.ports.iter().map(behind).collect()
    }

    /// Kind, ports, P and W.
    pub fn settings(&self) -> [u32; 4] {
        match self.ports.len() {
            0 => [0; 4],
            ports => [self.kind, ports as u32, self.payload as u32, self.window as u32],
        }
    }

    /// "The state after one flagged frame on every port, in port order"
    pub fn anew(&mut self, store: &[u8]) -> u8 {
        if store.len() != self.store_length() {
            return 9;
        }
        let (mut store, payload) = (store.to_vec(), vec![0; self.payload]);
        for i in 0..self.ports.len() {
            assert_eq!(self.frame(i as u32, true, 0, &payload, &mut store), 10);
        }
        0
    }
}

/// The same on rows: 9 where they do not fit.
fn fitting(rows: &[Row]) -> Result<Receiver, u8> {
    let receiver = Receiver::from_rows(rows);
    if fit(&receiver, rows) {
        Ok(receiver)
    } else {
        Err(9)
    }
}

pub fn seen(rows: &[Row]) -> Result<Vec<[u8; 10]>, u8> {
    fitting(rows).map(|r| r.seen())
}

pub fn cause(rows: &[Row]) -> Result<[u8; 2], u8> {
    fitting(rows).map(|r| r.cause())
}

pub fn heard(rows: &[Row]) -> Result<[u8; 4], u8> {
    fitting(rows).map(|r| r.heard())
}

pub fn behind(rows: &[Row]) -> Result<Vec<u32>, u8> {
    fitting(rows).map(|r| r.behind())
}

pub fn settings(rows: &[Row]) -> Result<[u32; 4], u8> {
    fitting(rows).map(|r| r.settings())
}

pub fn anew(rows: &mut [Row], store: &[u8]) -> u8 {
    match fitting(rows) {
        Ok(receiver) if store.len() == receiver.store_length() => {
            let (mut store, payload) = (store.to_vec(), vec![0; receiver.payload]);
            for i in 0..receiver.ports.len() {
                assert_eq!(rows::frame(rows, i as u32, true, 0, &payload, &mut store), 10);
            }
            0
        }
        _ => 9,
    }
}
