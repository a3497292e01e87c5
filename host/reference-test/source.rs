//! What a member sends, tag by tag, and a receiver with its lent bytes.

use reference::packet::{self, Fields};
use reference::receiver::{epoch_of, Receiver, Report, KIND_H4, TAGS};

/// What a packet says that is not its epoch.
#[derive(Clone, Copy, Debug)]
pub struct Says {
    pub word: u32,
    pub sq: u32,
    pub gid: u32,
}

pub const SAYS_IDLE: Says = Says { word: packet::IDLE, sq: 255, gid: 0 };

/// The sixteen H4 bytes of an epoch's packet.
pub fn packet(epoch: u8, says: Says) -> [u8; 16] {
    let fields = Fields { epoch: epoch.into(), word: says.word, gid: says.gid, mst: 255, rs_ack: 0, sq: says.sq, reserved: 0 };
    let mut h4 = [0; 16];
    assert_eq!(packet::write(&fields, &mut h4), 0);
    h4
}

/// The H4 byte of the frame with this tag.
pub fn h4(tag: usize, says: Says) -> u8 {
    packet(epoch_of(tag % TAGS), says)[(tag + 8) % 16]
}

/// Payload that is another for every port and tag.
pub fn payload(port: usize, tag: usize, length: usize) -> Vec<u8> {
    (0..length).map(|j| (port * 97 + tag * 31 + tag / 256 * 7 + j * 13) as u8).collect()
}

/// A receiver with its store and output.
#[derive(Clone, PartialEq)]
pub struct Lent {
    pub receiver: Receiver,
    pub store: Vec<u8>,
    pub output: Vec<u8>,
}

impl Lent {
    pub fn start(ports: usize, payload: usize, window: usize) -> Lent {
        Lent::start_as(KIND_H4, ports, payload, window, &[], &[])
    }

    pub fn start_as(kind: u32, ports: usize, payload: usize, window: usize, hold_off: &[u32], restore: &[u32]) -> Lent {
        let store = vec![0xA5; ports * window * (payload + 1)];
        let mut receiver = Receiver::empty();
        assert_eq!(receiver.start_as(kind, ports as u32, payload as u32, window as u32, store.len(), hold_off, restore), 0);
        Lent { receiver, store, output: vec![0x5A; ports * 16 * payload] }
    }

    /// Hands one frame.
    pub fn hand(&mut self, port: usize, flagged: bool, h4: u8, payload: &[u8]) -> u8 {
        self.receiver.frame(port as u32, flagged, h4, payload, &mut self.store)
    }

    /// Hands the frame with this tag, as sent.
    pub fn hand_tag(&mut self, port: usize, tag: usize, says: Says) -> u8 {
        let bytes = payload(port, tag % TAGS, self.receiver.payload);
        self.hand(port, false, h4(tag, says), &bytes)
    }

    /// Hands so many frames from this tag on; the answers.
    pub fn hand_run(&mut self, port: usize, first: usize, frames: usize, says: Says) -> Vec<u8> {
        (first..first + frames).map(|tag| self.hand_tag(port, tag, says)).collect()
    }

    pub fn hand_flag(&mut self, port: usize) -> u8 {
        self.hand(port, true, 0, &vec![0; self.receiver.payload])
    }

    pub fn fetch(&mut self) -> Report {
        let (answer, report) = self.receiver.fetch(&self.store, &mut self.output);
        assert_eq!(answer, 0);
        report
    }

    /// Fetches until none is due.
    pub fn fetch_all(&mut self) -> Vec<Report> {
        std::iter::from_fn(|| Some(self.fetch()).filter(|r| *r != Report::NONE)).collect()
    }

    pub fn begun(&self) -> bool {
        self.receiver.begun.is_set()
    }
}
