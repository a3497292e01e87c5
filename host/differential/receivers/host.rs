//! Unruly hosts: what frames each port brings. Delays differ, ports lose step and come back, are flagged, fall silent or
//! change to another path, all of them fail at once and come back, and packets are odd now and then, of either kind.

use crate::path::{Frame, Path, BEFALLS};
use crate::random::Random;
use reference::packet::{self, Fields, VC12_START};
use reference::receiver::{clock, Clock, KIND_FIXED, KIND_VC12, TAGS};

#[derive(Default)]
struct Source {
    path: Path,
    /// The packet of the epoch now going out.
    epoch: Option<u8>,
    h4: Vec<u8>,
}

pub struct Host {
    kind: u32,
    sources: Vec<Source>,
    window: u64,
    /// One event in so many frames, and one odd packet in so many.
    calm: u64,
    packets_calm: u64,
}

impl Host {
    pub fn new(random: &mut Random, kind: u32, ports: usize, window: usize) -> Host {
        let mut host = Host {
            kind,
            sources: (0..ports).map(|_| Source::default()).collect(),
            window: window as u64,
            calm: random.one_of(&[80, 600, 3000, 20_000]),
            packets_calm: random.one_of(&[6, 40, 400]),
        };
        host.line_up(random);
        host
    }

    /// All ports bring what was sent at one time, each behind a delay of its own. Often the tags are soon to go round.
    pub fn line_up(&mut self, random: &mut Random) {
        let any = random.below(TAGS as u64) as usize;
        let now = random.one_of(&[4090, 4090, 0, any]);
        for s in &mut self.sources {
            // a delay of W-15 (of VC-12 W-31) now and then, which keeps receiving from beginning but in the midst of a frame time
            let more = random.below(8) / 7;
            let delay = random.below(self.window + 1 - clock(self.kind).frames as u64 + more) as usize;
            s.path = Path { kind: self.kind, tag: (now + TAGS - delay) % TAGS, ..Path::default() };
        }
    }

    fn clock(&self) -> Clock {
        clock(self.kind)
    }

    /// The word, number and GID of a port in an epoch. The order changes with time.
    fn says(&self, random: &mut Random, port: usize, epoch: u8) -> (u32, u32, u32) {
        let ports = self.sources.len();
        let clock = self.clock();
        let era = usize::from(epoch) * 16 / (clock.tags / clock.frames);
        let active = 1 + era * 5 % ports;
        let number = (port + era * 3) % ports;
        let (mut word, mut sq, mut gid) = match number {
            k if k + 1 < active => (packet::NORM, k, 1),
            k if k + 1 == active => (packet::EOS, k, 1),
            k if (k + era) % 3 == 0 => (packet::ADD, k, 1),
            k if k == active && era % 2 == 0 => (packet::DNU, k, 1),
            k if (k + era) % 5 == 0 => (packet::IDLE, k, 0),
            _ => (packet::IDLE, clock.idle.into(), 0),
        };
        match random.below(self.packets_calm) {
            0 => word = random.one_of(&packet::WORDS),
            1 => sq = random.one_of(&[0, 1, 2, 3, 63, 64, 255]),
            2 => gid = 1 - gid,
            _ => {}
        }
        (word, sq.min(clock.idle.into()) as u32, gid)
    }

    /// The packet of a fixed group's port: its number most often right, which changes with time, its word now and then another, and
    /// the nibbles that are not looked at often any.
    fn fixed_packet(&self, random: &mut Random, port: usize, epoch: u8) -> Vec<u8> {
        let ports = self.sources.len();
        let mut sq = ((port + usize::from(epoch / 64) * 3) % ports) as u32;
        if random.below(self.packets_calm * 2) == 0 {
            sq = random.one_of(&[0, 1, 2, 63, 64, 255, ports as u32]);
        }
        let named = if random.below(self.packets_calm * 2) == 0 { random.below(256) as u32 } else { epoch.into() };
        let mut h4 = vec![0; 16];
        packet::write_fixed(named, sq, &mut h4);
        if random.below(4) == 0 {
            for k in [0, 1, 2, 3, 4, 5, 11, 12, 13, 14, 15] {
                h4[k] |= (random.below(16) as u8) << 4;
            }
        }
        if random.below(self.packets_calm * 2) == 0 {
            h4[10] |= (1 + random.below(15) as u8) << 4;
        }
        h4
    }

    fn h4(&mut self, random: &mut Random, port: usize) -> u8 {
        let tag = self.sources[port].path.tag;
        let epoch = self.clock().epoch_of(tag);
        // of the other kind seldom
        if self.sources[port].epoch != Some(epoch) && self.kind == KIND_FIXED && random.below(40 * self.packets_calm) > 0 {
            self.sources[port].h4 = self.fixed_packet(random, port, epoch);
            self.sources[port].epoch = Some(epoch);
        }
        if self.sources[port].epoch != Some(epoch) {
            let (word, sq, gid) = self.says(random, port, epoch);
            let fields = Fields { epoch: epoch.into(), word, gid, mst: 0, rs_ack: 0, sq, reserved: 0 };
            self.sources[port].epoch = Some(epoch);
            self.sources[port].h4 = if self.kind == KIND_VC12 { self.vc12_packet(random, fields) } else { self.h4_packet(random, fields) };
        }
        self.sources[port].h4[self.clock().place(tag)]
    }

    /// With MST and reserved bits at which the receiver does not look. The number of another epoch now and then, with the CRC that goes with
    /// it, and one bit changed now and then.
    fn h4_packet(&self, random: &mut Random, fields: Fields) -> Vec<u8> {
        let (mst, reserved) = (random.below(256) as u32, random.below(1 << 26) as u32);
        let epoch = if random.below(self.packets_calm) == 0 { random.below(256) as u32 } else { fields.epoch };
        let mut h4 = vec![0; 16];
        assert_eq!(packet::write(&Fields { epoch, mst, reserved, ..fields }, &mut h4), 0);
        if random.below(self.packets_calm) == 0 {
            h4[random.below(16) as usize] ^= 0x10 << random.below(4);
        }
        h4
    }

    /// The same of VC-12: now and then another epoch's count, a bit or two changed, a start said or left out where it should not be.
    fn vc12_packet(&self, random: &mut Random, fields: Fields) -> Vec<u8> {
        let (mst, reserved) = (random.below(256) as u32, random.below(16) as u32);
        let epoch = if random.below(4 * self.packets_calm) == 0 { random.below(32) as u32 } else { fields.epoch };
        let mut bits = vec![0; 32];
        assert_eq!(packet::write_vc12(&Fields { epoch, mst, reserved, ..fields }, &mut bits), 0);
        match random.below(4 * self.packets_calm) {
            0 => bits[random.below(32) as usize] ^= 1,
            1 | 2 => bits[5 + random.below(27) as usize] ^= 1,
            3 => {
                let first = 5 + random.below(20) as usize;
                bits[first] ^= 1;
                bits[first + 7] ^= 1;
            }
            4 => bits[random.below(32) as usize] ^= VC12_START,
            5 => bits[0] ^= VC12_START,
            6 => bits.iter_mut().for_each(|byte| *byte |= 0xFC),
            _ => {}
        }
        bits
    }

    /// Whether the frame time starts with all ports failing at once, or lined up anew.
    pub fn frame_time(&mut self, random: &mut Random) {
        match random.below(8 * self.calm) {
            0 => self.line_up(random),
            1 => {
                self.line_up(random);
                let long = 1 + random.below(30);
                self.sources.iter_mut().for_each(|s| s.path.flagged = long);
            }
            _ => {}
        }
    }

    /// The next frame of a port, if one comes.
    pub fn frame(&mut self, random: &mut Random, port: usize, payload: usize) -> Option<Frame> {
        let path = &mut self.sources[port].path;
        if random.below(self.calm) == 0 {
            match random.below(BEFALLS + 3) {
                event if event < BEFALLS => path.befall(event, random, self.window),
                BEFALLS => return Some((false, random.next() as u8, vec![0; payload])),
                event if event == BEFALLS + 1 => return Some((random.below(2) == 0, 0, vec![0; payload + 1])),
                _ => return Some((false, 0, vec![0; payload.saturating_sub(1)])),
            }
        }
        let (flagged, bytes) = path.next(random, payload)?;
        let h4 = if flagged { random.next() as u8 } else { self.h4(random, port) };
        Some((flagged, if flagged { h4 } else { self.sources[port].path.brings(random, h4) }, bytes))
    }

    /// The port's path is switched to a longer one, on which its tags go back, and the host says so or not.
    pub fn switch(&mut self, random: &mut Random, port: usize) {
        let back = 56 + random.below(self.window) as usize;
        self.sources[port].path.tag += TAGS - back;
        self.sources[port].path.flagged = random.below(4).min(1);
    }

    /// The frame was taken, or given up.
    pub fn go_on(&mut self, port: usize) {
        self.sources[port].path.go_on();
    }
}
