//! The path that a port's frames take: tags that jump, times of flags, of silence and of broken H4 bytes.

use crate::random::Random;
use reference::receiver::{clock, TAGS};

/// One frame: flagged or not, its H4 and its payload.
pub type Frame = (bool, u8, Vec<u8>);

/// How many different things can befall a path.
pub const BEFALLS: u64 = 14;

#[derive(Default)]
pub struct Path {
    pub kind: u32,
    /// By H4's circle, of which VC-12's goes round four times.
    pub tag: usize,
    /// Frames for which it comes flagged, or does not come at all.
    pub flagged: u64,
    pub away: u64,
    /// Frames whose H4 bytes come as any bytes.
    pub broken: u64,
    /// How far its tags jump at the next epoch's start.
    pub switch: usize,
}

impl Path {
    /// What befalls it, by a number below BEFALLS.
    pub fn befall(&mut self, event: u64, random: &mut Random, window: u64) {
        let frames = clock(self.kind).frames;
        match event {
            0..=1 => self.flagged = 1 + random.below(60),
            2..=4 => self.away = 1 + random.below(2 * window),
            5 => self.tag += random.below(TAGS as u64) as usize,
            6..=7 => self.tag += TAGS + random.below(window) as usize - random.below(window) as usize,
            8 => self.tag += TAGS - random.below(window + 60) as usize,
            9 => self.tag += 1,
            10..=11 => self.broken = 1 + random.below(5),
            // by whole multiframes, at an epoch's start or anywhere
            12 => self.switch = TAGS + frames - 2 * frames * random.below(2) as usize,
            _ => self.tag += TAGS + 2 * frames - frames * random.below(5) as usize,
        }
    }

    /// What comes of a frame's H4 byte.
    pub fn brings(&mut self, random: &mut Random, h4: u8) -> u8 {
        if self.broken == 0 {
            return h4;
        }
        self.broken -= 1;
        match random.below(4) {
            0 => random.next() as u8,
            // without MFI1, or, of VC-12, the start
            1 => h4 & 0xF0,
            _ => h4 ^ (1 + random.below(255)) as u8,
        }
    }

    /// The next frame, if one comes: whether it is flagged, and its payload.
    pub fn next(&mut self, random: &mut Random, payload: usize) -> Option<(bool, Vec<u8>)> {
        self.tag %= TAGS;
        if clock(self.kind).place(self.tag) == 0 {
            self.tag = (self.tag + self.switch) % TAGS;
            self.switch = 0;
        }
        if self.away > 0 {
            self.away -= 1;
            return None;
        }
        let mut bytes = vec![0; payload];
        random.fill(&mut bytes);
        let flagged = self.flagged > 0;
        if flagged {
            self.flagged -= 1;
            self.go_on();
        }
        Some((flagged, bytes))
    }

    pub fn go_on(&mut self) {
        self.tag = (self.tag + 1) % TAGS;
    }
}
