//! The receiver: step, beginning, window, reports, member states and reply.

pub mod fast;
pub mod read;
pub mod rows;
mod vc12;

use crate::packet;
use crate::payload::PAYLOAD_MOST;

pub const PORTS_MOST: u32 = 64;
pub const WINDOW_LEAST: u32 = 16;
pub const WINDOW_MOST: u32 = 2048;

/// H4's tags, the frames of its epochs, and how many counted rightly in a row bring a port into step.
pub const TAGS: usize = 4096;
pub const EPOCH_FRAMES: usize = 16;
pub const STEP_FRAMES: u8 = 32;
/// "Step is lost at the fourth frame in a row that breaks the count"
pub const BREAKS_LOSE: u8 = 4;
/// No number; and, as a word, no good packet yet.
pub const NONE: u8 = 255;

/// Member states.
pub const STATE_IDLE: u8 = 0;
pub const STATE_FAIL: u8 = 1;
pub const STATE_OK: u8 = 2;

/// The kinds of packets: LCAS in H4, LCAS in K4 (request 2026-01), and those of a group that is FIXED (request 2026-12).
pub const KIND_H4: u32 = 0;
pub const KIND_VC12: u32 = 1;
pub const KIND_FIXED: u32 = 2;
pub const KINDS: [u32; 3] = [KIND_H4, KIND_VC12, KIND_FIXED];
/// "P is 136" for VC-12.
pub const PAYLOAD_VC12: u32 = 136;
/// The most reports for which a port waits.
pub const TIMER_MOST: u32 = 5000;

/// What a port waits for: nothing, the end of its hold-off, or its restoring.
pub const WAITING_NONE: u8 = 0;
pub const WAITING_HOLD_OFF: u8 = 1;
pub const WAITING_RESTORE: u8 = 2;

/// What a fetch says of an epoch.
pub const NONE_DUE: u8 = 0;
pub const HELD: u8 = 1;
pub const DOUBTFUL: u8 = 2;
pub const SURE: u8 = 3;

const ADD: u8 = packet::ADD as u8;
const NORM: u8 = packet::NORM as u8;
const EOS: u8 = packet::EOS as u8;
const IDLE: u8 = packet::IDLE as u8;
const DNU: u8 = packet::DNU as u8;

/// A flag in a byte: set where it is not 0. Bytes that no call returned stay as they are until a rule sets the flag.
#[derive(Clone, Copy, PartialEq, Eq, Debug, Default)]
pub struct Flag(pub u8);

impl Flag {
    pub fn is_set(self) -> bool {
        self.0 != 0
    }
}

impl From<bool> for Flag {
    fn from(set: bool) -> Flag {
        Flag(u8::from(set))
    }
}

/// How frames of a kind are counted. H4 and FIXED have one clock, VC-12 another.
#[derive(Clone, Copy, PartialEq, Eq, Debug)]
pub struct Clock {
    /// "An epoch is 32 frames, also wherever 01 says sixteen"
    pub frames: usize,
    /// Tags go round, and so do epochs: "tags run 0 to 1,023".
    pub tags: usize,
    /// How many frames of an epoch come before its multiframe's first: H4's starts with MFI1 8 of the multiframe before.
    pub lead: usize,
    /// "W is 32 to 512"
    pub window: (usize, usize),
    /// The frames in a row that bring a port into step: of VC-12 "two whole packets".
    pub step: u8,
    /// After how many epochs MST speaks of the same numbers again: of VC-12 "8 x (count mod 8) onward".
    pub mst_epochs: u8,
    /// The number that IDLE shows: "idle SQ is 63".
    pub idle: u8,
}

const H4_CLOCK: Clock = Clock { frames: EPOCH_FRAMES, tags: TAGS, lead: 8, window: (16, 2048), step: STEP_FRAMES, mst_epochs: 32, idle: 255 };
const VC12_CLOCK: Clock = Clock { frames: 32, tags: 1024, lead: 0, window: (32, 512), step: 64, mst_epochs: 8, idle: 63 };

pub fn clock(kind: u32) -> Clock {
    if kind == KIND_VC12 {
        VC12_CLOCK
    } else {
        H4_CLOCK
    }
}

impl Clock {
    /// How far a tag lies after another, on the circle.
    pub fn after(&self, tag: usize, other: usize) -> usize {
        (tag + self.tags - other) % self.tags
    }

    /// The tag of an epoch's first frame.
    pub fn first_tag(&self, epoch: u8) -> usize {
        (usize::from(epoch) * self.frames + self.tags - self.lead) % self.tags
    }

    /// The place of a tag's frame in its epoch.
    pub fn place(&self, tag: usize) -> usize {
        (tag + self.lead) % self.frames
    }

    pub fn epoch_of(&self, tag: usize) -> u8 {
        ((tag + self.lead) % self.tags / self.frames) as u8
    }

    pub fn next_epoch(&self, epoch: u8) -> u8 {
        ((usize::from(epoch) + 1) % (self.tags / self.frames)) as u8
    }
}

/// The same of H4: how far a tag lies after another, an epoch's first tag, and a tag's epoch.
pub fn after(tag: usize, other: usize) -> usize {
    H4_CLOCK.after(tag, other)
}

pub fn first_tag(epoch: u8) -> usize {
    H4_CLOCK.first_tag(epoch)
}

pub fn epoch_of(tag: usize) -> u8 {
    H4_CLOCK.epoch_of(tag)
}

#[derive(Clone, PartialEq, Eq, Debug)]
pub struct Port {
    /// That of its group.
    pub kind: u32,
    /// Had a frame, and the latest came flagged.
    pub had: Flag,
    pub failed: Flag,
    /// Frames counted rightly in a row, up to 32 (of VC-12 64), and the tag that the next one should have. In step of H4 it is the
    /// receiver's own count, whatever frames carry.
    pub count: u8,
    pub next: u16,
    /// In step of H4: the frames that broke the count in a row, and whether the last packet was odd.
    pub breaks: u8,
    pub odd: Flag,
    /// Of VC-12: what the bits of the latest packet's count say that have come. H4 leaves it, and a flagged frame does in every kind.
    pub bits: u8,
    /// Joined; in step ever since the beginning; the epochs from the oldest to the one joined at.
    pub joined: Flag,
    pub since: Flag,
    pub later: u8,
    /// Mark i: all frames of the i-th epoch, counted from the oldest, stand in the store.
    pub marks: u128,
    /// The packet now arriving; the packet that rules, and whether it arrived whole. Nibbles in the order of sending, of VC-12 two
    /// frames' bits in each, the earlier one's higher.
    pub gathering: [u8; 16],
    pub ruling: [u8; 16],
    pub whole: Flag,
    /// Word and number of the last good packet.
    pub word: u8,
    pub number: u8,
    /// The state worked out at the last report, and the number that goes with it: of an OK port the one under which it is OK, of
    /// others the last good one then. It is shown unless the state is IDLE.
    pub state: u8,
    pub state_number: u8,
    /// For how many reports an OK port that loses its claim stays OK, and a FAIL port that has one stays FAIL; and for how many it
    /// has: of an OK port without its claim, of a FAIL port with it.
    pub hold_off: u16,
    pub restore: u16,
    pub run: u16,
    /// The last good word and number at the last report.
    pub told_word: u8,
    pub told_number: u8,
}

impl Port {
    fn new(kind: u32) -> Port {
        let idle = clock(kind).idle;
        Port {
            kind,
            had: Flag(0),
            failed: Flag(0),
            count: 0,
            next: 0,
            breaks: 0,
            odd: Flag(0),
            bits: 0,
            joined: Flag(0),
            since: Flag(0),
            later: 0,
            marks: 0,
            gathering: [0; 16],
            ruling: [0; 16],
            whole: Flag(0),
            word: NONE,
            number: idle,
            state: STATE_IDLE,
            state_number: idle,
            hold_off: 0,
            restore: 0,
            run: 0,
            told_word: NONE,
            told_number: idle,
        }
    }

    pub fn clock(&self) -> Clock {
        clock(self.kind)
    }

    pub fn in_step(&self) -> bool {
        self.count >= self.clock().step
    }

    pub fn next_tag(&self) -> usize {
        usize::from(self.next) % self.clock().tags
    }

    /// The tag of the frame counted last.
    pub fn latest_tag(&self) -> usize {
        self.clock().after(self.next_tag(), 1)
    }

    /// Step is lost, and with it that the port has joined. What it stored stays brought.
    fn lose_step(&mut self) {
        self.count = 0;
        self.next = 0;
        self.breaks = 0;
        self.odd = Flag(0);
        self.leave();
    }

    fn leave(&mut self) {
        self.joined = Flag(0);
        self.since = Flag(0);
        self.later = 0;
    }

    /// "Port recorded unreadable, its step lost"
    fn flag(&mut self) {
        self.had = Flag(1);
        self.failed = Flag(1);
        self.lose_step();
    }

    /// Whether a frame carries what the tag to come says: MFI1, and the nibble of MFI2 that stands at that tag's place.
    fn is_right(&self, mfi1: usize, nibble: usize) -> bool {
        let next = self.next_tag();
        let mfi2_right = match next % 16 {
            0 => nibble == next / 256,
            1 => nibble == next / 16 % 16,
            _ => true,
        };
        mfi1 == next % 16 && mfi2_right
    }

    /// The step record over a frame that is not flagged.
    fn count(&mut self, h4: u8) {
        let (nibble, mfi1) = (usize::from(h4 / 16), usize::from(h4 % 16));
        self.had = Flag(1);
        self.failed = Flag(0);
        if self.kind == KIND_VC12 {
            self.count_bit(h4);
        } else if self.in_step() {
            self.stay(mfi1, nibble);
        } else {
            self.gain(mfi1, nibble);
        }
    }

    /// Coming into step is strict. The low nibble of a run's first MFI2 is news, and is taken as it comes.
    fn gain(&mut self, mfi1: usize, nibble: usize) {
        if self.count == 1 && mfi1 == 1 {
            self.next = (self.next_tag() / 256 * 256 + nibble * 16 + 1) as u16;
        }
        if self.count > 0 && self.is_right(mfi1, nibble) {
            self.count += 1;
            (self.breaks, self.odd) = (0, Flag(0));
            self.go_on(nibble);
        } else {
            self.start_over(mfi1, nibble);
        }
    }

    /// "The receiver goes on counting by itself": a frame in step has the tag to come.
    fn stay(&mut self, mfi1: usize, nibble: usize) {
        let breaks = if self.is_right(mfi1, nibble) { 0 } else { self.breaks.saturating_add(1) };
        let ends = self.next_tag() % 16 == 7;
        let odd = if ends { Flag::from(self.ends_odd(nibble)) } else { self.odd };
        if breaks >= BREAKS_LOSE || ends && odd.is_set() && self.odd.is_set() {
            self.start_over(mfi1, nibble);
        } else {
            self.breaks = breaks;
            self.odd = odd;
            self.go_on(nibble);
        }
    }

    /// Whether the packet that ends with this nibble has a right CRC and the MFI2 of another epoch than the own count's. Of a FIXED
    /// group "no CRC is checked", so none is wrong.
    fn ends_odd(&self, nibble: usize) -> bool {
        let mut packet = self.gathering.map(|n| n % 16);
        packet[15] = nibble as u8;
        let check = usize::from(packet[14]) * 16 + usize::from(packet[15]);
        let mfi2 = usize::from(packet[8]) * 16 + usize::from(packet[9]);
        (self.kind == KIND_FIXED || check == usize::from(packet::crc(&packet))) && mfi2 != self.next_tag() / 16
    }

    /// The frame has the tag to come, and its nibble goes to that tag's place.
    fn go_on(&mut self, nibble: usize) {
        let tag = self.next_tag();
        self.gathering[(tag + 8) % 16] = nibble as u8;
        self.next = ((tag + 1) % TAGS) as u16;
    }

    /// No step, and no run; but a frame of MFI1 0 is the first of a new 32.
    fn start_over(&mut self, mfi1: usize, nibble: usize) {
        self.lose_step();
        if mfi1 == 0 {
            self.count = 1;
            self.next = (nibble * 256) as u16;
            self.go_on(nibble);
        }
    }

    fn drop_all_but_step(&mut self) {
        self.leave();
        self.marks = 0;
        self.whole = Flag(0);
    }

    /// Joins at the i-th epoch from the oldest. What the port had stored from there on is dropped.
    fn join(&mut self, i: usize) {
        self.joined = Flag(1);
        self.later = i as u8;
        self.marks &= (1 << i) - 1;
    }

    /// Brought all frames of the oldest epoch.
    fn brought(&self) -> bool {
        self.marks & 1 == 1
    }

    fn is_idle(&self) -> bool {
        self.word == NONE || self.word == IDLE
    }

    /// OK at the last report, and under the number that it has now.
    fn keeps(&self) -> bool {
        self.state == STATE_OK && self.state_number == self.number
    }

    /// FAIL at the last report, and its claim has not stood for long enough.
    fn is_restoring(&self) -> bool {
        self.state == STATE_FAIL && self.run < self.restore
    }

    /// OK at the last report, and may lose its claim for one report more. (An OK port's number is below 64.)
    fn has_hold_off_left(&self) -> bool {
        self.state == STATE_OK && self.run < self.hold_off && self.state_number < 64
    }

    /// "Never are both running for one port": there is one count, and the state says of what.
    fn waiting(&self) -> u8 {
        match (self.state, self.run) {
            (_, 0) => WAITING_NONE,
            (STATE_OK, _) => WAITING_HOLD_OFF,
            (STATE_FAIL, _) => WAITING_RESTORE,
            _ => WAITING_NONE,
        }
    }
}

/// A number, and the port that holds it.
type Holder = (u8, usize);

fn holder_of(holders: &[Holder], number: u8) -> Option<usize> {
    holders.iter().find(|(q, _)| *q == number).map(|(_, port)| *port)
}

/// Whether a word is that of an active or DNU member, which has a number in the group's order.
fn is_numbered(word: u8) -> bool {
    is_active(word) || word == DNU
}

fn is_active(word: u8) -> bool {
    word == NORM || word == EOS
}

/// Word, GID and number of the packet of an epoch by the own count, if it is read with 0. "A packet whose carried MFI2 differs
/// from that count is treated as a CRC difference", which "is for H4 alone", LCAS and FIXED.
fn read(kind: u32, nibbles: &[u8; 16], epoch: u8) -> Option<(u8, u8, u8)> {
    if kind == KIND_VC12 {
        return vc12::read(nibbles);
    }
    let h4 = nibbles.map(|n| n % 16 * 16);
    let mut fields = [0u8; packet::FIELDS_BYTES];
    let answer = if kind == KIND_FIXED { packet::read_fixed(&h4, &mut fields) } else { packet::read(&h4, &mut fields) };
    let [mfi2, word, gid, _, _, number, ..] = fields;
    (answer == packet::DONE && mfi2 == epoch).then_some((word, gid, number))
}

/// The clauses of 01's "Report of an epoch", in its order.
pub const CAUSE_REFUSED: u8 = 1;
pub const CAUSE_LACKING: u8 = 2;
pub const CAUSE_REPEATED: u8 = 3;
pub const CAUSE_GID: u8 = 4;
pub const CAUSE_EOS: u8 = 5;
pub const CAUSE_UNSEEN: u8 = 6;
pub const CAUSE_NUMBERS: u8 = 7;

/// The first clause that holds, or none.
fn first_of(clauses: &[(u8, bool)]) -> u8 {
    clauses.iter().find(|(_, holds)| *holds).map_or(0, |(cause, _)| *cause)
}

/// What a fetch reports.
#[derive(Clone, Copy, PartialEq, Eq, Debug)]
pub struct Report {
    /// None due, held, doubtful or sure.
    pub mark: u8,
    pub epoch: u8,
    /// The active ports joined, the clause that decided (0 none), and the bytes written.
    pub x: usize,
    pub cause: u8,
    pub bytes: usize,
}

impl Report {
    pub const NONE: Report = Report { mark: NONE_DUE, epoch: 0, x: 0, cause: 0, bytes: 0 };
}

/// What is shown of a port.
#[derive(Clone, Copy, PartialEq, Eq, Debug)]
pub struct Shown {
    pub state: u8,
    pub number: u8,
    pub in_step: bool,
    pub joined: bool,
    pub readable: bool,
    pub failed: bool,
    /// The last good word.
    pub word: u8,
    pub waiting: u8,
}

#[derive(Clone, PartialEq, Eq, Debug, Default)]
pub struct Receiver {
    pub kind: u32,
    pub ports: Vec<Port>,
    /// P and W.
    pub payload: usize,
    pub window: usize,
    pub begun: Flag,
    /// The first epoch is gathered.
    pub gathered: Flag,
    /// The oldest epoch not yet reported or gathered; 0 while receiving has not begun.
    pub oldest: u8,
    /// The place of the window's first frame.
    pub origin: u16,
    pub rs_ack: Flag,
}

impl Receiver {
    /// What a refused start leaves, of whatever kind: no ports.
    pub fn empty() -> Receiver {
        Receiver::default()
    }

    /// Whether a group of H4 or FIXED can be so large.
    pub fn fits(ports: u32, payload: u32, window: u32) -> bool {
        Receiver::fits_as(KIND_H4, ports, payload, window)
    }

    /// The same of any kind. Of VC-12 no start takes another P than 136, but rows may have one.
    pub fn fits_as(kind: u32, ports: u32, payload: u32, window: u32) -> bool {
        let (least, most) = clock(kind).window;
        let in_window = (least..=most).contains(&(window as usize));
        KINDS.contains(&kind) && (1..=PORTS_MOST).contains(&ports) && (1..=PAYLOAD_MOST).contains(&payload) && in_window
    }

    pub fn start(&mut self, ports: u32, payload: u32, window: u32, store_length: usize) -> u8 {
        self.start_as(KIND_H4, ports, payload, window, store_length, &[], &[])
    }

    /// Starts with a hold-off and a wait-to-restore for each port; an empty list has zero for all.
    pub fn start_as(&mut self, kind: u32, ports: u32, payload: u32, window: u32, store_length: usize, hold_off: &[u32], restore: &[u32]) -> u8 {
        let times_fit = hold_off.iter().chain(restore).all(|time| *time <= TIMER_MOST);
        let payload_fits = kind != KIND_VC12 || payload == PAYLOAD_VC12;
        if !Receiver::fits_as(kind, ports, payload, window) || !payload_fits || !times_fit {
            *self = Receiver { kind, ..Receiver::empty() };
            return 4;
        }
        let time = |list: &[u32], port: usize| list.get(port).map_or(0, |time| *time as u16);
        let port = |i: usize| Port { hold_off: time(hold_off, i), restore: time(restore, i), ..Port::new(kind) };
        let started =
            Receiver { kind, ports: (0..ports as usize).map(port).collect(), payload: payload as usize, window: window as usize, ..Receiver::empty() };
        let is_list = |list: &[u32]| list.is_empty() || list.len() == ports as usize;
        if store_length != started.store_length() || !is_list(hold_off) || !is_list(restore) {
            return 9;
        }
        *self = started;
        0
    }

    pub fn store_length(&self) -> usize {
        self.ports.len() * self.window * (self.payload + 1)
    }

    /// The output holds at least this.
    pub fn output_least(&self) -> usize {
        self.ports.len() * self.clock().frames * self.payload
    }

    pub fn clock(&self) -> Clock {
        clock(self.kind)
    }

    /// Where a port's frame so far after the window's first stands in the store.
    pub fn place(&self, port: usize, distance: usize) -> usize {
        (port * self.window + (usize::from(self.origin) + distance) % self.window) * (self.payload + 1)
    }

    /// "In step, if joined or in step ever since the beginning"
    pub fn is_readable(&self, port: &Port) -> bool {
        self.begun.is_set() && port.in_step() && (port.joined.is_set() || port.since.is_set())
    }

    /// "Every readable port has brought its sixteen frames or joined at a later epoch"
    pub fn is_due(&self) -> bool {
        let mut readable = self.ports.iter().filter(|p| self.is_readable(p));
        self.begun.is_set() && readable.all(|p| p.brought() || p.joined.is_set() && p.later > 0)
    }

    pub fn frame(&mut self, port: u32, flagged: bool, h4: u8, payload: &[u8], store: &mut [u8]) -> u8 {
        let answer = self.take(port, flagged, h4, payload, store);
        if matches!(answer, 0 | 10 | 12) {
            self.follow(store);
        }
        answer
    }

    /// What a frame does to its own port.
    fn take(&mut self, port: u32, flagged: bool, h4: u8, payload: &[u8], store: &mut [u8]) -> u8 {
        let port = port as usize;
        if port >= self.ports.len() {
            return 1;
        }
        if payload.len() != self.payload || store.len() != self.store_length() {
            return 9;
        }
        let mut advanced = self.ports[port].clone();
        let answer = if flagged {
            advanced.flag();
            10
        } else {
            advanced.count(h4);
            if advanced.in_step() {
                0
            } else {
                12
            }
        };
        if answer == 0 && self.begun.is_set() {
            let clock = self.clock();
            let tag = advanced.latest_tag();
            let distance = clock.after(tag, clock.first_tag(self.oldest));
            let in_window = distance < self.window;
            if advanced.joined.is_set() && !in_window {
                return 11;
            }
            if !advanced.joined.is_set() && in_window && clock.place(tag) == 0 {
                advanced.join(distance / clock.frames);
            }
            if advanced.joined.is_set() {
                let at = self.place(port, distance);
                store[at..at + self.payload].copy_from_slice(payload);
                store[at + self.payload] = h4;
                if distance % clock.frames == clock.frames - 1 {
                    advanced.marks |= 1 << (distance / clock.frames);
                }
            }
        }
        self.ports[port] = advanced;
        answer
    }

    /// All that follows from a frame by the receiver's rules. Stopping comes before the beginning, both before gathering.
    fn follow(&mut self, store: &[u8]) {
        if self.begun.is_set() && !self.ports.iter().any(|p| self.is_readable(p)) {
            self.stop();
        }
        if !self.begun.is_set() {
            if let Some(foremost) = self.foremost_to_begin() {
                self.begin(foremost);
            }
        }
        if self.begun.is_set() && !self.gathered.is_set() && self.is_due() {
            self.take_packets(store);
            self.pass();
        }
    }

    fn stop(&mut self) {
        for p in &mut self.ports {
            p.drop_all_but_step();
        }
        self.begun = Flag(0);
        self.gathered = Flag(0);
        self.oldest = 0;
    }

    /// The foremost of the latest tags, if receiving is to begin: the one that all others lie within W-16 (of VC-12 W-32)
    /// behind.
    pub fn foremost_to_begin(&self) -> Option<usize> {
        if !self.ports.iter().all(|p| p.had.is_set() && (p.in_step() || p.failed.is_set())) {
            return None;
        }
        let tags: Vec<usize> = self.ports.iter().filter(|p| p.in_step()).map(Port::latest_tag).collect();
        let behind = self.window - self.clock().frames;
        tags.iter().copied().find(|foremost| tags.iter().all(|t| self.clock().after(*foremost, *t) <= behind))
    }

    fn begin(&mut self, foremost: usize) {
        for p in &mut self.ports {
            p.drop_all_but_step();
            p.since = Flag::from(p.in_step());
        }
        self.begun = Flag(1);
        self.gathered = Flag(0);
        // an epoch that starts at the foremost tag has started
        self.oldest = self.clock().next_epoch(self.clock().epoch_of(foremost));
    }

    /// The packets of the oldest epoch come to rule, read back from the store where they arrived whole.
    fn take_packets(&mut self, store: &[u8]) {
        for i in 0..self.ports.len() {
            let brought = self.ports[i].brought();
            self.ports[i].whole = Flag::from(brought);
            if brought {
                let frame = |k: usize| store[self.place(i, k) + self.payload];
                let ruling: [u8; 16] = match self.kind {
                    KIND_VC12 => std::array::from_fn(|k| frame(2 * k) % 2 * 2 + frame(2 * k + 1) % 2),
                    _ => std::array::from_fn(|k| frame(k) / 16),
                };
                let p = &mut self.ports[i];
                p.ruling = ruling;
                if let Some((word, _, number)) = read(self.kind, &ruling, self.oldest) {
                    p.word = word;
                    p.number = number;
                }
            }
        }
    }

    /// The window moves to the next epoch: the oldest is gathered or reported.
    fn pass(&mut self) {
        self.gathered = Flag(1);
        for p in &mut self.ports {
            p.marks >>= 1;
            p.later = p.later.saturating_sub(1);
        }
        self.oldest = self.clock().next_epoch(self.oldest);
        self.origin = ((usize::from(self.origin) + self.clock().frames) % self.window) as u16;
    }

    pub fn fetch(&mut self, store: &[u8], output: &mut [u8]) -> (u8, Report) {
        if store.len() != self.store_length() || output.len() < self.output_least() {
            return (9, Report::NONE);
        }
        if !self.gathered.is_set() || !self.is_due() {
            return (0, Report::NONE);
        }
        let (cause, mark, ranked) = self.judge();
        let x = ranked.len();
        let frames = self.clock().frames;
        for k in 0..frames {
            for p in 0..x * self.payload {
                output[k * x * self.payload + p] = store[self.place(ranked[p % x], k) + p / x];
            }
        }
        let report = Report { mark, epoch: self.oldest, x, cause, bytes: frames * x * self.payload };
        self.take_packets(store);
        self.work_out_states();
        self.pass();
        (0, report)
    }

    /// Each port's whole ruling packet, with what is read of it. The packets that rule are those of the epoch before.
    fn whole(&self) -> Vec<(usize, Option<(u8, u8, u8)>)> {
        let ruled_by = self.oldest.wrapping_sub(1);
        let whole = (0..self.ports.len()).filter(|i| self.ports[*i].whole.is_set());
        whole.map(|i| (i, read(self.kind, &self.ports[i].ruling, ruled_by))).collect()
    }

    /// Why, held, doubtful or sure, and the ports to join in the order of their ranks (none if held).
    fn judge(&self) -> (u8, u8, Vec<usize>) {
        if self.kind == KIND_FIXED {
            self.judge_fixed()
        } else {
            self.judge_lcas()
        }
    }

    /// "The ports' numbers must be exactly 0 to X-1 or the epoch is held", and "a set number of ports never changes while running", so
    /// X is all ports. A port whose packet is not there or was refused has no number.
    fn judge_fixed(&self) -> (u8, u8, Vec<usize>) {
        let whole = self.whole();
        let mut numbered: Vec<(u8, usize)> = whole.iter().filter_map(|(i, packet)| packet.map(|(_, _, number)| (number, *i))).collect();
        numbered.sort();
        let numbers: Vec<usize> = numbered.iter().map(|(number, _)| usize::from(*number)).collect();
        let cause = first_of(&[
            (CAUSE_UNSEEN, whole.len() < self.ports.len()),
            (CAUSE_REFUSED, numbered.len() < whole.len()),
            (CAUSE_LACKING, numbered.iter().any(|(_, i)| !self.ports[*i].brought())),
            (CAUSE_REPEATED, numbers.windows(2).any(|pair| pair[0] == pair[1])),
            (CAUSE_NUMBERS, numbers != (0..self.ports.len()).collect::<Vec<usize>>()),
        ]);
        if cause == 0 {
            (cause, SURE, numbered.iter().map(|(_, i)| *i).collect())
        } else {
            (cause, HELD, Vec::new())
        }
    }

    fn judge_lcas(&self) -> (u8, u8, Vec<usize>) {
        let whole = self.whole();
        let some_missing = whole.len() < self.ports.len();
        let some_refused = whole.iter().any(|(_, packet)| packet.is_none());
        let good: Vec<(usize, u8, u8, u8)> = whole.iter().filter_map(|(i, packet)| packet.map(|(word, gid, number)| (*i, word, gid, number))).collect();

        let mut active: Vec<(u8, usize, u8)> = good.iter().filter(|g| is_active(g.1)).map(|g| (g.3, g.0, g.1)).collect();
        active.sort();
        let lacks_frame = active.iter().any(|(_, i, _)| !self.ports[*i].brought());

        let mut numbers: Vec<u8> = good.iter().filter(|g| is_numbered(g.1)).map(|g| g.3).collect();
        numbers.sort();
        let repeats = numbers.windows(2).any(|pair| pair[0] == pair[1]);

        let gids: Vec<u8> = good.iter().filter(|g| g.1 != IDLE).map(|g| g.2).collect();
        let gid_differs = gids.contains(&0) && gids.contains(&1);

        let ends: Vec<u8> = active.iter().filter(|a| a.2 == EOS).map(|a| a.0).collect();
        let end_right = ends.len() == 1 && ends[0] == active[active.len() - 1].0;
        let end_wrong = !active.is_empty() && !end_right && !(ends.is_empty() && some_missing);

        let held = first_of(&[
            (CAUSE_REFUSED, some_refused),
            (CAUSE_LACKING, lacks_frame),
            (CAUSE_REPEATED, repeats),
            (CAUSE_GID, gid_differs),
            (CAUSE_EOS, end_wrong),
        ]);
        if held > 0 {
            return (held, HELD, Vec::new());
        }
        let in_order = numbers.iter().enumerate().all(|(i, number)| usize::from(*number) == i);
        let doubted = first_of(&[(CAUSE_UNSEEN, some_missing), (CAUSE_NUMBERS, !in_order)]);
        let mark = if doubted > 0 { DOUBTFUL } else { SURE };
        (doubted, mark, active.iter().map(|a| a.1).collect())
    }

    fn work_out_states(&mut self) {
        let listed = |word: u8, number: u8| is_numbered(word).then_some(number);
        let turns = self.ports.iter().any(|p| listed(p.word, p.number) != listed(p.told_word, p.told_number) || p.told_word == ADD && p.word == IDLE);
        if turns {
            self.rs_ack = Flag::from(!self.rs_ack.is_set());
        }

        let holders = self.holders();
        let told: Vec<(u8, u8, u16)> = (0..self.ports.len())
            .map(|i| {
                let p = &self.ports[i];
                let keeps_number = p.has_hold_off_left() && holder_of(&holders, p.state_number) == Some(i);
                match self.has_claim(&holders, i) {
                    _ if p.is_idle() => (STATE_IDLE, p.number, 0),
                    true if p.is_restoring() => (STATE_FAIL, p.number, p.run + 1),
                    true => (STATE_OK, p.number, 0),
                    false if keeps_number => (STATE_OK, p.state_number, p.run + 1),
                    false => (STATE_FAIL, p.number, 0),
                }
            })
            .collect();
        for (p, told) in self.ports.iter_mut().zip(told) {
            (p.state, p.state_number, p.run) = told;
            (p.told_word, p.told_number) = (p.word, p.number);
        }
    }

    /// "Candidates when readable with a number below 64"
    fn is_candidate(&self, p: &Port) -> bool {
        !p.is_idle() && self.is_readable(p) && p.number < 64
    }

    /// A candidate, and no other port holds its number.
    fn has_claim(&self, holders: &[Holder], i: usize) -> bool {
        self.is_candidate(&self.ports[i]) && holder_of(holders, self.ports[i].number).map_or(true, |holder| holder == i)
    }

    /// Who chooses which number, where some are held already: first who keeps its number, then the rest, each in port order.
    /// Who waits to restore takes none.
    fn choose(&self, held: &[Holder]) -> Vec<Holder> {
        let choosing = (0..self.ports.len()).filter(|i| self.is_candidate(&self.ports[*i]) && !self.ports[*i].is_restoring());
        let (first, then): (Vec<usize>, Vec<usize>) = choosing.partition(|i| self.ports[*i].keeps());
        let mut holders = held.to_vec();
        for i in first.into_iter().chain(then) {
            let number = self.ports[i].number;
            if holder_of(&holders, number).is_none() {
                holders.push((number, i));
            }
        }
        holders
    }

    /// Who holds which number after this report. An OK port that gets none, and has hold-off left, holds the number under which it
    /// is OK. Whether one gets its number can hang on who else holds, so it goes in rounds, until one in which none joins.
    fn holders(&self) -> Vec<Holder> {
        let mut held: Vec<Holder> = Vec::new();
        loop {
            let holders = self.choose(&held);
            let before = held.len();
            for (i, p) in self.ports.iter().enumerate() {
                let loses = !p.is_idle() && p.has_hold_off_left() && !self.has_claim(&holders, i);
                if loses && holder_of(&held, p.state_number).is_none() {
                    held.push((p.state_number, i));
                }
            }
            if held.len() == before {
                return holders;
            }
        }
    }

    pub fn ports(&self) -> Vec<Shown> {
        let shown = |p: &Port| Shown {
            state: p.state,
            number: if p.state == STATE_IDLE { self.clock().idle } else { p.state_number },
            in_step: p.in_step(),
            joined: p.joined.is_set(),
            readable: self.is_readable(p),
            failed: p.failed.is_set(),
            word: p.word,
            waiting: p.waiting(),
        };
        self.ports.iter().map(shown).collect()
    }

    /// MST and RS-Ack for the packets of an epoch. For a FIXED group "there is no .. reply": what an end without LCAS sends back is
    /// zeros (002, 7.1).
    pub fn reply(&self, epoch: u8) -> (u8, u8) {
        if self.kind == KIND_FIXED {
            return (0, 0);
        }
        let is_ok = |q: u8| self.ports.iter().any(|p| p.state == STATE_OK && p.state_number == q);
        let mst = (0..8).filter(|bit| !is_ok(8 * (epoch % self.clock().mst_epochs) + bit)).map(|bit| 0x80 >> bit).sum();
        (mst, u8::from(self.rs_ack.is_set()))
    }
}
