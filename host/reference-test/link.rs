//! Links from the reference's sender to the receiver: any delays up to W-16 apart, any order within a frame time, damaged
//! packets, any commands. Every answer, the moment of the beginning, every report and its bytes are foretold.
//!
//! MFI1 comes as sent, and so does the MFI2 of frames that are handed before receiving has begun. All else of a packet's 64
//! bits may be changed, one to three in each packet that is.

use crate::count::Count;
use crate::random::Random;
use crate::source::Lent;
use reference::packet::{DNU, EOS, IDLE, NORM};
use reference::receiver::{DOUBTFUL, HELD, SURE};
use reference::sender::Sender;

/// What goes out at one frame time: the client's group frame, and each slot's H4 and payload.
struct Sent {
    group_frame: Vec<u8>,
    h4: Vec<u8>,
    members: Vec<Vec<u8>>,
}

/// The sending side. Frame x of the stream is the frame x mod 16 of the epoch first_epoch + x div 16.
struct Sending {
    sender: Sender,
    payload: usize,
    /// One packet in so many is damaged; 0 for none.
    damage: u64,
    packets: Vec<[u8; 16]>,
    /// For every epoch, the bits of each slot's packet that the line changes, the first sent lowest.
    hits: Vec<Vec<u64>>,
    /// For every epoch, whether some packet of it came damaged.
    damaged: Vec<bool>,
    sent: Vec<Sent>,
}

impl Sending {
    fn new(slots: usize, first_epoch: u8, payload: usize, damage: u64) -> Sending {
        let sender = Sender::start(slots as u32, first_epoch.into()).expect("the count fits");
        Sending { sender, payload, damage, packets: vec![[0; 16]; slots], hits: Vec::new(), damaged: Vec::new(), sent: Vec::new() }
    }

    fn slots(&self) -> usize {
        self.packets.len()
    }

    fn start_epoch(&mut self, random: &mut Random) {
        let (gid, mst, rs_ack) = (random.below(2) as u32, random.below(256) as u32, random.below(2) as u32);
        assert_eq!(self.sender.start_epoch(gid, mst, rs_ack), 0);
        for slot in 0..self.slots() {
            assert_eq!(self.sender.packet(slot as u32, &mut self.packets[slot]), 0);
        }
        let hits = (0..self.slots()).map(|_| if self.damage > 0 && random.below(self.damage) == 0 { hits(random) } else { 0 });
        self.hits.push(hits.collect());
        self.damaged.push(false);
    }

    /// The bits that the line changes in the high nibble of a slot's frame x.
    fn hit(&self, slot: usize, x: usize) -> u8 {
        (self.hits[x / 16][slot] >> (4 * (x % 16)) & 15) as u8
    }

    /// Sends the next frame of the stream.
    fn send(&mut self, random: &mut Random) {
        let x = self.sent.len();
        if x % 16 == 0 {
            self.start_epoch(random);
        }
        let ranked = self.sender.ranked();
        let mut group_frame = vec![0; ranked.len() * self.payload];
        random.fill(&mut group_frame);
        let members = (0..self.slots())
            .map(|slot| {
                let mut member = vec![0; self.payload];
                assert_eq!(self.sender.payload(slot as u32, self.payload as u32, &group_frame, &mut member), 0);
                if !ranked.contains(&slot) {
                    random.fill(&mut member);
                }
                member
            })
            .collect();
        let h4 = self.packets.iter().map(|p| p[x % 16]).collect();
        self.sent.push(Sent { group_frame, h4, members });
    }

    /// The client's bytes of an epoch.
    fn client_bytes(&self, epoch_index: usize) -> Vec<u8> {
        self.sent[epoch_index * 16..epoch_index * 16 + 16].iter().flat_map(|s| s.group_frame.iter().copied()).collect()
    }
}

/// One to three bits of 64; often of MFI2's eight alone.
fn hits(random: &mut Random) -> u64 {
    let (first, bits) = random.one_of(&[(0, 64), (0, 64), (32, 8)]);
    let number = 1 + random.below(3) as u32;
    let mut hits = 0u64;
    while hits.count_ones() < number {
        hits |= 1 << (first + random.below(bits));
    }
    hits
}

/// Whether frame x of the stream carries a nibble of MFI2.
fn carries_mfi2(x: usize) -> bool {
    x % 16 == 8 || x % 16 == 9
}

fn shuffled(random: &mut Random, n: usize) -> Vec<usize> {
    let mut order: Vec<usize> = (0..n).collect();
    for i in (1..n).rev() {
        order.swap(i, random.below(i as u64 + 1) as usize);
    }
    order
}

/// Some command or report at the sender.
fn command(random: &mut Random, sender: &mut Sender, lent: &Lent) {
    let slots = u64::from(sender.table.count());
    let slot = random.below(slots) as u32;
    let epoch = 32 * random.below(8) as u8 + random.below(slots / 8 + 1) as u8;
    match random.below(40) {
        0..=9 => sender.table.add(slot),
        10 => sender.table.remove(slot),
        11 => sender.table.lapse(),
        12 => sender.table.report(epoch.into(), random.below(256) as u32, random.below(2) == 1),
        _ => {
            let (mst, rs_ack) = lent.receiver.reply(epoch);
            sender.table.report(epoch.into(), mst.into(), rs_ack == 1)
        }
    };
}

#[derive(Default)]
struct Seen {
    sure: usize,
    held: usize,
    bytes: usize,
    widest: usize,
    /// Frames whose MFI2 came changed.
    mfi2_hits: usize,
    /// The most frames, the first counted as 1, from the last port's first frame to the beginning.
    frames_to_begin: usize,
}

/// A link with its delays, and what the paper foretells of it.
struct Link {
    sending: Sending,
    lent: Lent,
    window: usize,
    /// Each port's slot, delay and first frame of the stream that it gets.
    slot: Vec<usize>,
    delay: Vec<usize>,
    first: Vec<usize>,
    /// The last frame of the stream that each port got.
    got: Vec<Option<usize>>,
    /// Once begun, the stream's frame that is the window's first; and whether an epoch was gathered.
    base: Option<usize>,
    gathered: bool,
    mfi2_hits: usize,
}

impl Link {
    fn new(random: &mut Random, window: usize, ports: usize, payload: usize, damage: u64) -> Link {
        let spread = match random.below(3) {
            0 => window - 16,
            _ => random.below(window as u64 - 15) as usize,
        };
        let least = random.below(40) as usize;
        let mut delay: Vec<usize> = (0..ports).map(|_| least + random.below(spread as u64 + 1) as usize).collect();
        let (one, other) = (random.below(ports as u64) as usize, random.below(ports as u64) as usize);
        delay[one] = least;
        delay[other] = least + if one == other { 0 } else { spread };
        let first = (0..ports).map(|_| if random.below(2) == 0 { 0 } else { random.below(100) as usize }).collect();
        let sending = Sending::new(ports, random.below(256) as u8, payload, damage);
        let lent = Lent::start(ports, payload, window);
        let slot = shuffled(random, ports);
        Link { sending, lent, window, slot, delay, first, got: vec![None; ports], base: None, gathered: false, mfi2_hits: 0 }
    }

    fn ports(&self) -> usize {
        self.delay.len()
    }

    /// The first frame with MFI1 0 among those that a port gets.
    fn first_counted(&self, port: usize) -> usize {
        // frame 8 of an epoch has MFI1 0
        (self.first[port] + 7) / 16 * 16 + 8
    }

    fn in_step(&self, port: usize) -> bool {
        self.got[port].map_or(false, |x| x >= self.first_counted(port) + 31)
    }

    /// Hands a port its frame of this frame time, if it has one; false if anything is not as foretold.
    fn hand(&mut self, port: usize, time: usize) -> bool {
        let x = match time.checked_sub(self.delay[port]) {
            Some(x) if x >= self.first[port] => x,
            _ => return true,
        };
        let sent = &self.sending.sent[x];
        let slot = self.slot[port];
        let spared = carries_mfi2(x) && self.base.is_none();
        let hit = if spared { 0 } else { self.sending.hit(slot, x) };
        self.sending.damaged[x / 16] |= hit != 0;
        self.mfi2_hits += usize::from(hit != 0 && carries_mfi2(x));
        let answer = self.lent.hand(port, false, sent.h4[slot] ^ hit << 4, &sent.members[slot]);
        self.got[port] = Some(x);
        answer == if self.in_step(port) { 0 } else { 12 } && self.begins()
    }

    /// Foretells the beginning, and the gathering of the first epoch.
    fn begins(&mut self) -> bool {
        let got: Vec<usize> = self.got.iter().flatten().copied().collect();
        if self.base.is_none() && (0..self.ports()).all(|p| self.in_step(p)) {
            let (least, most) = (got.iter().min().unwrap(), got.iter().max().unwrap());
            if most - least <= self.window - 16 {
                self.base = Some(most / 16 * 16 + 16);
            }
        }
        if let (Some(base), false) = (self.base, self.gathered) {
            if got.iter().all(|x| *x >= base + 15) {
                self.base = Some(base + 16);
                self.gathered = true;
            }
        }
        self.lent.begun() == self.base.is_some() && self.lent.receiver.gathered.is_set() == self.gathered
    }

    /// Fetches until none is due; false if anything is not as foretold.
    fn fetch(&mut self, seen: &mut Seen) -> bool {
        loop {
            let before = self.lent.output.clone();
            let report = self.lent.fetch();
            let least = self.got.iter().flatten().min().copied();
            let due = match (self.base, self.gathered, least) {
                (Some(base), true, Some(least)) if least >= base + 15 => base / 16,
                _ => return report.mark == 0 && self.lent.output == before,
            };
            self.base = Some(due * 16 + 16);
            let epoch = (self.sending.sender.epoch as usize + due + 257 - self.sending.damaged.len()) % 256;
            let bytes = if self.sending.damaged[due - 1] { Vec::new() } else { self.sending.client_bytes(due) };
            let mark = if self.sending.damaged[due - 1] { HELD } else { SURE };
            let right = (report.mark, usize::from(report.epoch), report.bytes) == (mark, epoch, bytes.len())
                && report.x * 16 * self.sending.payload == report.bytes
                && self.lent.output[..bytes.len()] == bytes[..]
                && self.lent.output[bytes.len()..] == before[bytes.len()..];
            if !right {
                return false;
            }
            seen.sure += usize::from(mark == SURE);
            seen.held += usize::from(mark == HELD);
            seen.bytes += bytes.len();
            seen.widest = seen.widest.max(report.x);
        }
    }

    /// Runs for so many frame times; false as soon as anything is not as foretold.
    fn run(&mut self, random: &mut Random, times: usize, seen: &mut Seen) -> bool {
        let fetch_each = random.below(2) == 0;
        let last_starts = (0..self.ports()).map(|p| self.first[p] + self.delay[p]).max().unwrap();
        let mut begun_at = None;
        for time in 0..times {
            if time % 16 == 0 {
                for _ in 0..random.below(3) {
                    command(random, &mut self.sending.sender, &self.lent);
                }
            }
            self.sending.send(random);
            for port in shuffled(random, self.ports()) {
                if !self.hand(port, time) || fetch_each && !self.fetch(seen) {
                    return false;
                }
            }
            if !self.fetch(seen) {
                return false;
            }
            if begun_at.is_none() && self.base.is_some() {
                begun_at = Some(time);
                seen.frames_to_begin = seen.frames_to_begin.max(time + 1 - last_starts);
            }
        }
        seen.mfi2_hits += self.mfi2_hits;
        begun_at.map_or(false, |time| time <= last_starts + 46) && self.gathered
    }
}

pub fn check(count: &mut Count) {
    let mut random = Random::new(23);
    let mut seen = Seen::default();
    let windows = [16, 17, 20, 31, 32, 33, 48, 63, 64, 100, 255, 256, 1000, 2047, 2048];
    let runs = |random: &mut Random, number: usize, damage: u64, seen: &mut Seen| {
        (0..number).all(|_| {
            let window = random.one_of(&windows);
            let ports = random.one_of(&[1, 2, 2, 3, 4, 5, 9]);
            let payload = random.one_of(&[1, 1, 2, 3, 7]);
            let mut link = Link::new(random, window, ports, payload, damage);
            // the last port needs up to W frames more to bring the gathered epoch
            let times = 2 * window + 300 + random.below(600) as usize;
            link.run(random, times, seen)
        })
    };
    let right = runs(&mut random, 400, 0, &mut seen);
    let many = seen.held == 0 && seen.sure > 5000 && seen.bytes > 500_000 && seen.widest >= 5;
    count.note(&format!("every epoch is sure and has the client's bytes ({} epochs, {} bytes)", seen.sure, seen.bytes), right && many);
    count.note(&format!("receiving begins within 47 frames (most: {})", seen.frames_to_begin), right && seen.frames_to_begin == 47);

    let mut seen = Seen::default();
    let right = runs(&mut random, 400, 30, &mut seen);
    let name = format!("damaged packets hold the next epoch alone ({} sure, {} held, {} hits of MFI2)", seen.sure, seen.held, seen.mfi2_hits);
    count.note(&name, right && seen.sure > 3000 && seen.held > 1000 && seen.mfi2_hits > 500);
    count.note("MFI2 damaged in both nibbles right after the beginning costs nothing", mfi2_after_beginning());
    count.note("MFI2 damaged before it, and receiving does not begin in 48 frames", mfi2_before_beginning());

    let mut seen = Seen::default();
    let right = (0..2).all(|_| Link::new(&mut random, 2048, 2, 1, 200).run(&mut random, 14000, &mut seen));
    count.note("tags go round twice", right && seen.sure > 1000);

    let mut seen = Seen::default();
    let right = Link::new(&mut random, 40, 64, 3, 500).run(&mut random, 2500, &mut seen);
    count.note(&format!("64 ports, up to {} active", seen.widest), right && seen.widest >= 8);

    count.note("all members come to carry payload by the receiver's replies alone", all_carry());
    count.note("a failed member is left out, and comes back", fails_and_returns());
}

/// Three frame by frame from the stream's first on, with these bits of the second one's packet of this epoch changed: the
/// frame times to the beginning, and the marks of the first reports. All hits count here.
fn begins_with_hits(epoch: usize, hits: u64) -> (Option<usize>, Vec<u8>) {
    let mut random = Random::new(29);
    let mut link = three(&mut random);
    let mut begun_at = None;
    let mut marks = Vec::new();
    for time in 0..160 {
        link.sending.send(&mut random);
        for port in 0..3 {
            let sent = &link.sending.sent[time];
            let hit = if port == 1 && time / 16 == epoch { (hits >> (4 * (time % 16)) & 15) as u8 } else { 0 };
            link.lent.hand(port, false, sent.h4[port] ^ hit << 4, &sent.members[port]);
        }
        if begun_at.is_none() && link.lent.begun() {
            begun_at = Some(time);
        }
        marks.extend(link.lent.fetch_all().iter().map(|r| r.mark));
    }
    (begun_at, marks)
}

/// A bit of each nibble of MFI2.
const BOTH_NIBBLES: u64 = 1 << 34 | 1 << 37;

fn mfi2_after_beginning() -> bool {
    // the stream's frame 8 has MFI1 0, so the ports are in step with frame 39, and frames 40 and 41 are MFI2's next
    begins_with_hits(2, 0) == begins_with_hits(2, BOTH_NIBBLES) && begins_with_hits(2, 0) == (Some(39), vec![SURE; 6])
}

fn mfi2_before_beginning() -> bool {
    [1 << 34, 1 << 37].iter().all(|hit| begins_with_hits(1, *hit).0.map_or(true, |time| time >= 48))
}

/// A link of three with no delays, whose sender hears the receiver's replies, after all were added.
fn three(random: &mut Random) -> Link {
    let mut link = Link::new(random, 16, 3, 2, 0);
    link.delay = vec![0; 3];
    link.first = vec![0; 3];
    link.slot = vec![0, 1, 2];
    for slot in 0..3 {
        assert_eq!(link.sending.sender.table.add(slot), 0);
    }
    link
}

fn hear(link: &mut Link) {
    let (mst, rs_ack) = link.lent.receiver.reply(0);
    link.sending.sender.table.report(0, mst.into(), rs_ack == 1);
}

fn words(link: &Link) -> Vec<u32> {
    link.sending.sender.table.board().rows.iter().map(|r| r.word).collect()
}

fn all_carry() -> bool {
    let mut random = Random::new(24);
    let mut link = three(&mut random);
    let mut seen = Seen::default();
    for time in 0..400 {
        link.sending.send(&mut random);
        if !(0..3).all(|port| link.hand(port, time)) || !link.fetch(&mut seen) {
            return false;
        }
        if time % 16 == 15 {
            hear(&mut link);
        }
    }
    let closed = !link.sending.sender.table.waits();
    // one is removed: the wait closes by the turned RS-Ack, and the two left go on
    let removed = link.sending.sender.table.remove(1) == 0;
    for time in 400..560 {
        link.sending.send(&mut random);
        if !(0..3).all(|port| link.hand(port, time)) || !link.fetch(&mut seen) {
            return false;
        }
        if time % 16 == 15 {
            hear(&mut link);
        }
    }
    seen.widest == 3 && closed && removed && !link.sending.sender.table.waits() && words(&link) == [NORM, IDLE, EOS]
}

fn fails_and_returns() -> bool {
    let mut random = Random::new(25);
    let mut link = three(&mut random);
    let mut marks: Vec<(u8, bool)> = Vec::new();
    let mut left_out = false;
    for time in 0..1200 {
        link.sending.send(&mut random);
        for port in 0..3 {
            let sent = &link.sending.sent[time];
            let flagged = port == 1 && (600..800).contains(&time);
            link.lent.hand(port, flagged, sent.h4[port], &sent.members[port]);
        }
        for report in link.lent.fetch_all() {
            // the epoch that came to its end with this frame
            let bytes = link.sending.client_bytes(time / 16);
            marks.push((report.mark, link.lent.output[..report.bytes] == bytes[..]));
        }
        left_out |= words(&link) == [NORM, DNU, EOS];
        if time % 16 == 15 {
            hear(&mut link);
        }
    }
    let sure_is_right = marks.iter().all(|(mark, right)| *mark != SURE || *right);
    // while it is left out the client's bytes come through, but the receiver cannot know that they are all
    let doubtful_and_right = marks.iter().filter(|m| **m == (DOUBTFUL, true)).count() > 5;
    let held_once = marks.iter().filter(|m| m.0 == HELD).count() == 1;
    let ends_sure = marks[marks.len() - 10..].iter().all(|m| *m == (SURE, true));
    sure_is_right && doubtful_and_right && held_once && ends_sure && left_out && words(&link) == [NORM, NORM, EOS]
}
