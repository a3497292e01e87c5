//! Groups that are FIXED (request 2026-12): their packets, when an epoch is sure, links over unequal delays in any order of numbers, a
//! dark port, and what comes of an LCAS stream.

use crate::count::Count;
use crate::random::Random;
use crate::source::{h4 as lcas_h4, Lent, Says};
use reference::packet::{self, crc, read_fixed, write_fixed, EOS, FIELDS_BYTES, NORM, PACKET_BYTES};
use reference::receiver::{epoch_of, Receiver, Report, HELD, KIND_FIXED, NONE, STATE_FAIL, STATE_OK, SURE, TAGS};

const LENGTH_WRONG: u8 = packet::LENGTH_WRONG;

fn packet(epoch: u8, sq: u32) -> [u8; PACKET_BYTES] {
    let mut h4 = [0; PACKET_BYTES];
    assert_eq!(write_fixed(epoch.into(), sq, &mut h4), 0);
    h4
}

/// The H4 byte of the frame with this tag.
fn h4(tag: usize, sq: u32) -> u8 {
    packet(epoch_of(tag % TAGS), sq)[(tag + 8) % 16]
}

fn read(h4: &[u8; PACKET_BYTES]) -> (u8, [u8; FIELDS_BYTES]) {
    let mut fields = [0xA5; FIELDS_BYTES];
    (read_fixed(h4, &mut fields), fields)
}

fn fields(epoch: u8, sq: u8) -> [u8; FIELDS_BYTES] {
    [epoch, 0, 0, 0, 0, sq, 0, 0, 0, 0]
}

fn packets() -> bool {
    let given = [0x08, 0x09, 0x0A, 0x0B, 0x0C, 0x0D, 0x0E, 0x5F, 0x30, 0xA1, 0x02, 0x03, 0x04, 0x05, 0x06, 0x07];
    let back = (0..=255).all(|epoch| (0..=255).all(|sq: u8| read(&packet(epoch, sq.into())) == (0, fields(epoch, sq))));
    // places 6 and 7 have SQ, 8 and 9 MFI2, 10 the word
    let changed = (0..16).filter(|k| ![6, 7, 8, 9].contains(k)).all(|k: usize| {
        (1..16).all(|nibble| {
            let mut h4 = given;
            h4[k] ^= nibble << 4;
            read(&h4) == if k == 10 { (6, [0xA5; FIELDS_BYTES]) } else { (0, fields(58, 5)) }
        })
    });
    let lows = read(&given.map(|b| b & 0xF0 | 0x0A)) == (0, fields(58, 5));
    let mut short = [0; 15];
    let mut nine = [0; 9];
    let lengths =
        (write_fixed(256, 256, &mut short), read_fixed(&short, &mut nine), read_fixed(&given, &mut nine)) == (LENGTH_WRONG, LENGTH_WRONG, LENGTH_WRONG);
    let large = [(256, 0), (0, 256), (u32::MAX, 0), (0, 1 << 31)].iter().all(|(epoch, sq)| {
        let mut h4 = [0xA5; PACKET_BYTES];
        write_fixed(*epoch, *sq, &mut h4) == 8 && h4 == [0xA5; PACKET_BYTES]
    });
    packet(58, 5) == given && back && changed && lows && lengths && large
}

/// Once in 256 the CRC of zeros is right, by the MFI2 and SQ that a packet has: the reader of LCAS gives 7 then, and 5 else.
fn read_as_lcas() -> bool {
    let mut answers = [0; 10];
    for epoch in 0..=255 {
        for sq in 0..=255 {
            answers[usize::from(packet::read(&packet(epoch, sq), &mut [0; FIELDS_BYTES]))] += 1;
        }
    }
    answers[7] == 256 && answers[5] == 255 * 256
}

/// What a port brings in the epoch that is gathered.
#[derive(Clone, Copy, Debug)]
enum Brings {
    Number(u8),
    /// Another word than FIXED.
    Word(u8),
    /// Another MFI2.
    Epoch(u8),
    Nothing,
    /// The packet, but then not all frames of the epoch that it rules.
    Lacks(u8),
}

use Brings::{Epoch, Lacks, Nothing, Number, Word};

const FIRST_EPOCH: u8 = 254;

fn h4_bytes(port: usize, brings: Brings) -> [u8; PACKET_BYTES] {
    match brings {
        Number(number) | Lacks(number) => packet(FIRST_EPOCH, number.into()),
        Epoch(other) => packet(other, port as u32),
        Nothing => [0; PACKET_BYTES],
        Word(word) => {
            let mut h4 = packet(FIRST_EPOCH, port as u32);
            h4[10] |= word << 4;
            // the CRC that goes with it, which makes no difference
            let check = crc(&h4.map(|b| b / 16));
            (h4[14], h4[15]) = (check & 0xF0 | h4[14], check << 4 | h4[15]);
            h4
        }
    }
}

/// The first report of ports that bring these packets, and the output's bytes. The last port may not bring nothing.
fn report(brings: &[Brings]) -> (Report, Vec<u8>) {
    let mut lent = Lent::start_as(KIND_FIXED, brings.len(), 2, 64, &[], &[]);
    let gathered = usize::from(FIRST_EPOCH) * 16 - 8;
    for tag in gathered - 40..gathered + 32 {
        for (port, b) in brings.iter().enumerate() {
            let lacks = tag == gathered + 30 && matches!(b, Lacks(_));
            if lacks || matches!(b, Nothing) {
                lent.hand_flag(port);
            } else {
                let byte = if (gathered..gathered + 16).contains(&tag) { h4_bytes(port, *b)[tag - gathered] } else { h4(tag, port as u32) };
                lent.hand(port, false, byte, &[port as u8, tag as u8]);
            }
        }
    }
    assert!(lent.receiver.gathered.is_set());
    let reports = lent.fetch_all();
    assert_eq!((reports.len(), reports[0].epoch), (1, FIRST_EPOCH + 1));
    (reports[0], lent.output)
}

fn is_held(brings: &[Brings]) -> bool {
    let (report, output) = report(brings);
    (report.mark, report.x, report.bytes) == (HELD, 0, 0) && output == vec![0x5A; output.len()]
}

/// Sure, with the ports in this order in each group frame.
fn is_sure(brings: &[Brings], order: &[u8]) -> bool {
    let (report, output) = report(brings);
    let first: Vec<u8> = output.iter().copied().take(order.len()).collect();
    (report.mark, report.x, report.bytes) == (SURE, order.len(), 32 * order.len()) && first == order
}

fn judgements(count: &mut Count) {
    count.note("numbers 2, 0, 1 are sure in the order of numbers, and 0 of one port", {
        is_sure(&[Number(2), Number(0), Number(1)], &[1, 2, 0]) && is_sure(&[Number(0)], &[0]) && is_held(&[Number(1)])
    });
    count.note("three ports are sure with each of 0, 1 and 2 once, and held with any other numbers below 5", {
        (0..125).all(|k| {
            let numbers = [k % 5, k / 5 % 5, k / 25];
            let brings: Vec<Brings> = numbers.iter().map(|number| Number(*number)).collect();
            let order: Vec<u8> = (0..3).filter_map(|q| numbers.iter().position(|number| *number == q).map(|port| port as u8)).collect();
            if order.len() == 3 {
                is_sure(&brings, &order)
            } else {
                is_held(&brings)
            }
        })
    });
    count.note("any other word, or any other MFI2, is held", {
        (1..16).all(|word| is_held(&[Number(0), Word(word)])) && (0..=255).all(|e| e == FIRST_EPOCH || is_held(&[Number(0), Epoch(e)]))
    });
    count.note("a dark port is held whatever number it would have, and so is a frame that lacks", {
        is_held(&[Nothing, Number(0), Number(1)])
            && is_held(&[Nothing, Number(1), Number(2)])
            && is_held(&[Nothing, Number(0), Number(2)])
            && is_held(&[Nothing, Number(0)])
            && is_held(&[Lacks(0), Number(1)])
            && is_held(&[Lacks(1), Number(0)])
    });
}

fn shuffled(random: &mut Random, n: usize) -> Vec<usize> {
    let mut order: Vec<usize> = (0..n).collect();
    for i in (1..n).rev() {
        order.swap(i, random.below(i as u64 + 1) as usize);
    }
    order
}

/// A link: what each frame time sends, each port's number and delay.
struct Link {
    lent: Lent,
    payload: usize,
    first: usize,
    number: Vec<usize>,
    delay: Vec<usize>,
}

impl Link {
    fn new(random: &mut Random) -> Link {
        let window = random.one_of(&[16, 17, 31, 32, 40, 64, 160, 2048]);
        let (ports, payload) = (random.one_of(&[1, 2, 3, 4, 9, 64]), random.one_of(&[1, 2, 7]));
        let hold_off = vec![random.below(4) as u32; ports];
        Link {
            lent: Lent::start_as(KIND_FIXED, ports, payload, window, &hold_off, &[]),
            payload,
            first: random.below(TAGS as u64) as usize,
            number: shuffled(random, ports),
            delay: (0..ports).map(|_| random.below(window as u64 - 15) as usize).collect(),
        }
    }

    /// The client's group frame of a frame time.
    fn client(&self, time: usize) -> Vec<u8> {
        (0..self.number.len() * self.payload).map(|p| (time * 37 + time / 256 * 11 + p * 101 + p / 7) as u8).collect()
    }

    /// The frame that a port gets at this time, if one has come that far.
    fn frame(&self, port: usize, time: usize) -> Option<(u8, Vec<u8>)> {
        let sent = time.checked_sub(self.delay[port])?;
        let tag = (self.first + sent) % TAGS;
        let own = self.client(sent).into_iter().skip(self.number[port]).step_by(self.number.len()).collect();
        Some((h4(tag, self.number[port] as u32), own))
    }

    /// Hands what comes at this time; the reports that are due then, with their bytes.
    fn time(&mut self, random: &mut Random, time: usize, dark: Option<usize>) -> Vec<(Report, Vec<u8>)> {
        for port in shuffled(random, self.number.len()) {
            match self.frame(port, time) {
                _ if dark == Some(port) => {
                    self.lent.hand_flag(port);
                }
                Some((h4, own)) => {
                    self.lent.hand(port, false, h4, &own);
                }
                None => {}
            }
        }
        let mut reports = Vec::new();
        loop {
            match self.lent.fetch() {
                Report::NONE => return reports,
                report => reports.push((report, self.lent.output[..report.bytes].to_vec())),
            }
        }
    }

    /// The time at which the first frame of an epoch was sent, the first one not before this time.
    fn sent_at(&self, epoch: u8, from: usize) -> usize {
        (from..).find(|time| (self.first + time) % TAGS == (usize::from(epoch) * 16 + TAGS - 8) % TAGS).expect("tags go round")
    }

    fn says_nothing_back(&self) -> bool {
        (0..=255).all(|epoch| self.lent.receiver.reply(epoch) == (0, 0))
    }
}

/// Every report is sure and has the client's bytes, epoch after epoch.
fn link(random: &mut Random, epochs: &mut usize) -> bool {
    let mut link = Link::new(random);
    let spread = link.lent.receiver.window;
    let mut next = None;
    for time in 0..2 * spread + 400 {
        for (report, bytes) in link.time(random, time, None) {
            let start = link.sent_at(report.epoch, next.unwrap_or(0));
            let client: Vec<u8> = (start..start + 16).flat_map(|time| link.client(time)).collect();
            let right = report.mark == SURE && report.x == link.number.len() && bytes == client && next.map_or(true, |next| next == start);
            if !right {
                return false;
            }
            next = Some(start + 16);
            *epochs += 1;
        }
    }
    let all_ok = link.lent.receiver.ports().iter().zip(&link.number).all(|(p, number)| (p.state, usize::from(p.number), p.word) == (STATE_OK, *number, 0));
    next.is_some() && all_ok && link.says_nothing_back()
}

/// One port dark for a while: held from the first epoch of which it lacks a frame, and sure again some epochs after it is back.
fn dark() -> bool {
    let mut random = Random::new(32);
    let mut link = Link { delay: vec![0, 20, 9], number: vec![1, 2, 0], ..Link::new(&mut random) };
    (link.payload, link.first) = (2, 4000);
    link.lent = Lent::start_as(KIND_FIXED, 3, 2, 40, &[], &[]);
    let mut marks = Vec::new();
    let (mut failed, mut silent) = (false, true);
    for time in 0..1200 {
        let dark = (400..600).contains(&time).then_some(1);
        marks.extend(link.time(&mut random, time, dark).iter().map(|(report, _)| (time, report.mark)));
        failed |= link.lent.receiver.ports()[1].state == STATE_FAIL;
        silent &= link.says_nothing_back();
    }
    let of = |from: usize, to: usize, mark: u8| {
        let told: Vec<u8> = marks.iter().filter(|(time, _)| (from..to).contains(time)).map(|(_, mark)| *mark).collect();
        told.len() > 5 && told.iter().all(|m| *m == mark)
    };
    of(0, 400, SURE) && of(432, 600, HELD) && of(720, 1200, SURE) && failed && silent
}

/// An LCAS stream of two members, fed to a FIXED receiver: nothing of it is read.
fn lcas_stream() -> bool {
    let mut lent = Lent::start_as(KIND_FIXED, 2, 1, 40, &[], &[]);
    let mut reports = Vec::new();
    for tag in 8..8 + 5000 {
        for (port, word) in [(0, NORM), (1, EOS)] {
            lent.hand(port, false, lcas_h4(tag, Says { word, sq: port as u32, gid: 0 }), &[tag as u8]);
        }
        reports.extend(lent.fetch_all());
    }
    let unread = lent.receiver.ports().iter().all(|p| p.word == NONE && p.number == NONE);
    reports.len() > 300 && reports.iter().all(|r| (r.mark, r.x, r.bytes) == (HELD, 0, 0)) && unread && lent.output == [0x5A; 32]
}

/// Two packets in a row with another MFI2 lose step, whatever stands in the place of the CRC.
fn other_epochs_lose_step() -> bool {
    [0, 1, 9].iter().all(|check| {
        let mut lent = Lent::start_as(KIND_FIXED, 1, 1, 40, &[], &[]);
        // in step from tag 31 on
        let answers: Vec<u8> = (0..72)
            .map(|tag| {
                let byte = h4(if tag < 40 { tag } else { tag + 16 }, 0);
                lent.hand(0, false, byte | if tag % 16 == 7 { check << 4 } else { 0 }, &[0])
            })
            .collect();
        answers[31..71].iter().all(|a| *a == 0) && answers[71] == 12
    })
}

fn starts() -> bool {
    (0..300).chain([u32::MAX]).all(|kind| {
        let mut receiver = Receiver::empty();
        receiver.start_as(kind, 1, 1, 16, 32, &[], &[]) == if [0, 2].contains(&kind) { 0 } else { 4 }
    })
}

pub fn check(count: &mut Count) {
    count.note("FIXED packets, written and read", packets());
    count.note("read as LCAS they are 5, and 7 once in 256", read_as_lcas());
    count.note("kinds 0 and 2 start, any other is 4", starts());
    judgements(count);
    let (mut random, mut epochs) = (Random::new(31), 0);
    let right = (0..200).all(|_| link(&mut random, &mut epochs));
    count.note(&format!("a FIXED link gives the client's bytes in any order of numbers ({} epochs)", epochs), right && epochs > 5000);
    count.note("a dark port holds everything until it is back", dark());
    count.note("an LCAS stream is held and never read", lcas_stream());
    count.note("two packets in a row with another MFI2 lose step, by no CRC", other_epochs_lose_step());
}
