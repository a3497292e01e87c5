//! The archive's packet calls against the reference: answer and every byte of every buffer, those around it too.

use crate::card;
use crate::count::{Count, Test};
use crate::random::Random;
use reference::packet::{self, Fields, FIELDS_BYTES, PACKET_BYTES, RESERVED_MOST, VC12_BITS};

/// A lent buffer stands in the middle of an area, so that bytes written beside it show.
const MARGIN: usize = 16;
const AREA: usize = MARGIN + 64 + MARGIN;

type Area = [u8; AREA];

fn lent(area: &Area, length: usize) -> &[u8] {
    &area[MARGIN..MARGIN + length]
}

fn lent_mut(area: &mut Area, length: usize) -> &mut [u8] {
    &mut area[MARGIN..MARGIN + length]
}

pub fn compare(count: &mut Count) {
    writing_what_fits(count);
    writing_anything(count);
    reading_damaged(count);
    reading_right_crc(count);
    reading_anything(count);
    reading_wrong_lengths(count);
    relaying_anything(count);
    relaying_each_bit(count);
    writing_fixed(count);
    reading_fixed(count);
    writing_vc12(count);
    reading_vc12(count);
}

// ---- one case

/// Writes with both into equal areas. Gives the answer and the card's area.
fn write_case(test: &mut Test, random: &mut Random, fields: &Fields, length: usize) -> (u8, Area) {
    let mut by_reference = [0u8; AREA];
    random.fill(&mut by_reference);
    let mut by_card = by_reference;
    let answer = packet::write(fields, lent_mut(&mut by_reference, length));
    let card_answer = card::packet_write(fields, lent_mut(&mut by_card, length));
    test.case(answer, &(answer, by_reference), &(card_answer, by_card), &(fields, length));
    (card_answer, by_card)
}

/// Reads the area's packet with both into equal areas. Gives the card's area of fields.
fn read_case(test: &mut Test, random: &mut Random, h4: &Area, h4_length: usize, fields_length: usize) -> Area {
    let mut by_reference = [0u8; AREA];
    random.fill(&mut by_reference);
    let mut by_card = by_reference;
    let answer = packet::read(lent(h4, h4_length), lent_mut(&mut by_reference, fields_length));
    let card_answer = card::packet_read(lent(h4, h4_length), lent_mut(&mut by_card, fields_length));
    test.case(answer, &(answer, by_reference), &(card_answer, by_card), &(h4, h4_length, fields_length));
    by_card
}

// ---- what the cases are made of

fn fitting_fields(random: &mut Random) -> Fields {
    Fields {
        epoch: random.below(256) as u32,
        word: random.one_of(&packet::WORDS),
        gid: random.below(2) as u32,
        mst: random.below(256) as u32,
        rs_ack: random.below(2) as u32,
        sq: random.below(256) as u32,
        reserved: fitting_reserved(random),
    }
}

/// Any 26 bits, or one alone, or none.
fn fitting_reserved(random: &mut Random) -> u32 {
    match random.below(4) {
        0 => 0,
        1 => 1 << random.below(26),
        _ => random.below(1 << 26) as u32,
    }
}

/// The ten bytes that reading gives of these fields.
fn field_bytes(f: &Fields) -> [u8; FIELDS_BYTES] {
    let mut bytes = [0u8; FIELDS_BYTES];
    bytes[..6].copy_from_slice(&[f.epoch, f.word, f.gid, f.mst, f.rs_ack, f.sq].map(|x| x as u8));
    bytes[6..].copy_from_slice(&f.reserved.to_be_bytes());
    bytes
}

/// The fields in ten bytes that reading gave.
fn fields_in(bytes: &[u8]) -> Fields {
    let [epoch, word, gid, mst, rs_ack, sq] = [0, 1, 2, 3, 4, 5].map(|i: usize| u32::from(bytes[i]));
    let reserved = u32::from_be_bytes([bytes[6], bytes[7], bytes[8], bytes[9]]);
    Fields { epoch, word, gid, mst, rs_ack, sq, reserved }
}

/// A number that often lies at a limit, or has only high bits too many.
fn any_number(random: &mut Random) -> u32 {
    match random.below(6) {
        0 => random.one_of(&[0, 1, 2, 3, 4, 5, 15, 16, 255, 256, 257, 65535, 65536, 1 << 31, u32::MAX]),
        1 => random.below(256) as u32 | 1 << random.below(32),
        2 => random.next() as u32,
        _ => random.below(16) as u32,
    }
}

/// Fields that fit but for one or more.
fn any_fields(random: &mut Random) -> Fields {
    let mut fields = fitting_fields(random);
    for _ in 0..1 + random.below(3) {
        let number = any_number(random);
        match random.below(7) {
            0 => fields.epoch = number,
            1 => fields.word = number,
            2 => fields.gid = number,
            3 => fields.mst = number,
            4 => fields.rs_ack = number,
            5 => fields.sq = number,
            _ => fields.reserved = random.one_of(&[number, RESERVED_MOST, RESERVED_MOST + 1, !number]),
        }
    }
    fields
}

/// Most often the right length, else another up to 64.
fn any_length(random: &mut Random, right: usize) -> usize {
    match random.below(4) {
        0 => random.below(65) as usize,
        1 => random.one_of(&[0, right - 1, right + 1]),
        _ => right,
    }
}

/// Puts the right CRC into sixteen H4 bytes; the low nibbles stay.
fn seal(h4: &mut [u8]) {
    let mut nibbles = [0u8; 16];
    for i in 0..16 {
        nibbles[i] = h4[i] >> 4;
    }
    let crc = packet::crc(&nibbles);
    h4[14] = crc & 0xF0 | h4[14] & 0x0F;
    h4[15] = crc << 4 | h4[15] & 0x0F;
}

fn any_area(random: &mut Random) -> Area {
    let mut area = [0u8; AREA];
    random.fill(&mut area);
    area
}

/// An area with a packet that the reference wrote.
fn written_area(random: &mut Random) -> Area {
    let mut area = any_area(random);
    packet::write(&fitting_fields(random), lent_mut(&mut area, PACKET_BYTES));
    area
}

// ---- the tests

fn writing_what_fits(count: &mut Count) {
    let mut random = Random::new(1);
    let mut writing = Test::new("packets written as by the reference");
    let mut reading = Test::new("packets that the card wrote, read as by the reference");
    let mut back = Test::new("packets that the card wrote, read back as given");
    for _ in 0..1_000_000 {
        let f = fitting_fields(&mut random);
        let (answer, area) = write_case(&mut writing, &mut random, &f, PACKET_BYTES);
        let fields = read_case(&mut reading, &mut random, &area, PACKET_BYTES, FIELDS_BYTES);
        back.case(answer, &&field_bytes(&f)[..], &lent(&fields, FIELDS_BYTES), &f);
    }
    writing.end(count, &[packet::DONE]);
    reading.end(count, &[packet::DONE]);
    back.end(count, &[packet::DONE]);
}

fn writing_anything(count: &mut Count) {
    let mut random = Random::new(2);
    let mut test = Test::new("fields and lengths that may not fit, answered as by the reference");
    for _ in 0..1_000_000 {
        let fields = any_fields(&mut random);
        let length = any_length(&mut random, PACKET_BYTES);
        write_case(&mut test, &mut random, &fields, length);
    }
    test.end(count, &[packet::DONE, packet::FIELD_REFUSED, packet::LENGTH_WRONG]);
}

/// Up to five bits are flipped anywhere in the sixteen bytes, or in their high nibbles only.
fn reading_damaged(count: &mut Count) {
    let mut random = Random::new(3);
    let mut test = Test::new("damaged packets read as by the reference");
    for _ in 0..2_000_000 {
        let mut area = written_area(&mut random);
        let lowest = random.one_of(&[0, 4]);
        for _ in 0..random.below(6) {
            let bit = lowest + random.below(8 - lowest);
            lent_mut(&mut area, PACKET_BYTES)[random.below(16) as usize] ^= 1 << bit;
        }
        read_case(&mut test, &mut random, &area, PACKET_BYTES, FIELDS_BYTES);
    }
    test.end(count, &[packet::DONE, packet::CRC_DIFFERS]);
}

/// Any 56 bits, with reserved bits and all words, under the CRC that belongs to them.
fn reading_right_crc(count: &mut Count) {
    let mut random = Random::new(4);
    let mut test = Test::new("any bits under the right CRC read as by the reference");
    for _ in 0..1_000_000 {
        let mut area = any_area(&mut random);
        seal(lent_mut(&mut area, PACKET_BYTES));
        read_case(&mut test, &mut random, &area, PACKET_BYTES, FIELDS_BYTES);
    }
    test.end(count, &[packet::DONE, packet::WORD_UNASSIGNED, packet::WORD_FIXED]);
}

fn reading_anything(count: &mut Count) {
    let mut random = Random::new(5);
    let mut test = Test::new("random bytes read as by the reference");
    for _ in 0..1_000_000 {
        let area = any_area(&mut random);
        read_case(&mut test, &mut random, &area, PACKET_BYTES, FIELDS_BYTES);
    }
    test.end(count, &[packet::DONE, packet::CRC_DIFFERS]);
}

fn reading_wrong_lengths(count: &mut Count) {
    let mut random = Random::new(6);
    let mut test = Test::new("packets and fields of any length read as by the reference");
    for _ in 0..500_000 {
        let area = if random.below(2) == 0 { any_area(&mut random) } else { written_area(&mut random) };
        let h4_length = any_length(&mut random, PACKET_BYTES);
        let fields_length = any_length(&mut random, FIELDS_BYTES);
        read_case(&mut test, &mut random, &area, h4_length, fields_length);
    }
    test.end(count, &[packet::DONE, packet::CRC_DIFFERS, packet::LENGTH_WRONG]);
}

// ---- packets of a fixed group

fn writing_fixed(count: &mut Count) {
    let mut random = Random::new(40);
    let mut writing = Test::new("packets of fixed groups, with any epoch, SQ and length, written as by the reference");
    let mut back = Test::new("those that the card wrote read back as given");
    for _ in 0..1_000_000 {
        let mut number = || if random.below(4) == 0 { any_number(&mut random) } else { random.below(256) as u32 };
        let (epoch, sq) = (number(), number());
        let length = any_length(&mut random, PACKET_BYTES);
        let mut by_reference = any_area(&mut random);
        let mut by_card = by_reference;
        let answer = packet::write_fixed(epoch, sq, lent_mut(&mut by_reference, length));
        let card_answer = card::packet_write_fixed(epoch, sq, lent_mut(&mut by_card, length));
        writing.case(answer, &(answer, by_reference), &(card_answer, by_card), &(epoch, sq, length));
        if card_answer == packet::DONE {
            let mut fields = [0xA5; FIELDS_BYTES];
            let answer = card::packet_read_fixed(lent(&by_card, length), &mut fields);
            back.case(answer, &[epoch as u8, 0, 0, 0, 0, sq as u8, 0, 0, 0, 0], &fields, &(epoch, sq));
        }
    }
    writing.end(count, &[packet::DONE, packet::FIELD_REFUSED, packet::LENGTH_WRONG]);
    back.end(count, &[packet::DONE]);
}

/// Any bytes, packets of either kind and with bits changed, under any lengths.
fn reading_fixed(count: &mut Count) {
    let mut random = Random::new(41);
    let mut test = Test::new("packets of fixed groups, damaged or any bytes, read as by the reference");
    for case in 0..2_000_000 {
        let mut area = if case % 4 == 0 { written_area(&mut random) } else { any_area(&mut random) };
        if case % 4 > 1 {
            packet::write_fixed(random.below(256) as u32, random.below(256) as u32, lent_mut(&mut area, PACKET_BYTES));
            for _ in 0..random.below(6) {
                lent_mut(&mut area, PACKET_BYTES)[random.below(16) as usize] ^= 1 << random.below(8);
            }
        }
        let (h4_length, fields_length) = (any_length(&mut random, PACKET_BYTES), any_length(&mut random, FIELDS_BYTES));
        let mut by_reference = any_area(&mut random);
        let mut by_card = by_reference;
        let answer = packet::read_fixed(lent(&area, h4_length), lent_mut(&mut by_reference, fields_length));
        let card_answer = card::packet_read_fixed(lent(&area, h4_length), lent_mut(&mut by_card, fields_length));
        test.case(answer, &(answer, by_reference), &(card_answer, by_card), &(area, h4_length, fields_length));
    }
    test.end(count, &[packet::DONE, packet::WORD_UNASSIGNED, packet::LENGTH_WRONG]);
}

// ---- packets of VC-12

/// Fields that fit VC-12's packet, often but for one or more.
fn vc12_fields(random: &mut Random) -> Fields {
    let mut below = |n: u64| random.below(n) as u32;
    let (epoch, sq, mst) = (below(32), below(64), below(256));
    let (gid, rs_ack, reserved) = (below(2), below(2), below(16));
    let mut f = Fields { epoch, word: random.one_of(&packet::WORDS), gid, mst, rs_ack, sq, reserved };
    for _ in 0..random.below(4) / 2 {
        let near = random.one_of(&[2, 16, 31, 32, 63, 64, 255, 256]);
        let number = if random.below(2) == 0 { near } else { any_number(random) };
        match random.below(7) {
            0 => f.epoch = number,
            1 => f.word = number,
            2 => f.gid = number,
            3 => f.mst = number,
            4 => f.rs_ack = number,
            5 => f.sq = number,
            _ => f.reserved = number,
        }
    }
    f
}

fn writing_vc12(count: &mut Count) {
    let mut random = Random::new(50);
    let mut writing = Test::new("packets of VC-12, with any fields and length, written as by the reference");
    let mut back = Test::new("those that the card wrote read back as given, with other bits of the bytes set too");
    for _ in 0..2_000_000 {
        let f = vc12_fields(&mut random);
        let length = any_length(&mut random, VC12_BITS);
        let mut by_reference = any_area(&mut random);
        let mut by_card = by_reference;
        let answer = packet::write_vc12(&f, lent_mut(&mut by_reference, length));
        let card_answer = card::packet_write_vc12(&f, lent_mut(&mut by_card, length));
        writing.case(answer, &(answer, by_reference), &(card_answer, by_card), &(f, length));
        if card_answer == packet::DONE {
            let mut fields = [0xA5; FIELDS_BYTES];
            let others = random.next() as u8 & !1;
            lent_mut(&mut by_card, length).iter_mut().for_each(|byte| *byte ^= others);
            let answer = card::packet_read_vc12(lent(&by_card, length), &mut fields);
            back.case(answer, &field_bytes(&f), &fields, &f);
        }
    }
    writing.end(count, &[packet::DONE, packet::FIELD_REFUSED, packet::LENGTH_WRONG]);
    back.end(count, &[packet::DONE]);
}

/// Any bytes, packets with any data under the right CRC, and packets with up to three bits changed, under any lengths. What reads well
/// is written again as the same bits.
fn reading_vc12(count: &mut Count) {
    let mut random = Random::new(51);
    let mut test = Test::new("packets of VC-12, damaged or any bytes, read as by the reference");
    let mut again = Test::new("those that read well are written again as the same bits");
    for case in 0..3_000_000u32 {
        let mut area = any_area(&mut random);
        if case % 3 > 0 {
            let mut f = vc12_fields(&mut random);
            (f.epoch, f.sq, f.gid, f.rs_ack, f.reserved, f.mst) = (f.epoch % 32, f.sq % 64, f.gid % 2, f.rs_ack % 2, f.reserved % 16, f.mst % 256);
            f.word = random.one_of(&packet::WORDS);
            assert_eq!(packet::write_vc12(&f, lent_mut(&mut area, VC12_BITS)), packet::DONE);
            for _ in 0..random.below(4) {
                lent_mut(&mut area, VC12_BITS)[random.below(32) as usize] ^= 1 << random.below(2);
            }
        }
        let (length, fields_length) = (any_length(&mut random, VC12_BITS), any_length(&mut random, FIELDS_BYTES));
        let mut by_reference = any_area(&mut random);
        let mut by_card = by_reference;
        let answer = packet::read_vc12(lent(&area, length), lent_mut(&mut by_reference, fields_length));
        let card_answer = card::packet_read_vc12(lent(&area, length), lent_mut(&mut by_card, fields_length));
        test.case(answer, &(answer, by_reference), &(card_answer, by_card), &(area, length, fields_length));
        if card_answer == packet::DONE {
            let mut bits = [0; VC12_BITS];
            let written = card::packet_write_vc12(&fields_in(lent(&by_card, FIELDS_BYTES)), &mut bits);
            let came: Vec<u8> = lent(&area, VC12_BITS).iter().enumerate().map(|(k, byte)| byte & 1 | if k == 0 { 2 } else { 0 }).collect();
            again.case(written, &came, &bits.to_vec(), &area);
        }
    }
    test.end(count, &[packet::DONE, packet::CRC_DIFFERS, packet::WORD_FIXED, packet::WORD_UNASSIGNED, packet::LENGTH_WRONG]);
    again.end(count, &[packet::DONE]);
}

// ---- a relay, for which no reference is needed: what it read and what it writes on are the same bits

/// Reads sixteen H4 bytes and writes on what was read. The answer of reading, and the bytes before and after, or the bytes
/// twice where reading refused.
fn relay(h4: &[u8; PACKET_BYTES]) -> (u8, [u8; PACKET_BYTES]) {
    let mut fields = [0u8; FIELDS_BYTES];
    let answer = card::packet_read(h4, &mut fields);
    let mut again = *h4;
    if answer == packet::DONE {
        again = [0; PACKET_BYTES];
        let written = card::packet_write(&fields_in(&fields), &mut again);
        assert_eq!(written, packet::DONE, "a packet that was read is not written: {h4:x?}");
    }
    (answer, again)
}

/// Any sixteen bytes, half of them under a right CRC, some with low nibbles that count.
fn relaying_anything(count: &mut Count) {
    let mut random = Random::new(7);
    let mut high = Test::new("any bytes that read well are written again with the same high nibbles");
    let mut all = Test::new("any bytes that read well and count are written again identically");
    for case in 0..4_000_000u32 {
        let mut h4 = [0u8; PACKET_BYTES];
        random.fill(&mut h4);
        if case % 2 == 0 {
            seal(&mut h4);
        }
        if case % 4 < 2 {
            for i in 0..PACKET_BYTES {
                h4[i] = h4[i] & 0xF0 | (i as u8 + 8) % 16;
            }
            let (answer, again) = relay(&h4);
            all.case(answer, &h4, &again, &h4);
        } else {
            let (answer, again) = relay(&h4);
            high.case(answer, &h4.map(|b| b >> 4), &again.map(|b| b >> 4), &h4);
        }
    }
    high.end(count, &[packet::DONE, packet::CRC_DIFFERS, packet::WORD_FIXED, packet::WORD_UNASSIGNED]);
    all.end(count, &[packet::DONE, packet::CRC_DIFFERS, packet::WORD_FIXED, packet::WORD_UNASSIGNED]);
}

/// Each of the 26 bits alone, beside any fields: it rides in its own frame, and comes through.
fn relaying_each_bit(count: &mut Count) {
    // in the order of sending: the place of the frame and the bit of its byte
    let bits: Vec<(usize, u32)> = [(2, 5), (3, 4), (4, 4), (5, 4), (11, 5), (12, 4), (13, 4)]
        .iter()
        .flat_map(|&(place, lowest)| (lowest..8).rev().map(move |bit| (place, bit)))
        .collect();
    assert_eq!(bits.len(), 26);
    let mut random = Random::new(8);
    let mut test = Test::new("each reserved bit alone is written where it belongs and relayed");
    for case in 0..26 * 2000 {
        let i = case % 26;
        let mut fields = fitting_fields(&mut random);
        fields.reserved = 0;
        let mut without = [0u8; PACKET_BYTES];
        card::packet_write(&fields, &mut without);
        fields.reserved = 1 << (25 - i);
        let mut with = [0u8; PACKET_BYTES];
        let answer = card::packet_write(&fields, &mut with);
        let (place, bit) = bits[i];
        without[place] ^= 1 << bit;
        seal(&mut without);
        test.case(answer, &(without, without), &(with, relay(&with).1), &fields);
    }
    test.end(count, &[packet::DONE]);
}
