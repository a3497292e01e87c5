//! One report on made-up states: any ports OK, FAIL or IDLE under any numbers, each with times and a count of its own, and any
//! packets, of either kind. Chains of ports that lose their numbers to one another come about here, and hardly on the way of frames.

use super::{record, shown};
use crate::card;
use crate::count::{Count, Test};
use crate::random::Random;
use reference::packet::{self, Fields};
use reference::receiver::rows::{self, rows_for, Row};
use reference::receiver::{clock, KIND_FIXED, KIND_H4, KIND_VC12, NONE, STATE_FAIL, STATE_IDLE, STATE_OK};

const PAYLOAD: usize = 1;

/// How the numbers of the packets go from those of the last report: none moves, all move down or up by one, or any. At most the one
/// that IDLE has.
fn number(random: &mut Random, way: u64, last: u8, most: u64, idle: u8) -> u8 {
    idle.min(match way {
        _ if random.below(12) == 0 => random.one_of(&[0, 1, 63, 64, 255]),
        0 => last,
        1 => last.wrapping_sub(1),
        2 => last.wrapping_add(1),
        _ => random.below(most) as u8,
    })
}

/// Rows and store of a group of which a report is due. With `any` its OK numbers and counts may be such as no call leaves.
fn made_up(random: &mut Random, kind: u32, ports: usize, any: bool) -> (Vec<Row>, Vec<u8>) {
    let mut lent = vec![[0; 16]; rows_for(ports)];
    let clock = clock(kind);
    let window = clock.frames;
    let mut store = vec![0; ports * window * (PAYLOAD + 1)];
    let oldest = random.below((clock.tags / clock.frames) as u64) as u8;
    lent[0][..9].copy_from_slice(&[kind as u8, ports as u8, 0, PAYLOAD as u8, 0, window as u8, 1, 1, oldest]);
    let most = random.one_of(&[2, ports as u64 + 1, 64]);
    let (way, lost) = (random.below(4), random.one_of(&[2, 8, 40]));
    let time = random.one_of(&[1, 2, 3, 5001]);
    let mut taken = [false; 256];
    for port in 0..ports {
        let lost = port > 0 && random.below(lost) == 0;
        let next = ((clock.first_tag(oldest) + clock.frames) % clock.tags) as u16;
        let (step, member, marks) = (rows_for(port), rows_for(port) + 1, rows_for(port) + 4);
        if !lost {
            lent[step] = [1, 0, clock.step, (next >> 8) as u8, next as u8, 1, 0, 0, 0, 0, 0, 0, 0, 0, 0, 0];
        }
        lent[marks][0] = u8::from(!lost || random.below(2) == 0);

        let mut state = random.one_of(&[STATE_OK, STATE_OK, STATE_OK, STATE_FAIL, STATE_IDLE]);
        let last = if random.below(3) == 0 { random.below(most) as u8 } else { port as u8 };
        if state == STATE_OK && taken[usize::from(last)] && !any {
            state = STATE_FAIL;
        }
        taken[usize::from(last)] |= state == STATE_OK;
        let (hold_off, restore) = (random.below(time) as u16, random.below(time) as u16);
        let run = match state {
            _ if any => random.one_of(&[0, hold_off, restore, u16::MAX]),
            STATE_OK => random.below(u64::from(hold_off) + 1) as u16,
            STATE_FAIL => random.below(u64::from(restore) + 1) as u16,
            _ => 0,
        };
        let word = match state {
            STATE_IDLE if kind == KIND_FIXED => NONE,
            _ if kind == KIND_FIXED => packet::FIXED as u8,
            STATE_IDLE => packet::IDLE as u8,
            _ => packet::NORM as u8,
        };
        let told = if state == STATE_IDLE { clock.idle } else { last };
        lent[member][..6].copy_from_slice(&[word, told, state, told, word, told]);
        for (at, number) in [(6, hold_off), (8, restore), (10, run)] {
            lent[member][at..at + 2].copy_from_slice(&number.to_be_bytes());
        }

        let word = random.one_of(&[packet::NORM, packet::NORM, packet::NORM, packet::ADD, packet::IDLE]);
        let sq = number(random, way, last, most, clock.idle).into();
        let fields = Fields { epoch: oldest.into(), word, gid: 0, mst: 255, rs_ack: 0, sq, reserved: 0 };
        let mut h4 = vec![0; clock.frames];
        if kind == KIND_FIXED {
            assert_eq!(packet::write_fixed(oldest.into(), sq, &mut h4), 0);
            // another word now and then
            h4[10] |= if word == packet::IDLE && random.below(4) == 0 { 0x50 } else { 0 };
        } else if kind == KIND_VC12 {
            assert_eq!(packet::write_vc12(&fields, &mut h4), 0);
        } else {
            assert_eq!(packet::write(&fields, &mut h4), 0);
        }
        for (k, byte) in h4.iter().enumerate() {
            store[(port * window + k) * (PAYLOAD + 1) + PAYLOAD] = *byte;
        }
    }
    (lent, store)
}

pub fn compare(count: &mut Count, random: &mut Random) {
    let mut tests = [Test::new("one report on made-up states"), Test::new("one report on states that no call wrote")];
    let (mut held, mut most_held) = (0, 0);
    for case in 0..80_000 {
        let any = case % 2 == 1;
        let ports = random.one_of(&[1, 2, 3, 3, 4, 5, 9, 64]);
        let kind = random.one_of(&[KIND_H4, KIND_H4, KIND_FIXED, KIND_VC12]);
        let frames = clock(kind).frames;
        let (mut by_reference, store) = made_up(random, kind, ports, any);
        let mut by_card = by_reference.clone();
        let given = by_card.clone();
        let mut outputs = [vec![0; ports * frames * PAYLOAD], vec![0; ports * frames * PAYLOAD]];
        let mut records = [vec![0xA5; 8], vec![0xA5; 8]];
        let (answer, report) = rows::fetch(&mut by_reference, &store, &mut outputs[0]);
        records[0] = record(report);
        let card_answer = card::receiver_fetch(&mut by_card, &store, &mut outputs[1], &mut records[1]);
        let epoch = random.below(9) as u8;
        let (mut ports_shown, mut reply) = (vec![[0xA5; 8]; ports], vec![0xA5; 2]);
        let read_out = (card::receiver_ports(&by_card, &mut ports_shown), card::receiver_reply(&by_card, epoch, &mut reply));
        let expected_ports: Vec<[u8; 8]> = rows::ports(&by_reference).map_or(Vec::new(), |ports| ports.iter().map(shown).collect());
        let expected_reply = rows::reply(&by_reference, epoch).map_or(Vec::new(), |(mst, ack)| vec![mst, ack]);
        let waiting = expected_ports.iter().filter(|p| p[0] == STATE_OK && p[7] == 1).count();
        held += waiting;
        most_held = most_held.max(waiting);
        let [by_reference_out, by_card_out] = outputs;
        let [by_reference_record, by_card_record] = records;
        tests[usize::from(any)].case(
            answer,
            &(answer, by_reference_record, by_reference_out, by_reference, (0, 0), expected_ports, expected_reply),
            &(card_answer, by_card_record, by_card_out, by_card, read_out, ports_shown, reply),
            &(kind, ports, given),
        );
    }
    for test in tests {
        test.end(count, &[0]);
    }
    println!("held\tports {}\tat once {}", held, most_held);
    count.note("many ports are held there, and many at once", held > 10_000 && most_held > 20);
}
