//! The archive's mending of recordings against the reference: answers, lengths, every byte of what comes out, and around it.

use crate::card;
use crate::count::{Count, Test};
use crate::random::Random;
use crate::torn;
use reference::mend::{fast, mended, undone};

const MARGIN: usize = 16;

pub fn compare(count: &mut Count) {
    let mut random = Random::new(36);
    let (mut dropped, mut restored) = (0, 0);
    let mut test = Test::new("torn recordings, mended twice and undone");
    for _ in 0..8000 {
        let lines = random.one_of(&[5, 30, 200]);
        let text = torn::recording(&mut random, lines);
        if let Ok(out) = mended(&text) {
            dropped += out.dropped;
            restored += out.restored;
            let twice = mended(&out.recording).map_or(false, |again| again.recording == out.recording && again.notes.is_empty());
            let mut ended = text.clone();
            ended.push(b'\n');
            let again = undone(&out.recording, &out.notes);
            test.case(0, &(true, true), &(twice, again.as_ref() == Some(&text) || again == Some(ended)), &text);
            mend(&mut test, &mut random, &out.recording);
        }
        mend(&mut test, &mut random, &text);
    }
    test.end(count, &[0, 4, 9, 13]);
    println!("dropped\t{}\trestored\t{}", dropped, restored);
    count.note("many lines are dropped and restored", dropped > 50_000 && restored > 20_000);

    let mut test = Test::new("mending any bytes");
    for _ in 0..60_000 {
        let text = torn::any_bytes(&mut random, 80);
        mend(&mut test, &mut random, &text);
    }
    test.end(count, &[0, 9, 13]);
}

/// Lengths and mending, with buffers of the lengths told or of others. Under a refusal no byte changes.
fn mend(test: &mut Test, random: &mut Random, text: &[u8]) {
    let expected = mended(text);
    test.case(0, &expected, &fast::mended(text), &text);
    let answer = expected.as_ref().map_or_else(|answer| *answer, |_| 0);
    let lengths = expected.as_ref().map_or((7, 7), |out| (out.recording.len(), out.notes.len()));
    let mut told = (7, 7);
    let said = card::mend_lengths(text, &mut told.0, &mut told.1);
    test.case(answer, &(answer, lengths), &(said, told), &text);

    let off = |random: &mut Random, n: usize| {
        if random.below(6) == 0 {
            n.saturating_add(random.one_of(&[1, 2, 100])).saturating_sub(random.one_of(&[0, 3]))
        } else {
            n
        }
    };
    let (long, noted) = (off(random, lengths.0), off(random, lengths.1));
    let answer = if answer == 0 && (long, noted) != lengths { 9 } else { answer };
    let mut buffers = [vec![0; long + 2 * MARGIN], vec![0; noted + 2 * MARGIN]];
    buffers.iter_mut().for_each(|buffer| random.fill(buffer));
    let mut by_card = buffers.clone();
    if let (0, Ok(out)) = (answer, &expected) {
        buffers[0][MARGIN..MARGIN + long].copy_from_slice(&out.recording);
        buffers[1][MARGIN..MARGIN + noted].copy_from_slice(&out.notes);
    }
    let [of_lines, of_notes] = &mut by_card;
    let said = card::mend(text, &mut of_lines[MARGIN..MARGIN + long], &mut of_notes[MARGIN..MARGIN + noted]);
    test.case(answer, &(answer, buffers), &(said, by_card), &text);
}
