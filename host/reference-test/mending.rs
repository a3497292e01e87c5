//! Mending: the counts of one port, lines of two, what is dropped, notes, first lines, and that mending twice changes nothing.

use crate::count::Count;
use crate::random::Random;
use reference::mend::{fast, followed, mended, undone, Mended};

pub fn check(count: &mut Count) {
    count.note("the counts of one port", counts());
    count.note("all counts of up to six lines, followed twice", followed_twice());
    count.note("two ports, each restored by its own lines", two_ports());
    count.note("a dropped line between good ones, and flags", dropped_between());
    count.note("small letters", small_letters());
    count.note("of VC-12 lines are dropped, and none is restored", of_vc12());
    count.note("first lines", first_lines());
    count.note("lines of 8,192 and 8,193 bytes", long_lines());
    count.note("a last line without its end, kept and dropped", no_last_end());
    count.note("made-up recordings, plain and fast alike, mended twice and undone", twice_and_undone());
}

fn counts() -> bool {
    let rows: [(&[u8], &[u8]); 12] = [
        (&[5, 6, 0, 8], &[5, 6, 7, 8]),
        (&[5, 0, 0, 0, 9], &[5, 6, 7, 8, 9]),
        (&[5, 0, 0, 0, 0, 9], &[5, 0, 0, 0, 0, 9]),
        (&[5, 0, 1, 2, 3, 4], &[5, 0, 1, 2, 3, 4]),
        (&[5, 1, 9, 3, 4, 5], &[5, 1, 2, 3, 4, 5]),
        (&[5, 0, 9, 2], &[5, 0, 1, 2]),
        (&[5, 9, 9, 9, 9, 9, 9, 11], &[5, 6, 7, 8, 9, 9, 10, 11]),
        (&[5, 7, 8, 10, 10, 12], &[5, 7, 8, 9, 10, 12]),
        (&[0, 2, 0, 2, 0, 2], &[0, 2, 0, 2, 0, 2]),
        (&[5, 6, 9], &[5, 6, 9]),
        (&[1, 1], &[1, 1]),
        (&[15, 0, 1], &[15, 0, 1]),
    ];
    rows.iter().all(|(torn, is)| followed(torn) == *is) && followed(&[]).is_empty() && followed(&[7]) == [7]
}

fn followed_twice() -> bool {
    (0..1u32 << 24).all(|n| {
        let torn: Vec<u8> = (0..6).map(|k| (n >> (4 * k) & 15) as u8).collect();
        let once = followed(&torn);
        followed(&once) == once
    })
}

/// The text of some lines; spaces stand for tabs.
fn text(lines: &[&str]) -> Vec<u8> {
    lines.iter().flat_map(|l| l.bytes().chain([b'\n'])).map(|b| if b == b' ' { b'\t' } else { b }).collect()
}

fn is(torn: &[&str], lines: &[&str], notes: &[&str], dropped: usize, restored: usize) -> bool {
    let wanted = Ok(Mended { recording: text(lines), notes: text(notes), dropped, restored });
    mended(&text(torn)) == wanted && fast::mended(&text(torn)) == wanted
}

/// Bytes whose second digits would break a count of H4.
fn of_vc12() -> bool {
    let line = |byte: &str, bytes: usize| format!("0 {} 0 {}", byte, "AB".repeat(bytes));
    let torn = ["1 136 32 kind VC12".to_string(), line("00", 136), line("00", 136), line("01", 135), line("02", 136)];
    let torn: Vec<&str> = torn.iter().map(String::as_str).collect();
    let lines: Vec<&str> = torn.iter().copied().enumerate().filter(|(i, _)| *i != 3).map(|(_, line)| line).collect();
    let note = format!("4 line {} ", torn[3]);
    is(&torn, &lines, &[&note], 1, 0) && mended(&text(&["1 135 32 kind VC12"])) == Err(4)
}

fn two_ports() -> bool {
    let torn = ["2 1 16", "0 05 0 AB", "1 0e 0 CD", "0 f6 0 AB", "1 00 0 CD", "0 20 0 AB", "1 00 0 CD", "0 08 0 AB"];
    let lines = ["2 1 16", "0 05 0 AB", "1 0e 0 CD", "0 f6 0 AB", "1 0F 0 CD", "0 27 0 AB", "1 00 0 CD", "0 08 0 AB"];
    is(&torn, &lines, &["5 H4 00 0F", "6 H4 20 27"], 0, 2)
}

fn dropped_between() -> bool {
    // the dropped line counts for no port; a flagged line is followed, and restored, as any other
    let torn = ["1 1 16", "0 05 0 AB", "0 06 0", "0 06 0 AB", "0 10 1 ab", "y y", "", "0 08 0 AB"];
    let lines = ["1 1 16", "0 05 0 AB", "0 06 0 AB", "0 17 1 ab", "0 08 0 AB"];
    let notes = ["3 line 0 06 0 ", "5 H4 10 17", "6 line y y ", "7 line  "];
    is(&torn, &lines, &notes, 3, 1)
}

fn small_letters() -> bool {
    // a good line's small letter stays
    let torn = ["1 1 16", "0 fa 0 ab", "0 fc 0 ab", "0 fc 0 ab"];
    is(&torn, &["1 1 16", "0 fa 0 ab", "0 fB 0 ab", "0 fc 0 ab"], &["3 H4 fc fB"], 0, 1)
}

fn first_lines() -> bool {
    let answer = |line: &str| mended(&text(&[line])).err();
    let refused = ["x", "", "1 1 16 ", "1 1 16 kind K4", "2 1 16 hold-off 1 5001 7"].iter().all(|line| answer(line) == Some(13));
    let ranges = ["65 1 16", "0 1 16", "1 2341 16", "1 1 2049", "2 1 16 hold-off 1 5001"].iter().all(|line| answer(line) == Some(4));
    // 13 comes before 4; a store above 65,536 bytes is no matter here
    let order = answer("65 1 16 ") == Some(13) && answer("64 2340 2048").is_none();
    mended(b"") == Err(13) && mended(&vec![b'1'; 8193]) == Err(13) && refused && ranges && order
}

fn long_lines() -> bool {
    // at most nine digits for the port and 4,680 of a payload: a line of 8,192 bytes is never a frame's
    let long = |n: usize| "0".repeat(n);
    [8192, 8193, 20_000].iter().all(|n| {
        let (line, note) = (long(*n), format!("3 line {} ", long(*n)));
        is(&["1 1 16", "0 05 0 AB", &line, "0 06 0 AB"], &["1 1 16", "0 05 0 AB", "0 06 0 AB"], &[&note], 1, 0)
    })
}

fn no_last_end() -> bool {
    let unended = |lines: &[&str]| {
        let mut text = text(lines);
        text.pop();
        mended(&text)
    };
    let is = |is: Result<Mended, u8>, recording: &[u8], notes: &[u8], dropped: usize, restored: usize| {
        is == Ok(Mended { recording: recording.to_vec(), notes: notes.to_vec(), dropped, restored })
    };
    is(unended(&["1 1 16"]), b"1\t1\t16", b"", 0, 0)
        && is(unended(&["1 1 16", "0 05 0 AB"]), b"1\t1\t16\n0\t05\t0\tAB", b"", 0, 0)
        && is(unended(&["1 1 16", "0 05 0 AB", "0 0"]), b"1\t1\t16\n0\t05\t0\tAB\n", b"3\tline\t0\t0\t\n", 1, 0)
        && is(unended(&["1 1 16", "0 05 0 AB", "0 00 0 AB", "0 07 0 AB"]), b"1\t1\t16\n0\t05\t0\tAB\n0\t06\t0\tAB\n0\t07\t0\tAB", b"3\tH4\t00\t06\n", 0, 1)
}

/// Lines of three ports, of which many are torn.
fn made_up(random: &mut Random) -> Vec<u8> {
    let mut torn = text(&["3 1 16"]);
    let mut counts = [random.below(16), random.below(16), random.below(16)];
    for _ in 0..random.below(60) {
        let port = random.below(3) as usize;
        counts[port] += if random.below(8) == 0 { random.below(16) } else { 1 };
        let low = if random.below(4) == 0 { random.below(16) } else { counts[port] % 16 };
        let line = format!("{}\t{:x}{:x}\t{}\t0A\n", port, random.below(16), low, random.below(2));
        let at = random.below(line.len() as u64) as usize;
        match random.below(12) {
            0 => torn.extend(&line.as_bytes()[..at]),
            1 => torn.extend(&line.as_bytes()[at..]),
            _ => torn.extend(line.as_bytes()),
        }
    }
    torn.truncate(torn.len() - random.below(6) as usize);
    torn
}

fn twice_and_undone() -> bool {
    let mut random = Random::new(11);
    let (mut dropped, mut restored) = (0, 0);
    let held = (0..20_000).all(|_| {
        let torn = made_up(&mut random);
        let plain = mended(&torn);
        let alike = fast::mended(&torn) == plain;
        alike
            && match plain {
                Ok(once) => {
                    dropped += once.dropped;
                    restored += once.restored;
                    let mut ended = torn.clone();
                    ended.extend(b"\n");
                    let again = undone(&once.recording, &once.notes);
                    let unnoted = Mended { recording: once.recording.clone(), notes: Vec::new(), dropped: 0, restored: 0 };
                    mended(&once.recording) == Ok(unnoted) && (again.as_ref() == Some(&torn) || again == Some(ended))
                }
                Err(_) => torn.len() < 7,
            }
    });
    println!("dropped\t{}\trestored\t{}", dropped, restored);
    held && dropped > 10_000 && restored > 10_000
}
