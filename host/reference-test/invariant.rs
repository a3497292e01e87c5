//! What holds of every state that calls can reach.

use reference::receiver::{Port, Receiver, KIND_FIXED, KIND_VC12, NONE, STATE_FAIL, STATE_OK};

/// The first of these that does not hold.
pub fn broken(r: &Receiver) -> Option<&'static str> {
    let begun = r.begun.is_set();
    let mut claims = vec![
        ("the place of the window's first frame is below W", usize::from(r.origin) < r.window),
        ("nothing is gathered before the beginning", begun || !r.gathered.is_set() && r.oldest == 0),
        ("some port is readable", !begun || r.ports.iter().any(|p| r.is_readable(p))),
        ("the first epoch is gathered as soon as it is due", !begun || r.gathered.is_set() || !r.is_due()),
        ("nothing rules before the first epoch is gathered", r.gathered.is_set() || r.ports.iter().all(|p| !p.whole.is_set())),
        ("receiving begins at once", begun || r.foremost_to_begin().is_none()),
        ("numbers of OK ports differ and are below 64", ok_numbers_differ(&r.ports)),
    ];
    for p in &r.ports {
        claims.extend(of_step(r.kind, p));
        claims.extend(if r.kind == KIND_VC12 { of_bits(p) } else { of_nibbles(p) });
        claims.extend(of_window(r, p));
    }
    claims.into_iter().find(|(_, holds)| !holds).map(|(name, _)| name)
}

fn ok_numbers_differ(ports: &[Port]) -> bool {
    let ok: Vec<u8> = ports.iter().filter(|p| p.state == STATE_OK).map(|p| p.state_number).collect();
    (0..ok.len()).all(|i| ok[i] < 64 && !ok[..i].contains(&ok[i]))
}

/// How far a port's count can have come.
fn runs_to(p: &Port) -> u16 {
    match p.state {
        STATE_OK => p.hold_off,
        STATE_FAIL => p.restore,
        _ => 0,
    }
}

fn of_step(kind: u32, p: &Port) -> Vec<(&'static str, bool)> {
    let (count, next) = (p.count, usize::from(p.next));
    let clock = p.clock();
    vec![
        ("count and tag are in range", count <= clock.step && next < clock.tags),
        ("who joined is in step", !(p.joined.is_set() || p.since.is_set()) || p.in_step()),
        ("who failed has no count", !p.failed.is_set() || count == 0),
        ("who failed or counts had a frame", !(p.failed.is_set() || count > 0) || p.had.is_set()),
        ("no count, no tag", count > 0 || next == 0),
        ("breaks and odd packets are of who is in step", p.in_step() || p.breaks == 0 && !p.odd.is_set()),
        ("the count started at MFI1 0, or with a start", count == 0 || p.in_step() || next % clock.frames == usize::from(count) % clock.frames),
        ("times are in range, and one of them runs at most", p.hold_off <= 5000 && p.restore <= 5000 && p.run <= runs_to(p)),
        ("words are known", if kind == KIND_FIXED { [0, NONE].contains(&p.word) } else { [1, 2, 3, 5, 15, NONE].contains(&p.word) }),
    ]
}

/// Of H4 and FIXED.
fn of_nibbles(p: &Port) -> Vec<(&'static str, bool)> {
    vec![
        ("after one frame the low nibble is open", p.count != 1 || p.next % 256 == 1),
        ("three breaks at most stand, and one odd packet", p.breaks < 4 && p.odd.0 < 2),
        ("no bits of a count", p.bits == 0),
    ]
}

/// Of VC-12: what the bits of the latest packet's count say, in the midst of them and behind them.
fn of_bits(p: &Port) -> Vec<(&'static str, bool)> {
    let (count, place) = (p.count, p.next % 32);
    let whole = place == 0 || place > 4;
    vec![
        ("neither breaks nor odd packets", p.breaks == 0 && !p.odd.is_set()),
        (
            "the bits make an epoch, and where neither a run is nor the latest frame came flagged they are 0",
            p.bits < 32 && (count > 0 || p.failed.is_set() || p.bits == 0),
        ),
        ("before the fifth bit the next tag is the count of frames", count == 0 || count > 4 || p.next == u16::from(count)),
        ("so many bits as have come", count == 0 || whole || p.bits < 1 << place),
        ("behind the fifth they are the packet's epoch", count == 0 || !whole || p.bits == p.clock().epoch_of(p.latest_tag())),
    ]
}

fn of_window(r: &Receiver, p: &Port) -> Vec<(&'static str, bool)> {
    let (joined, since) = (p.joined.is_set(), p.since.is_set());
    let later = usize::from(p.later);
    let clock = r.clock();
    let frames = clock.frames;
    let base = clock.first_tag(r.oldest);
    let off = clock.after(p.next_tag(), base);
    // the marks from the i-th on, the first lowest
    let marks_from = |i: usize| p.marks.checked_shr(i as u32).unwrap_or(0);
    let brought = (off / frames).saturating_sub(later) as u32;
    let so_many = 1u128.checked_shl(brought).map_or(u128::MAX, |bit| bit - 1);
    vec![
        ("nothing is kept while receiving has not begun", r.begun.is_set() || !joined && !since && p.marks == 0 && later == 0 && !p.whole.is_set()),
        ("who joined is in the window or right after it", !joined || off <= r.window && frames * later < r.window && (later == 0 || frames * later < off)),
        ("from where it joined a port has marks up to where it is", !joined || marks_from(later) == so_many),
        ("marks are of the window", marks_from(r.window / frames) == 0),
        ("who has not joined has joined nowhere later", joined || later == 0),
        (
            "who has not joined since the beginning is right before the window",
            !since || joined || !r.gathered.is_set() && clock.after(base, p.next_tag()) < r.window && p.marks == 0,
        ),
        ("who was there at the beginning joins at the oldest", !since || later == 0),
    ]
}

/// The frames of a port that stand in the store, by how far they lie after the window's first.
pub fn stored(r: &Receiver, p: &Port) -> Vec<usize> {
    if !r.begun.is_set() {
        return Vec::new();
    }
    let (clock, frames) = (r.clock(), r.clock().frames);
    let off = clock.after(p.next_tag(), clock.first_tag(r.oldest));
    let from = frames * usize::from(p.later).max(off / frames);
    (0..r.window).filter(|o| p.marks >> (o / frames) & 1 == 1 || p.joined.is_set() && (from..off).contains(o)).collect()
}
