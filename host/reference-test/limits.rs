//! 01's limits: starts, step, where receiving begins, the window's edges, the order of refusals.

use crate::count::Count;
use crate::random::Random;
use crate::source::{h4, payload, Lent, SAYS_IDLE};
use reference::receiver::{after, epoch_of, first_tag, Receiver, Report, DOUBTFUL, SURE, TAGS};

const WINDOWS: [usize; 10] = [16, 17, 31, 32, 33, 47, 48, 100, 2047, 2048];

pub fn check(count: &mut Count) {
    count.note("64 ports start, 0 and 65 give 4", starts());
    count.note("what refused starts leave", refused_starts());
    count.note("the 32nd right frame is in step, whatever the first tag", comes_into_step());
    count.note("a flagged frame loses step at once", flag_loses_step());
    count.note("latest tags W-16 apart begin, W-15 apart do not", begins());
    count.note("a joined port's tag W-1 after the window's first is stored, W gives 11", window_edge());
    count.note("a port that has not joined is answered 0, and its frame dropped", not_joined());
    count.note("frames are refused in the order 1, 9, 10, 12, 11", refusals());
    count.note("receiving stops and begins anew in one call", stops_and_begins());
    count.note("frames stored before a loss of step stay brought", stay_brought());
    count.note("joining drops what was stored from there on", joining_drops());
    count.note("who joined later is not waited for", later_is_not_waited_for());
    count.note("who joins at the very epoch takes back that it is due", joins_at_the_very_epoch());
    count.note("who comes back late joins only while its epochs are not yet fetched", comes_back_late());
}

fn starts() -> bool {
    let answer = |ports: u32, payload: u32, window: u32, off: isize| {
        let length = (u64::from(ports) * u64::from(payload + 1) * u64::from(window)) as usize;
        Receiver::empty().start(ports, payload, window, length.wrapping_add(off as usize))
    };
    let right = (1..=64).all(|ports| answer(ports, 2340, 2048, 0) == 0) && answer(1, 1, 16, 0) == 0;
    let wrong = [(0, 1, 16), (65, 1, 16), (1, 0, 16), (1, 2341, 16), (1, 1, 15), (1, 1, 0), (1, 1, 2049), (256, 1, 16)];
    let refused = wrong.iter().all(|(n, p, w)| answer(*n, *p, *w, 0) == 4 && answer(*n, *p, *w, 1) == 4);
    right && refused && answer(64, 1, 16, 1) == 9 && answer(64, 1, 16, -1) == 9
}

fn refused_starts() -> bool {
    let mut lent = Lent::start(2, 3, 20);
    lent.hand_run(0, 0, 40, SAYS_IDLE);
    let before = lent.receiver.clone();
    let as_given = lent.receiver.start(3, 3, 20, 7) == 9 && lent.receiver == before;
    let empty = lent.receiver.start(65, 3, 20, 7) == 4 && lent.receiver == Receiver::empty();
    let mut none = Receiver::empty();
    let frames = none.frame(0, false, 0, &[], &mut []) == 1 && none.frame(0, true, 0, &[1], &mut [2]) == 1;
    let fetches = none.fetch(&[], &mut []) == (0, Report::NONE) && none.fetch(&[0], &mut [0]) == (9, Report::NONE);
    as_given && empty && frames && fetches && none.fetch(&[], &mut [1, 2]).0 == 0 && none.reply(0) == (255, 0)
}

fn comes_into_step() -> bool {
    (0..TAGS).all(|first| {
        let mut lent = Lent::start(1, 1, 16);
        let wait = (TAGS - first) % 16;
        let answers = lent.hand_run(0, first, wait + 34, SAYS_IDLE);
        answers.iter().enumerate().all(|(k, answer)| *answer == if k < wait + 31 { 12 } else { 0 })
    })
}

/// A port in step with this latest tag, in a group of two whose other port has had no frame.
pub fn in_step_at(latest: usize) -> Lent {
    let mut lent = Lent::start(2, 1, 16);
    bring_to(&mut lent, 0, latest);
    lent
}

/// Hands the frames that bring a port into step with this latest tag, and as few as will do.
fn bring_to(lent: &mut Lent, port: usize, latest: usize) {
    let first = (latest + TAGS - 31) / 16 * 16;
    lent.hand_run(port, first, latest + TAGS + 1 - first, SAYS_IDLE);
}

fn flag_loses_step() -> bool {
    (0..TAGS).step_by(7).all(|latest| {
        let mut lent = in_step_at(latest);
        let flag = lent.hand_flag(0) == 10 && lent.receiver.ports[0].count == 0;
        flag && lent.hand_tag(0, latest + 1, SAYS_IDLE) == 12
    })
}

fn begins() -> bool {
    let mut random = Random::new(21);
    WINDOWS.iter().all(|window| (0..100).all(|_| begins_once(&mut random, *window)))
}

/// Ports come into step one after the other; the last one makes their latest tags lie W-16 or W-15 apart.
fn begins_once(random: &mut Random, window: usize) -> bool {
    let ports = 2 + random.below(4) as usize;
    let apart = window - 15 - random.below(2) as usize;
    let last_is_ahead = random.below(2) == 0;
    // a port that comes into step has a latest tag of MFI1 15
    let last = TAGS + 16 * random.below(256) as usize + 15;
    let base = if last_is_ahead { last - apart } else { last };
    let mut lent = Lent::start(ports, 1, window);
    let last_port = random.below(ports as u64) as usize;
    let edge_port = (last_port + 1) % ports;
    for port in (0..ports).filter(|p| *p != last_port) {
        let between = base + random.below(apart as u64 + 1) as usize;
        let latest = match (port == edge_port, last_is_ahead) {
            (true, true) => base,
            (true, false) => base + apart,
            _ => between,
        };
        bring_to(&mut lent, port, latest % TAGS);
        if lent.begun() {
            return false;
        }
    }
    bring_to(&mut lent, last_port, last % TAGS);
    let foremost = (base + apart) % TAGS;
    if apart == window - 16 {
        return lent.begun() && lent.receiver.oldest == epoch_of(foremost).wrapping_add(1) && lent.receiver.foremost_to_begin() == Some(foremost);
    }
    // the next frame of all that lag by the whole arc brings them within it
    let too_wide = !lent.begun();
    for port in 0..ports {
        let latest = lent.receiver.ports[port].latest_tag();
        if after(foremost, latest) == apart {
            lent.hand_tag(port, latest + 1, SAYS_IDLE);
        }
    }
    too_wide && lent.begun()
}

/// Two ports in step with the same latest tag, begun; and the tag of the window's first frame.
pub fn begun_at(latest: usize, payload: usize, window: usize, ports: usize) -> (Lent, usize) {
    let mut lent = Lent::start(ports, payload, window);
    for port in 2..ports {
        assert_eq!(lent.hand_flag(port), 10);
    }
    bring_to(&mut lent, 0, latest);
    bring_to(&mut lent, 1, latest);
    assert!(lent.begun());
    let first = first_tag(lent.receiver.oldest);
    (lent, first)
}

/// Whether a frame answered 0 is stored at its place, and nothing else changed in the store.
fn stores(lent: &mut Lent, port: usize, tag: usize, distance: usize) -> bool {
    let mut expected = lent.store.clone();
    let at = lent.receiver.place(port, distance);
    let p = lent.receiver.payload;
    expected[at..at + p].copy_from_slice(&payload(port, tag % TAGS, p));
    expected[at + p] = h4(tag, SAYS_IDLE);
    lent.hand_tag(port, tag, SAYS_IDLE) == 0 && lent.store == expected
}

/// Whether a frame has this answer and leaves state and store as given.
fn refused(lent: &mut Lent, port: usize, tag: usize, answer: u8) -> bool {
    let before = lent.clone();
    lent.hand_tag(port, tag, SAYS_IDLE) == answer && *lent == before
}

fn window_edge() -> bool {
    WINDOWS.iter().all(|window| (0..TAGS).step_by(509).all(|latest| window_edge_once(*window, latest)))
}

fn window_edge_once(window: usize, latest: usize) -> bool {
    let (mut lent, first) = begun_at(latest, 2, window, 2);
    let first = if first > latest { first } else { first + TAGS };
    let early = (latest + 1..first).all(|tag| lent.hand_tag(0, tag, SAYS_IDLE) == 0);
    let within = (0..window).all(|d| stores(&mut lent, 0, first + d, d));
    let beyond = refused(&mut lent, 0, first + window, 11) && refused(&mut lent, 0, first + window, 11);
    // the other port brings the epoch to be gathered, which moves the window by itself
    let behind = lent.hand_run(1, latest + 1, first + 15 - latest, SAYS_IDLE).iter().all(|answer| *answer == 0);
    let gathered = lent.receiver.gathered.is_set() && lent.fetch_all().is_empty();
    let again = (0..16).all(|d| stores(&mut lent, 0, first + window + d, window - 16 + d));
    let beyond_again = refused(&mut lent, 0, first + window + 16, 11);
    // and then the first one reported, which only a fetch moves on
    lent.hand_run(1, first + 16, 16, SAYS_IDLE);
    let still_beyond = refused(&mut lent, 0, first + window + 16, 11);
    let reports = lent.fetch_all();
    let reported = reports.len() == 1 && reports[0].epoch == epoch_of((first + 16) % TAGS) && reports[0].mark == SURE;
    let third = stores(&mut lent, 0, first + window + 16, window - 16);
    early && within && beyond && behind && gathered && again && beyond_again && still_beyond && reported && third
}

fn not_joined() -> bool {
    WINDOWS.iter().all(|window| {
        let (mut lent, first) = begun_at(100, 2, *window, 3);
        // in step after the window's first frame, but not at an epoch's start; then far beyond it
        let inside = lent.hand_run(2, first + TAGS + 8 - 32, 32, SAYS_IDLE)[31] == 0;
        let joined_inside = lent.receiver.ports[2].joined.is_set();
        let store = lent.store.clone();
        assert_eq!(lent.hand_flag(2), 10);
        let far = first + 2048 + 8;
        let answers = lent.hand_run(2, far, 60, SAYS_IDLE);
        let dropped = answers[31..].iter().all(|answer| *answer == 0) && lent.store == store;
        inside && !joined_inside && dropped && !lent.receiver.ports[2].joined.is_set()
    })
}

fn refusals() -> bool {
    let (mut lent, first) = begun_at(100, 2, 16, 2);
    lent.hand_run(0, 101, first + 13 - 101, SAYS_IDLE);
    let lossless = {
        let mut lent = lent.clone();
        lent.hand_run(0, first + 13, 3, SAYS_IDLE);
        lent.hand_tag(0, first + 17, SAYS_IDLE) == 11
    };
    // three breaks, so that the next one is the fourth
    lent.hand_run(0, first + 14, 3, SAYS_IDLE);
    let before = lent.clone();
    let right = h4(first + 16, SAYS_IDLE);
    let length = lent.store.len();
    let answer = |port: u32, flagged: bool, h4: u8, payload: usize, store: usize| {
        let mut lent = before.clone();
        lent.store.resize(store, 0);
        let given = lent.store.clone();
        let answer = lent.receiver.frame(port, flagged, h4, &vec![1; payload], &mut lent.store);
        let kept = lent.receiver == before.receiver || answer == 10 || answer == 12;
        (answer, kept && lent.store == given)
    };
    let frames = answer(2, true, 0, 7, length) == (1, true)
        && answer(u32::MAX, false, right, 2, length) == (1, true)
        && answer(0, true, 0, 3, length) == (9, true)
        && answer(0, true, 0, 1, length) == (9, true)
        && answer(0, false, right, 2, length + 1) == (9, true)
        && answer(0, false, right, 2, length - 1) == (9, true)
        && answer(0, true, right, 2, length) == (10, true)
        && answer(0, false, right + 1, 2, length) == (12, true)
        && answer(0, false, right, 2, length) == (11, true);
    let mut fetched = before.clone();
    let short = fetched.receiver.fetch(&before.store, &mut [0; 63]) == (9, Report::NONE);
    let wrong = fetched.receiver.fetch(&before.store[1..], &mut [0; 64]) == (9, Report::NONE);
    let longer = fetched.receiver.fetch(&before.store, &mut [0; 65]) == (0, Report::NONE);
    lossless && frames && short && wrong && longer && fetched.receiver == before.receiver
}

fn stops_and_begins() -> bool {
    let (mut lent, _) = begun_at(100, 2, 64, 3);
    lent.hand_run(0, 101, 80, SAYS_IDLE);
    lent.hand_run(1, 101, 80, SAYS_IDLE);
    // the third comes into step far from the window, so it cannot join
    lent.hand_run(2, 2000, 48, SAYS_IDLE);
    let one = lent.hand_flag(0) == 10 && lent.begun();
    let oldest = lent.receiver.oldest;
    // with the second no port is readable; a fourth break leaves it unsettled, a flag lets the third begin at once
    let mut broken = lent.clone();
    let stops = broken.hand_run(1, 7, 4, SAYS_IDLE) == [0, 0, 0, 12] && !broken.begun() && broken.receiver.oldest == 0;
    let both = lent.hand_flag(1) == 10 && lent.begun() && !lent.receiver.gathered.is_set();
    let anew = lent.receiver.oldest != oldest && lent.receiver.oldest == epoch_of(2047).wrapping_add(1);
    let (mut lent, _) = begun_at(100, 2, 64, 2);
    let flags = lent.hand_flag(0) == 10 && lent.begun() && lent.hand_flag(1) == 10 && !lent.begun();
    one && stops && both && anew && flags && lent.receiver.oldest == 0
}

fn stay_brought() -> bool {
    let (mut lent, first) = begun_at(100, 2, 64, 2);
    lent.hand_run(0, 101, first + 32 - 101, SAYS_IDLE);
    lent.hand_run(1, 101, first + 31 - 101, SAYS_IDLE);
    // the first has all frames of the epoch to be reported and fails; the second brings its last
    let none = lent.fetch_all().is_empty() && lent.hand_flag(0) == 10 && lent.fetch_all().is_empty();
    lent.hand_tag(1, first + 31, SAYS_IDLE);
    lent.hand_run(1, first + 32, 16, SAYS_IDLE);
    let marks: Vec<u8> = lent.fetch_all().iter().map(|r| r.mark).collect();
    // the next is ruled whole as well, since its packet stood in the store
    lent.hand_run(1, first + 48, 16, SAYS_IDLE);
    let then: Vec<u8> = lent.fetch_all().iter().map(|r| r.mark).collect();
    none && marks == [SURE, SURE] && then == [DOUBTFUL]
}

fn joining_drops() -> bool {
    let (mut lent, first) = begun_at(100, 2, 64, 2);
    lent.hand_run(0, 101, first + 64 - 101, SAYS_IDLE);
    let all = lent.receiver.ports[0].marks == 0b1111;
    // its path is switched to one that is 48 frames later, and the host says so
    lent.hand_flag(0);
    lent.hand_run(0, first + TAGS - 24, 32, SAYS_IDLE);
    let waits = !lent.receiver.ports[0].joined.is_set() && lent.receiver.ports[0].marks == 0b1111;
    lent.hand_run(0, first + 8, 9, SAYS_IDLE);
    let port = &lent.receiver.ports[0];
    waits && all && port.joined.is_set() && port.later == 1 && port.marks == 0b1
}

/// Three ports, of which the third is failed, when the first epoch was gathered; and the tag of the window's first frame.
fn gathered_by_two() -> (Lent, usize) {
    let (mut lent, first) = begun_at(100, 2, 64, 3);
    for port in 0..2 {
        lent.hand_run(port, 101, first + 16 - 101, SAYS_IDLE);
    }
    assert!(lent.receiver.gathered.is_set());
    (lent, first + 16)
}

fn marks(lent: &mut Lent) -> Vec<u8> {
    lent.fetch_all().iter().map(|r| r.mark).collect()
}

fn later_is_not_waited_for() -> bool {
    let (mut lent, first) = gathered_by_two();
    // in step within the second epoch, so it joins at the third
    lent.hand_run(2, first - 8, 48, SAYS_IDLE);
    let joined = lent.receiver.ports[2].joined.is_set() && lent.receiver.ports[2].later == 2 && marks(&mut lent).is_empty();
    for port in 0..2 {
        lent.hand_run(port, first, 48, SAYS_IDLE);
    }
    let two = marks(&mut lent) == [DOUBTFUL, DOUBTFUL];
    lent.hand_run(2, first + 40, 7, SAYS_IDLE);
    let third = marks(&mut lent).is_empty() && lent.hand_tag(2, first + 47, SAYS_IDLE) == 0 && marks(&mut lent) == [DOUBTFUL];

    // where all that are readable joined later, the epochs before are due at once
    let (mut lent, first) = gathered_by_two();
    lent.hand_flag(0);
    lent.hand_run(0, first - 8, 48, SAYS_IDLE);
    let waits = lent.receiver.ports[0].later == 2 && marks(&mut lent).is_empty();
    lent.hand_flag(1);
    let reports = lent.fetch_all();
    let epochs: Vec<u8> = reports.iter().map(|r| r.epoch).collect();
    let at_once = epochs == [epoch_of(first), epoch_of(first + 16)];
    joined && two && third && waits && at_once
}

fn joins_at_the_very_epoch() -> bool {
    let (mut lent, first) = gathered_by_two();
    for port in 0..2 {
        lent.hand_run(port, first, 16, SAYS_IDLE);
    }
    let due = lent.receiver.is_due();
    lent.hand_run(2, first - 40, 55, SAYS_IDLE);
    let taken_back = lent.receiver.ports[2].joined.is_set() && marks(&mut lent).is_empty();
    due && taken_back && lent.hand_tag(2, first + 15, SAYS_IDLE) == 0 && marks(&mut lent) == [DOUBTFUL]
}

/// Whether a port that lags behind the other so far, fails and comes back, joins again. The host fetches as soon as it
/// can, or only to make room.
fn comes_back(window: usize, lag: usize, late_one_first: bool, fetch_at_once: bool) -> bool {
    let mut lent = Lent::start(2, 1, window);
    for time in window..4 * window + 400 {
        let failed = (2 * window + 100..2 * window + 200).contains(&time);
        for port in if late_one_first { [1, 0] } else { [0, 1] } {
            if port == 1 && failed {
                lent.hand_flag(1);
            } else {
                while lent.hand_tag(port, time - lag * port, SAYS_IDLE) == 11 {
                    assert_ne!(lent.fetch(), Report::NONE);
                }
            }
            if fetch_at_once {
                lent.fetch_all();
            }
        }
    }
    lent.receiver.ports[1].joined.is_set()
}

fn comes_back_late() -> bool {
    [64, 77, 256].iter().all(|window| {
        (0..window - 15).all(|lag| {
            let at_once = comes_back(*window, lag, true, true) == (lag <= 15) && comes_back(*window, lag, false, true) == (lag <= 14);
            // right before the foremost port it would meet every epoch's start outside of a full window
            at_once && comes_back(*window, lag, false, false) && (lag == 0 || comes_back(*window, lag, true, false))
        })
    })
}
