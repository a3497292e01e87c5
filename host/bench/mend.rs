//! Times the two calls that mend a recording, lengths and mending together, beside the reference's mending in Rust, its form for speed,
//! and one copy of the recording by the C library, in one process, round by round. One line in a thousand is torn: half of these are
//! cut, and half have another count. A line for each size: the medians of the rounds in MB a second of processor time, and the ratios
//! of times.

#[path = "../differential/card.rs"]
#[allow(dead_code)] // these two calls alone are used here
mod card;

use reference::mend::{fast, mended};

const ROUNDS: usize = 11;
const BYTES: usize = 40_000_000;
const DIGITS: &[u8] = b"0123456789ABCDEF";

struct Draw(u32);

impl Draw {
    fn below(&mut self, most: u32) -> u32 {
        self.0 = self.0.wrapping_mul(1664525).wrapping_add(1013904223);
        (u64::from(self.0) * u64::from(most) >> 32) as u32
    }

    fn digit(&mut self) -> u8 {
        DIGITS[self.below(16) as usize]
    }
}

fn recording(ports: usize, payload: usize) -> Vec<u8> {
    let mut draw = Draw(1);
    let mut text = format!("{}\t{}\t64\n", ports, payload).into_bytes();
    for count in (0..16).cycle() {
        if text.len() >= BYTES {
            break;
        }
        for port in 0..ports {
            let torn = draw.below(2000);
            let told = if torn == 0 { draw.digit() } else { DIGITS[count] };
            let start = text.len();
            text.extend(format!("{}\t{}{}\t0\t", port, char::from(draw.digit()), char::from(told)).bytes());
            text.extend((0..2 * payload).map(|_| draw.digit()));
            if torn == 1 {
                text.truncate(start + (text.len() - start) / 2);
            }
            text.push(b'\n');
        }
    }
    text
}

#[repr(C)]
struct Time {
    seconds: i64,
    nanoseconds: i64,
}

extern "C" {
    fn clock_gettime(clock: i32, time: *mut Time) -> i32;
}

/// Seconds for which the process had a processor.
fn now() -> f64 {
    const PROCESS: i32 = 2;
    let mut time = Time { seconds: 0, nanoseconds: 0 };
    // SAFETY: the place is as large as the C library asks on 64 bits
    assert_eq!(unsafe { clock_gettime(PROCESS, &mut time) }, 0);
    time.seconds as f64 + time.nanoseconds as f64 * 1e-9
}

fn timed<T>(times: &mut Vec<f64>, work: impl FnOnce() -> T) -> T {
    let start = now();
    let result = work();
    times.push(now() - start);
    result
}

fn median(mut times: Vec<f64>) -> f64 {
    times.sort_by(f64::total_cmp);
    times[times.len() / 2]
}

fn bench(ports: usize, payload: usize) {
    let text = recording(ports, payload);
    let (mut bytes, mut noted) = (0, 0);
    assert_eq!(card::mend_lengths(&text, &mut bytes, &mut noted), 0);
    let (mut out, mut notes, mut copy) = (vec![1; bytes], vec![1; noted], vec![1; text.len()]);
    let mut lent = fast::mended(&text).expect("it is taken");
    let [mut proved, mut reference, mut quick, mut copied] = [0; 4].map(|_| Vec::new());
    for _ in 0..ROUNDS {
        let answer = timed(&mut proved, || card::mend_lengths(&text, &mut bytes, &mut noted) | card::mend(&text, &mut out, &mut notes));
        let told = timed(&mut reference, || mended(&text)).expect("it is taken");
        timed(&mut quick, || fast::mend(&text, &mut lent)).expect("it is taken");
        timed(&mut copied, || copy.copy_from_slice(std::hint::black_box(&text)));
        assert!(answer == 0 && lent == told && told.recording == out && told.notes == notes && told.dropped > 0 && told.restored > 0);
        assert_eq!(std::hint::black_box(&copy).len(), text.len());
    }
    let [proved, reference, quick, copied] = [proved, reference, quick, copied].map(median);
    let speed = |seconds: f64| text.len() as f64 / seconds / 1e6;
    print!("mend\tports\t{}\tP\t{}\tproved MB/s\t{:.0}\treference MB/s\t{:.0}", ports, payload, speed(proved), speed(reference));
    print!("\tfast reference MB/s\t{:.0}\tmemcpy MB/s\t{:.0}", speed(quick), speed(copied));
    println!("\tratio to the reference\t{:.2}\tto the fast one\t{:.2}\tto memcpy\t{:.1}", proved / reference, proved / quick, proved / copied);
}

fn main() {
    bench(3, 30);
    bench(1, 756);
}
