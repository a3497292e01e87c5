//! Which paths to join (request 2026-09): 'k of them with a spread of at most W-16', and a check of any proposal.

pub const PATHS_MOST: usize = 64;
pub const DELAY_MOST: u32 = 4095;
pub const WINDOW_LEAST: u32 = 16;
pub const WINDOW_MOST: u32 = 2048;
pub const PLAN_BYTES: usize = 65;
pub const NONE: u8 = 255;

/// Up to so many candidates every set is tried.
const TRIED_MOST: usize = 12;

/// 4 is for the request's sizes and delays, then 9 for a result of another length, else 0.
fn answer(delays: &[u32], k: u32, window: u32, length: usize, wanted: usize) -> u8 {
    if k == 0 || k as usize > delays.len() || delays.len() > PATHS_MOST {
        return 4;
    }
    if delays.iter().any(|delay| *delay > DELAY_MOST) || window < WINDOW_LEAST || window > WINDOW_MOST {
        return 4;
    }
    if length != wanted {
        return 9;
    }
    0
}

/// Candidates with their delays, the earliest first, those of one delay by their numbers.
type Set = Vec<(u32, usize)>;

fn spread(set: &Set) -> u32 {
    set[set.len() - 1].0 - set[0].0
}

/// Of all sets of k the tightest, of several the one with the least delays and then numbers: by trying every one.
fn tried(all: &Set, k: usize) -> Set {
    let sets = (0u32..1 << all.len()).filter(|bits| bits.count_ones() as usize == k);
    let sets = sets.map(|bits| (0..all.len()).filter(|i| bits >> i & 1 == 1).map(|i| all[i]).collect::<Set>());
    sets.min_by_key(|set| (spread(set), set.clone())).unwrap()
}

/// The same by a window of k that slides over the sorted delays.
fn slid(all: &Set, k: usize) -> Set {
    all.windows(k).map(|window| window.to_vec()).min_by_key(|set| (spread(set), set.clone())).unwrap()
}

pub fn plan(delays: &[u32], k: u32, window: u32, plan: &mut [u8]) -> u8 {
    let answer = answer(delays, k, window, plan.len(), PLAN_BYTES);
    if answer != 0 {
        return answer;
    }
    let mut all: Set = delays.iter().enumerate().map(|(i, delay)| (*delay, i)).collect();
    all.sort();
    let set = if delays.len() <= TRIED_MOST { tried(&all, k as usize) } else { slid(&all, k as usize) };
    plan.fill(NONE);
    plan[0] = 0;
    if spread(&set) <= window - 16 {
        let mut numbers: Vec<usize> = set.iter().map(|path| path.1).collect();
        numbers.sort();
        plan[0] = k as u8;
        for (at, number) in numbers.iter().enumerate() {
            plan[1 + at] = *number as u8;
        }
    }
    0
}

pub fn check(delays: &[u32], k: u32, window: u32, set: &[u8], accepted: &mut [u8]) -> u8 {
    let answer = answer(delays, k, window, accepted.len(), 1);
    if answer == 0 {
        accepted[0] = u8::from(is_accepted(delays, k as usize, window, set));
    }
    answer
}

fn is_accepted(delays: &[u32], k: usize, window: u32, set: &[u8]) -> bool {
    let mut numbers = set.to_vec();
    numbers.sort();
    numbers.dedup();
    let chosen: Option<Vec<u32>> = numbers.iter().map(|number| delays.get(usize::from(*number)).copied()).collect();
    match chosen {
        Some(chosen) if set.len() == k && numbers.len() == k => chosen.iter().max().unwrap() - chosen.iter().min().unwrap() <= window - 16,
        _ => false,
    }
}
