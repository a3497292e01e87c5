//! When an added slot is active (request 2026-13): links with delays of whole epochs, no damage and no failure, and one
//! slot added late. The start is worked out from the delays and the epoch's number, and is at most 33 + a + b epochs
//! after the one right before which this host adds.

use crate::count::Count;
use crate::random::Random;
use crate::Program;

const ADDS: u64 = 300;

/// A link of which the last slot is added right before the start of an epoch, long after the others.
struct Added {
    slots: u64,
    out: u64,
    back: u64,
    number: u64,
    epoch: u64,
}

impl Added {
    /// MST of the replies read at starts from a + 2 on, counted from the last one before the add, says OK where it
    /// speaks of the slot's number; it is handed over b + 1 starts later.
    fn foretold(&self) -> u64 {
        let before = self.epoch - 1;
        let block = (self.slots - 1) / 8;
        let read = (self.out + 2..).find(|j| (self.number + before + j) % 32 == block).expect("one of 32");
        before + read + self.back + 1
    }

    fn choices(&self) -> Vec<String> {
        let each = |n: u64| vec![n.to_string(); self.slots as usize].join(",");
        let adds: Vec<String> = (0..self.slots).map(|slot| format!("{}:{slot}", if slot + 1 == self.slots { self.epoch } else { 0 })).collect();
        [
            ("--slots", self.slots.to_string()),
            ("--payload", "2".into()),
            ("--delays", each(16 * self.out)),
            ("--back", (16 * self.back).to_string()),
            ("--number", self.number.to_string()),
            ("--add", adds.join(",")),
            ("--remove", "none".into()),
            ("--damage", "none".into()),
            ("--fail", "none".into()),
            ("--epochs", (self.epoch + 34 + self.out + self.back + 8).to_string()),
        ]
        .into_iter()
        .flat_map(|(name, value)| [name.to_string(), value])
        .chain(["--at-once".to_string()])
        .collect()
    }

    /// The epoch at whose start the last slot is active.
    fn active(&self, program: &Program) -> Option<u64> {
        let text = String::from_utf8(program.run(&self.choices()).stdout).expect("the lines are text");
        let mut epoch = 0;
        for line in text.lines() {
            let fields: Vec<&str> = line.split('\t').collect();
            match fields[..] {
                ["start", "epoch", number, ..] => epoch = number.parse().expect("an epoch"),
                ["slot", slot, "was", "ADD", _, "now", "NORM" | "EOS", _] if slot.parse() == Ok(self.slots - 1) => return Some(epoch),
                _ => {}
            }
        }
        None
    }

    /// How many epochs after the add, where that is as foretold.
    fn took(&self, program: &Program) -> Option<u64> {
        let active = self.active(program);
        if active != Some(self.foretold()) {
            println!("differs\tactive {active:?}\tforetold {}\t{}", self.foretold(), self.choices().join(" "));
            return None;
        }
        active.map(|at| at - self.epoch)
    }
}

pub fn check(program: &Program, count: &mut Count) {
    let mut random = Random::new(13);
    // late enough for the others to be active, also those in another block
    let drawn = |random: &mut Random| Added {
        slots: 1 + random.below(12),
        out: random.below(8),
        back: random.below(8),
        number: random.below(256),
        epoch: 160 + random.below(32),
    };
    let all: Vec<(Added, Option<u64>)> = (0..ADDS)
        .map(|_| drawn(&mut random))
        .map(|a| {
            let took = a.took(program);
            (a, took)
        })
        .collect();
    count.note("an added slot is active at the start foretold", all.iter().all(|(_, took)| took.is_some()));
    count.note("within 33 + a + b epochs", all.iter().all(|(a, took)| took.is_some_and(|t| t <= 33 + a.out + a.back)));

    let round: Vec<Option<u64>> = (160..192).map(|epoch| Added { slots: 2, out: 2, back: 3, number: 0, epoch }.took(program)).collect();
    count.note("a 2, b 3: 38 epochs after the add at most, and 7 at least", round.iter().min() == Some(&Some(7)) && round.iter().max() == Some(&Some(38)));
}
