//! Counts tests: one line for each, and the tally as the last line.

use std::fmt::Debug;

#[derive(Default)]
pub struct Count {
    passed: u32,
    failed: u32,
}

impl Count {
    pub fn note(&mut self, name: &str, held: bool) {
        if held {
            self.passed += 1;
        } else {
            self.failed += 1;
        }
        println!("{}\t{}", if held { "ok" } else { "failed" }, name);
    }

    /// Prints the tally, and gives the exit status.
    pub fn tally(&self) -> i32 {
        println!("{} passed, {} failed", self.passed, self.failed);
        i32::from(self.failed != 0)
    }
}

/// One differential test: its cases so far, and how often each answer came.
pub struct Test {
    name: &'static str,
    cases: u64,
    answers: [u64; 256],
    differs: bool,
}

impl Test {
    pub fn new(name: &'static str) -> Test {
        Test { name, cases: 0, answers: [0; 256], differs: false }
    }

    /// Notes one case. The first that differs is printed whole.
    pub fn case<T: PartialEq + Debug>(&mut self, answer: u8, reference: &T, card: &T, input: &dyn Debug) {
        self.cases += 1;
        self.answers[usize::from(answer)] += 1;
        if reference != card && !self.differs {
            self.differs = true;
            println!("differs\t{}\tcase {}", self.name, self.cases);
            println!("input\t{:x?}", input);
            println!("reference\t{:x?}", reference);
            println!("card\t{:x?}", card);
        }
    }

    /// The test holds if no case differs and each of these answers came at least a thousand times: a test whose cases
    /// are nearly all alike shows little.
    pub fn end(self, count: &mut Count, wanted: &[u8]) {
        let mut held = !self.differs;
        for (answer, times) in self.answers.iter().enumerate().filter(|(_, times)| **times > 0) {
            println!("answer\t{}\ttimes\t{}", answer, times);
        }
        for answer in wanted {
            if self.answers[usize::from(*answer)] < 1000 {
                println!("too seldom\tanswer\t{}", answer);
                held = false;
            }
        }
        count.note(&format!("{}, {} cases", self.name, self.cases), held);
    }
}
