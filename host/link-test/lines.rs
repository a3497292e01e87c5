//! What the example link prints, read back.

use std::collections::BTreeMap;

#[derive(Default)]
pub struct Line {
    pub delay: u64,
    pub first: u64,
}

#[derive(PartialEq)]
pub struct Report {
    pub epoch: u64,
    pub mark: String,
    pub bytes: u64,
}

#[derive(Default)]
pub struct Lines {
    pub payload: u64,
    /// Whether the group is of VC-12, whose epochs have 32 frames.
    pub vc12: bool,
    pub window: u64,
    pub lines: Vec<Line>,
    /// The epochs in which packets are damaged.
    pub damaged: Vec<u64>,
    pub failures: usize,
    /// From which epoch on the group has so many members.
    pub members: BTreeMap<u64, u64>,
    pub reports: Vec<Report>,
    /// The frame times at which receiving began, and how many reports had come by then.
    pub begun: Vec<(u64, usize)>,
    pub answered_wait: usize,
    pub last: String,
}

/// The number behind a word.
fn number(fields: &[&str], word: &str) -> u64 {
    let at = fields.iter().position(|f| *f == word).unwrap_or_else(|| panic!("{word} in {fields:?}"));
    fields[at + 1].parse().unwrap_or_else(|_| panic!("a number behind {word} in {fields:?}"))
}

/// The bytes of a report; a held one has none.
fn bytes(fields: &[&str], word: &str) -> u64 {
    if fields.contains(&"held") {
        0
    } else {
        number(fields, word)
    }
}

pub fn read(text: &str) -> Lines {
    let mut read = Lines::default();
    for line in text.lines() {
        let fields: Vec<&str> = line.split('\t').collect();
        match (fields[0], fields.get(1).copied().unwrap_or("")) {
            ("link", "payload") => read.payload = number(&fields, "payload"),
            ("link", "VC-12") => read.vc12 = true,
            ("link", "window") => read.window = number(&fields, "window"),
            ("line", _) => read.lines.push(Line { delay: number(&fields, "delay"), first: number(&fields, "first frame") }),
            ("plan", "damage") => read.damaged.push(number(&fields, "epoch")),
            ("plan", "fail") => read.failures += 1,
            ("start", _) => {
                read.members.insert(number(&fields, "epoch"), number(&fields, "members"));
            }
            ("receiving", "begins") => read.begun.push((number(&fields, "frame"), read.reports.len())),
            ("add", _) | ("remove", _) => read.answered_wait += usize::from(number(&fields, "answer") == 3),
            ("epoch", _) => read.reports.push(Report { epoch: number(&fields, "epoch"), mark: fields[2].to_string(), bytes: bytes(&fields, "bytes") }),
            ("epochs", _) => {
                for epoch in number(&fields, "epochs")..=number(&fields, "to") {
                    read.reports.push(Report { epoch, mark: fields[4].to_string(), bytes: bytes(&fields, "bytes each") });
                }
            }
            _ => {}
        }
        read.last = line.to_string();
    }
    read
}

impl Lines {
    /// The bytes that an epoch carried.
    pub fn carried(&self, epoch: u64) -> u64 {
        let members = self.members.range(..=epoch).next_back().map_or(0, |(_, members)| *members);
        self.frames() * members * self.payload
    }

    /// The frames of an epoch.
    pub fn frames(&self) -> u64 {
        if self.vc12 {
            32
        } else {
            16
        }
    }

    /// The most frames that bring a port into step.
    pub fn to_step(&self) -> u64 {
        if self.vc12 {
            95
        } else {
            47
        }
    }

    /// The latest frame time in which a port gets its first frame.
    pub fn last_first_frame(&self) -> u64 {
        self.lines.iter().map(|l| l.first + l.delay).max().unwrap_or(0)
    }

    pub fn least_delay(&self) -> u64 {
        self.lines.iter().map(|l| l.delay).min().unwrap_or(0)
    }

    pub fn spread(&self) -> u64 {
        self.lines.iter().map(|l| l.delay).max().unwrap_or(0) - self.least_delay()
    }
}
