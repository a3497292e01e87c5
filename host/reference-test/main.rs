//! Checks the reference by itself: 01's limits, links from the reference's sender, VC-12's packets and groups, long histories of
//! unruly hosts, and its mending of recordings. Every run makes the same ones.

mod adds;
#[path = "../differential/count.rs"]
#[allow(dead_code)] // not all of it is used here
mod count;
mod fixed;
mod histories;
mod invariant;
mod judgements;
mod limits;
mod link;
mod mending;
mod source;
mod steps;
mod vc12;
mod vc12_groups;
mod waiting;

#[path = "../differential/path.rs"]
mod path;
#[path = "../differential/random.rs"]
mod random;

fn main() {
    let mut count = count::Count::default();
    limits::check(&mut count);
    steps::check(&mut count);
    judgements::check(&mut count);
    waiting::check(&mut count);
    link::check(&mut count);
    fixed::check(&mut count);
    adds::check(&mut count);
    vc12::check(&mut count);
    vc12_groups::check(&mut count);
    mending::check(&mut count);
    histories::check(&mut count);
    std::process::exit(count.tally());
}
