//! Holds the archive to the reference, call by call, over many made-up cases. Every run makes the same ones.
//!
//! Usage: differential [HOSTS], where HOSTS is how many made-up hosts of the receiver there are, of each kind (500).

mod boards;
mod card;
mod circuits;
mod count;
mod mends;
mod orders;
mod packets;
mod path;
mod payloads;
mod plans;
mod random;
mod receivers;
mod senders;
mod tellings;
mod torn;

fn main() {
    let hosts = std::env::args().nth(1).map_or(500, |word| word.parse().expect("a number of hosts"));
    let mut count = count::Count::default();
    packets::compare(&mut count);
    payloads::compare(&mut count);
    plans::compare(&mut count);
    senders::compare(&mut count);
    circuits::compare(&mut count);
    orders::compare(&mut count);
    boards::compare(&mut count);
    mends::compare(&mut count);
    receivers::compare(&mut count, hosts);
    std::process::exit(count.tally());
}
