//! The rules of Levelspruce a second time, written from the paper that states them and not from the proved code, in
//! the plainest way and with no thought for speed (but for receiver/fast.rs). Differential tests hold the archive to it.

pub mod circuits;
pub mod mend;
pub mod packet;
pub mod paths;
pub mod payload;
pub mod receiver;
pub mod replay;
pub mod sender;
pub mod session;
pub mod spoken;
