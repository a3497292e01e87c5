//! Payload order: byte p of a group frame is byte p div X of the member ranked p mod X.

pub const MEMBERS_MOST: u32 = 64;
pub const PAYLOAD_MOST: u32 = 2340;

/// What spreading and joining answer: 4 for sizes, then 9 for lengths, else 0.
fn answer(x: u32, p: u32, frame_length: usize, members_length: usize) -> u8 {
    if x > MEMBERS_MOST || p < 1 || p > PAYLOAD_MOST {
        return 4;
    }
    let bytes = x as usize * p as usize;
    if frame_length != bytes || members_length != bytes {
        return 9;
    }
    0
}

/// Where byte k of the group frame stands among the members, which lie one after the other in the order of their ranks.
fn place(x: u32, p: u32, k: usize) -> usize {
    (k % x as usize) * p as usize + k / x as usize
}

pub fn spread(x: u32, p: u32, frame: &[u8], members: &mut [u8]) -> u8 {
    let answer = answer(x, p, frame.len(), members.len());
    if answer == 0 {
        for (k, byte) in frame.iter().enumerate() {
            members[place(x, p, k)] = *byte;
        }
    }
    answer
}

pub fn join(x: u32, p: u32, members: &[u8], frame: &mut [u8]) -> u8 {
    let answer = answer(x, p, frame.len(), members.len());
    if answer == 0 {
        for (k, byte) in frame.iter_mut().enumerate() {
            *byte = members[place(x, p, k)];
        }
    }
    answer
}
