//! What the archive tells of the board going out, held to the reference among the calls of a history: the changes since the board
//! told last, and the board told now.

use crate::count::Test;
use crate::random::Random;
use reference::spoken;
use reference::spoken::{BOARD_BYTES, CHANGES_BYTES};

/// Now and then a telling, mostly on the board told last. `by_card` makes the call on a board and a buffer for the changes.
pub fn tell(random: &mut Random, test: &mut Test, going: &[u8], told: &mut Vec<u8>, by_card: impl Fn(&mut [u8], &mut [u8]) -> u8) {
    if random.below(3) != 0 {
        return;
    }
    let mut board = told.clone();
    let mut changes = vec![0x5Au8; CHANGES_BYTES];
    match random.below(30) {
        0 => board.truncate(BOARD_BYTES - 1),
        1 => changes.push(0),
        2 => board[0] = board[0].wrapping_add(1),
        3 => random.fill(&mut board[1..]),
        _ => (),
    }
    let (mut board_wanted, mut changes_wanted) = (board.clone(), changes.clone());
    let expected = spoken::changes(&board, going, &mut changes_wanted);
    if expected == 0 {
        board_wanted.copy_from_slice(going);
    }
    let given = board.clone();
    let answer = by_card(&mut board, &mut changes);
    test.case(expected, &(expected, &board_wanted, &changes_wanted), &(answer, &board, &changes), &(given, going));
    if answer == 0 {
        *told = board;
    }
}
