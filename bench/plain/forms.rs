//! Calls one form of `moves` or of `flips` ten times on each of three million boards of scattered discs, and prints the
//! sum of what it gave. All forms of one call print the same sum. `bench/forms.py` times it, form by form.
//!
//!     plain forms FORM    as `plain forms moves_by_lines`; `plain forms nothing` makes the boards alone

use crate::oth_rules::{Board, Square};

// The boards of a round.
const BOARDS: u32 = 3_000_000;

// How often a run goes over all boards.
const REPEATS: u32 = 10;

// Where the random words begin.
const SEED: u64 = 0x9e37_79b9_7f4a_7c15;

// Words without a pattern, each made of the last one.
struct Words(u64);

impl Words {
    fn next(&mut self) -> u64 {
        self.0 ^= self.0 << 13;
        self.0 ^= self.0 >> 7;
        self.0 ^= self.0 << 17;
        self.0
    }

    // A board on which three squares of four have a disc.
    fn board(&mut self) -> Option<Board> {
        let discs = self.next() | self.next();
        let own = self.next();
        Board::of(discs & own, discs & !own).ok()
    }
}

// The sum of what the form gives of all boards, at the first empty square of each, in all rounds.
fn sum(form: impl Fn(&Board, Square) -> u64) -> u64 {
    let mut sum = 0u64;
    for _ in 0..REPEATS {
        let mut words = Words(SEED);
        for _ in 0..BOARDS {
            let Some(board) = words.board() else { continue };
            if let Some(square) = Square::of(board.empty_squares().trailing_zeros() as u8) {
                sum = sum.wrapping_add(form(&board, square));
            }
        }
    }
    sum
}

pub fn main() {
    let sum = match std::env::args().nth(2).as_deref() {
        Some("nothing") => sum(|board, _| board.own()),
        Some("moves") => sum(|board, _| board.moves()),
        Some("moves_by_lines") => sum(|board, _| board.moves_by_lines()),
        Some("moves_by_shifts") => sum(|board, _| board.moves_by_shifts()),
        Some("flips") => sum(|board, square| board.flips(square)),
        Some("flips_by_rays") => sum(|board, square| board.flips_by_rays(square)),
        Some("flips_by_shifts") => sum(|board, square| board.flips_by_shifts(square)),
        _ => panic!("a form is one of nothing, moves[_by_lines|_by_shifts], flips[_by_rays|_by_shifts]"),
    };
    println!("{sum:016x}");
}
