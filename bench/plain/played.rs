//! Makes boards of good play: both sides look four plies ahead after eight plies by chance.
//!
//!     plain played SEED COUNT EMPTIES    as `plain played 20261128 10 18`
//!
//! Writes a board line for each game that has a board of so many empty squares whose mover can move. It needs the looks
//! of the search alone, so which boards come out depends on the evaluation: a file of them is made once and kept.

use crate::oth_rules::{Board, Square};
use crate::oth_search::nws::Node;
use crate::oth_search::ordering::evaluation::Evaluation;
use crate::oth_search::ordering::lookahead::{EvalWindow, lookahead};

// Plies by chance at the beginning of a game.
const BY_CHANCE: u32 = 8;

// Plies that the opponent and the mover look ahead after a move.
const AFTER_A_MOVE: u8 = 3;

// Numbers by chance (splitmix64).
struct Chance(u64);

impl Chance {
    fn below(&mut self, most: usize) -> usize {
        self.0 = self.0.wrapping_add(0x9e37_79b9_7f4a_7c15);
        let mut word = (self.0 ^ self.0 >> 30).wrapping_mul(0xbf58_476d_1ce4_e5b9);
        word = (word ^ word >> 27).wrapping_mul(0x94d0_49bb_1331_11eb);
        ((word ^ word >> 31) % most as u64) as usize
    }
}

fn children(board: &Board) -> Vec<Board> {
    (0..64).filter_map(Square::of).filter_map(|square| board.play(square)).collect()
}

// The child that looks best for its parent's mover.
fn best(children: &[Board]) -> Board {
    let mut best = (Evaluation::WORST, children[0]);
    for child in children {
        let seen = lookahead(Node::of(*child), AFTER_A_MOVE, EvalWindow::up_to(Evaluation::BEST)).turned();
        if !best.0.reaches(seen) {
            best = (seen, *child);
        }
    }
    best.1
}

// The board of a game with so many empty squares, and whether black is its mover.
fn played(chance: &mut Chance, empties: u8) -> Option<(Board, bool)> {
    let mut board = Board::of(0x0000_0008_1000_0000, 0x0000_0010_0800_0000).ok()?;
    let mut is_black = true;
    let mut ply = 0;
    while board.empties() > empties {
        if board.is_over() {
            return None;
        }
        let next = children(&board);
        board = match next.len() {
            0 => board.pass(),
            many if ply < BY_CHANCE => next[chance.below(many)],
            _ => best(&next),
        };
        is_black = !is_black;
        ply += 1;
    }
    board.can_move().then_some((board, is_black))
}

fn line_of(board: &Board, is_black: bool) -> String {
    let (own, opp) = if is_black { ('X', 'O') } else { ('O', 'X') };
    let mut line: String = (0..64)
        .map(|place| match (board.own() >> place & 1, board.opp() >> place & 1) {
            (1, _) => own,
            (_, 1) => opp,
            _ => '-',
        })
        .collect();
    line.extend([' ', own]);
    line
}

pub fn main() {
    let words: Vec<u64> = std::env::args().skip(2).map(|word| word.parse().expect("a number")).collect();
    let [seed, count, empties] = words[..] else {
        panic!("SEED COUNT EMPTIES are wanted");
    };
    let mut chance = Chance(seed);
    let boards = std::iter::from_fn(|| Some(played(&mut chance, empties as u8)));
    for (board, is_black) in boards.flatten().take(count as usize) {
        println!("{}", line_of(&board, is_black));
    }
}
