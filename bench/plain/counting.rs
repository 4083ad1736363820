//! Solves boards by several numbers of workers in turn, and says how long it took and how many boards were searched.
//!
//!     plain WORKERS CELLS FILE [RUNS]    as `plain 1,2,4 65536 bench/game-16.txt 5`
//!
//! A line for each board and number of workers, and for all boards: the seconds (of each board the least of the runs),
//! the boards of 6 to 8 empty squares that were searched (the mean of the runs) and how many of them for the guess of
//! the score, and beside the first number of workers how many times as fast and how many times the boards; behind a
//! board's the score and the best moves, as a word with the bit of A1 lowest.

use crate::oth_pool::{Open, solve};
use crate::oth_rules::{Board, Scoring};
use crate::shim::{Global, System};
use std::cell::Cell;
use std::sync::atomic::Ordering::Relaxed;
use std::sync::atomic::{AtomicU64, AtomicUsize};
use std::time::Instant;

/// For what a board is searched.
#[derive(Clone, Copy)]
pub enum Part {
    Search = 0,
    Guess = 1,
}

// The counts of one thread, which lie in a line of memory of their own.
#[repr(align(128))]
struct Counts([AtomicU64; 2]);

// More than threads are there at once.
const THREADS: usize = 64;

static COUNTS: [Counts; THREADS] = [const { Counts([AtomicU64::new(0), AtomicU64::new(0)]) }; THREADS];

static NEXT: AtomicUsize = AtomicUsize::new(0);

thread_local! {
    static PLACE: usize = NEXT.fetch_add(1, Relaxed) % THREADS;
    static PART: Cell<Part> = const { Cell::new(Part::Search) };
}

/// Counts a search of a board with 6 to 8 empty squares.
pub fn count(board: &Board) {
    if (6..=8).contains(&board.empties()) {
        let place = PLACE.with(|place| *place);
        let part = PART.with(|part| part.get());
        let count = &COUNTS[place].0[part as usize];
        count.store(count.load(Relaxed) + 1, Relaxed);
    }
}

/// What follows in this thread is for this, until the value is dropped.
pub struct For {
    before: Part,
}

impl For {
    pub fn part(part: Part) -> For {
        For {
            before: PART.with(|now| now.replace(part)),
        }
    }
}

impl Drop for For {
    fn drop(&mut self) {
        PART.with(|now| now.set(self.before));
    }
}

// What was counted since the last time.
fn taken() -> [u64; 2] {
    let mut sums = [0; 2];
    for counts in &COUNTS {
        for part in 0..2 {
            sums[part] += counts.0[part].swap(0, Relaxed);
        }
    }
    sums
}

#[derive(Clone, Copy, Default)]
struct Figures {
    seconds: f64,
    search: f64,
    guess: f64,
}

impl Figures {
    fn boards(&self) -> f64 {
        self.search + self.guess
    }
}

fn board_of(line: &str) -> Board {
    let (cells, mover) = line.split_once(' ').expect("a board line has a mover");
    let other = if mover == "X" { 'O' } else { 'X' };
    let word = |side: char| {
        cells
            .chars()
            .enumerate()
            .filter(|(_, cell)| cell.to_string() == side.to_string())
            .fold(0u64, |word, (place, _)| word | 1 << place)
    };
    let own = word(mover.chars().next().expect("a mover"));
    Board::of(own, word(other)).ok().expect("no square is held twice")
}

fn show(name: &str, crews: &[u8], figures: &[Figures], answer: &str) {
    for (workers, found) in crews.iter().zip(figures) {
        println!(
            "{name:>5} {workers:>2} workers {:11.6} s {:12.0} boards, {:10.0} for the guess, x {:.2} as fast, x {:.2} boards{answer}",
            found.seconds,
            found.boards(),
            found.guess,
            figures[0].seconds / found.seconds,
            found.boards() / figures[0].boards(),
        );
    }
}

pub fn main() {
    let words: Vec<String> = std::env::args().skip(1).collect();
    let crews: Vec<u8> = words[0]
        .split(',')
        .map(|n| n.parse().expect("a number of workers"))
        .collect();
    let cells: u32 = words[1].parse().expect("a number of cells");
    let text = std::fs::read_to_string(&words[2]).expect("a file of board lines");
    let runs: u32 = words.get(3).map_or(1, |n| n.parse().expect("a number of runs"));
    let boards: Vec<Board> = text.lines().map(board_of).collect();
    let blank = Figures {
        seconds: f64::MAX,
        ..Figures::default()
    };
    let mut table = vec![vec![blank; crews.len()]; boards.len()];
    let mut answers = vec![None; boards.len()];
    for _ in 0..runs {
        for (number, board) in boards.iter().enumerate() {
            for (place, workers) in crews.iter().enumerate() {
                taken();
                let begun = Instant::now();
                let solved = solve(&System, Global, board, *workers, cells, &Open, None, Scoring::Winner);
                let seconds = begun.elapsed().as_secs_f64();
                let answer = solved.ok().map(|answer| (answer.score, answer.best));
                assert!(answer.is_some() && (answers[number].is_none() || answers[number] == answer));
                answers[number] = answer;
                let found = &mut table[number][place];
                let [search, guess] = taken();
                found.seconds = found.seconds.min(seconds);
                found.search += search as f64 / f64::from(runs);
                found.guess += guess as f64 / f64::from(runs);
            }
        }
    }
    let mut all = vec![Figures::default(); crews.len()];
    for (number, row) in table.iter().enumerate() {
        let (score, best): (i8, u64) = answers[number].expect("a run at least");
        show(&(number + 1).to_string(), &crews, row, &format!("; {score:+} {best:016x}"));
        for (sum, found) in all.iter_mut().zip(row) {
            sum.seconds += found.seconds;
            sum.search += found.search;
            sum.guess += found.guess;
        }
    }
    show("all", &crews, &all, "");
}
