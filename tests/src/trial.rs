//! What a part asks of a block, with the part's own generator and counts.

use crate::board::Board;
use crate::compare::{fails, passes_step_11, Tester};
use crate::fits::Place;
use crate::rng::Rng;
use crate::text;

/// Stages or names far beyond any board; some look small in 16 or 32 bits.
const HUGE: [usize; 5] = [
    65535,
    65536 + 3,
    (1 << 32) + 4,
    usize::MAX / 2 + 1,
    usize::MAX,
];

/// One part's comparisons.
pub struct Trial {
    pub tester: Tester,
    pub rng: Rng,
}

impl Trial {
    pub fn new(rng: Rng) -> Self {
        let tester = Tester::default();
        Trial { tester, rng }
    }

    /// All three services with every stage and name, and rooms around those needed.
    pub fn everything(&mut self, block: &[u8], n: usize) {
        let outside = [n + 1, n + 2].into_iter().chain(HUGE);
        for stage in (0..=n).chain(outside.clone()) {
            for room in rooms(stage, n) {
                let _ = self.tester.sheet(block, stage, room);
            }
            for name in (0..n).chain([n]).chain(outside.clone()) {
                let _ = self.tester.post(block, stage, name);
            }
        }
        let _ = self.tester.check(block);
    }

    /// All three services with some stages, names and rooms by lot.
    pub fn something(&mut self, block: &[u8], n: usize, times: usize) {
        let _ = self.tester.check(block);
        for _ in 0..times {
            let stage = self.some_stage(n);
            let room = self.rng.pick(&rooms(stage, n));
            let _ = self.tester.sheet(block, stage, room);
            let stage = self.some_stage(n);
            let name = match self.rng.below(8) {
                0 => n,
                1 => self.rng.pick(&HUGE),
                _ => self.rng.below(n),
            };
            let _ = self.tester.post(block, stage, name);
        }
    }

    fn some_stage(&mut self, n: usize) -> usize {
        match self.rng.below(12) {
            0 => self.rng.below(3),
            1 => n + 1,
            2 => self.rng.pick(&HUGE),
            3 => n,
            4 => 3,
            _ => self.rng.between(3, n),
        }
    }

    /// The ends that records tell: on a board of some posts at every stage and of
    /// every post, on a larger one at some stages and of some posts.
    pub fn fits(&mut self, board: &Board) -> Vec<Place> {
        let n = board.posts();
        if n <= MIDDLING {
            let names: Vec<u16> = (0..n as u16).collect();
            return self.tester.fits(board, &every_stage(n), &names);
        }
        let stages = sample_of_stages(n);
        let names = self.some_names(board, &stages);
        self.tester.fits(board, &stages, &names)
    }

    /// The first three posts, those that are placed last or next at these stages, and
    /// some by lot.
    fn some_names(&mut self, board: &Board, stages: &[usize]) -> Vec<u16> {
        let around = stages
            .iter()
            .flat_map(|&k| board.order[k - 1..].iter().take(2));
        let mut names: Vec<u16> = board.order[..3].iter().chain(around).copied().collect();
        names.extend((0..8).map(|_| self.rng.below(board.posts()) as u16));
        names.sort_unstable();
        names.dedup();
        names
    }

    /// Compare the reply to any block with Chrobak and Nakano's conditions (X2).
    pub fn conditions_of_block(&mut self, block: &[u8]) {
        let reply = self.tester.check(block);
        if passes_step_11(reply) {
            self.tester.conditions(&text::board(block), reply);
        }
    }

    /// A right board must be accepted.
    pub fn accepted(&mut self, board: &Board) -> Vec<u8> {
        let block = board.block();
        if self.tester.check(&block) != Ok(board.posts() as u16) {
            fails("a right board: it is refused", &block);
        }
        block
    }
}

/// The most posts of a board of which every stage is asked for every post.
pub const MIDDLING: usize = 60;

pub fn every_stage(n: usize) -> Vec<usize> {
    (3..=n).collect()
}

/// Stages by twos, one after the other, so that moves are seen at each.
pub fn sample_of_stages(n: usize) -> Vec<usize> {
    vec![3, 4, n / 3, n / 3 + 1, 2 * n / 3, 2 * n / 3 + 1, n - 1, n]
}

/// Buffer lengths to try at a stage: none, one, around 2k, around 2n.
fn rooms(stage: usize, n: usize) -> Vec<usize> {
    let mut rooms = vec![0, 1, 2 * n, 2 * n + 7];
    if stage <= n {
        let need = 2 * stage;
        rooms.extend([need.saturating_sub(1), need, need + 1, stage]);
    }
    rooms.sort_unstable();
    rooms.dedup();
    rooms
}
