//! Boards that are fitted post by post in their own order.

use super::{disguised, Rings};
use crate::board::Board;
use crate::rng::Rng;

/// A board under construction: `contour` runs from v1 to v2. In the ring of a
/// contour post the outside lies between the last entry and the first.
#[derive(Clone)]
struct Construction {
    rings: Rings,
    contour: Vec<u16>,
}

impl Construction {
    /// The wire v1 v2 alone.
    fn start() -> Self {
        Construction {
            rings: vec![vec![1], vec![0]],
            contour: vec![0, 1],
        }
    }

    /// Fit a new post over the contour posts with index p to q.
    fn fit(&mut self, p: usize, q: usize) {
        let new = self.rings.len() as u16;
        let run = self.contour[p..=q].to_vec();
        let (left, right) = (run[0], run[run.len() - 1]);
        for &w in &run[1..run.len() - 1] {
            self.rings[w as usize].push(new);
        }
        self.rings[left as usize].push(new);
        self.rings[right as usize].insert(0, new);
        self.rings.push(run);
        self.contour.splice(p + 1..q, [new]);
    }

    /// Fit the last post, over the whole contour.
    fn finish(mut self) -> Board {
        self.fit(0, self.contour.len() - 1);
        Board {
            order: (0..self.rings.len() as u16).collect(),
            rings: self.rings,
        }
    }
}

/// Every board of n posts with every canonical order of it, named by position
/// minus one: hand each to `visit`.
///
/// These are all of them: from position 3 on, the earlier neighbours of each
/// new post are at least two and one run (O2, O3), which is a stretch of the
/// contour (O7), and for vn the whole contour. The board and its order fix
/// these stretches, and the stretches fix the board, so that each board with an
/// order comes up once.
/// The other way round every choice of stretches gives an accepted board: the
/// last post covers the whole contour, and so every post gets a later neighbour.
pub fn every_board(n: usize, visit: &mut dyn FnMut(&Board)) {
    extend(Construction::start(), n, visit);
}

fn extend(construction: Construction, n: usize, visit: &mut dyn FnMut(&Board)) {
    if construction.rings.len() == n - 1 {
        visit(&construction.finish());
        return;
    }
    for q in 1..construction.contour.len() {
        for p in 0..q {
            let mut next = construction.clone();
            next.fit(p, q);
            extend(next, n, visit);
        }
    }
}

/// How a random construction chooses the stretch that a new post covers.
#[derive(Clone, Copy, Debug)]
pub enum Habit {
    /// Any stretch.
    Any,
    /// A stretch of two to four posts: the contour grows long.
    Narrow,
    /// A stretch that starts at v1, which becomes a hub.
    FromLeft,
    /// A stretch that ends at v2, which becomes a hub.
    ToRight,
    /// Always two posts: the last post becomes a hub.
    Pairs,
    /// The whole contour each time: every post is covered by the next.
    Whole,
}

pub const HABITS: [Habit; 6] = [
    Habit::Any,
    Habit::Narrow,
    Habit::FromLeft,
    Habit::ToRight,
    Habit::Pairs,
    Habit::Whole,
];

/// A board fitted post by post by a habit.
pub fn constructed(n: usize, habit: Habit, rng: &mut Rng) -> Board {
    let mut construction = Construction::start();
    for _ in 3..n {
        let last = construction.contour.len() - 1;
        let (p, q) = stretch(last, habit, rng);
        construction.fit(p, q);
    }
    disguised(&construction.finish(), rng)
}

/// A stretch p to q of a contour with indices 0 to `last`.
fn stretch(last: usize, habit: Habit, rng: &mut Rng) -> (usize, usize) {
    match habit {
        Habit::Any => {
            let p = rng.below(last);
            (p, rng.between(p + 1, last))
        }
        Habit::Narrow => {
            let p = rng.below(last);
            (p, rng.between(p + 1, last.min(p + 3)))
        }
        Habit::FromLeft => (0, rng.between(1, last.min(2))),
        Habit::ToRight => (rng.between(last.saturating_sub(2), last - 1), last),
        Habit::Pairs => {
            let p = rng.below(last);
            (p, p + 1)
        }
        Habit::Whole => (0, last),
    }
}
