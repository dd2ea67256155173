//! Lists damaged on purpose: which refusal a board gets is known as it is made.

use crate::board::Board;
use crate::boards::Rings;
use crate::reply::Refusal;
use crate::rng::Rng;
use Slip::{Highest, Itself, JustHigh, Repeated, Unreturned};

/// A bad entry.
#[derive(Clone, Copy, PartialEq, Eq, Hash, Debug)]
pub enum Slip {
    /// The number of posts, which is no post's name; the highest number there is.
    JustHigh,
    Highest,
    /// The post whose list it is.
    Itself,
    /// A copy of a right entry before it.
    Repeated,
    /// A post that is not wired to this one.
    Unreturned,
}

const SLIPS: [Slip; 5] = [JustHigh, Highest, Itself, Repeated, Unreturned];

impl Slip {
    /// The refusal of a block whose first bad entry is this one.
    pub fn number(self) -> u16 {
        match self {
            JustHigh | Highest => 9,
            Itself => 18,
            Repeated => 19,
            Unreturned => 20,
        }
    }
}

/// Where slips are made. The first that is named is the one to be told, but for `Lost`.
#[derive(Clone, Copy, PartialEq, Eq, Hash, Debug)]
pub enum Plan {
    One(Slip),
    /// Two in one list, one after the other.
    Two(Slip, Slip),
    /// The same entry two times in one list: the second is a repeat besides.
    Twice(Slip),
    /// One between an entry and its repeat.
    Between(Slip),
    /// The first of two equal entries is the one that was written over; the second is told.
    Ahead,
    /// In two lists, that of the lower name first.
    TwoLists(Slip, Slip),
    /// In the list of the higher of two wired posts, over the lower one: what is told is
    /// that the lower one is not returned, though nothing in its own list was changed.
    Lost(Slip),
}

/// How often a place for a plan is drawn before a board counts as having none.
const DRAWS: usize = 200;

impl Plan {
    pub fn all() -> Vec<Plan> {
        let mut plans = vec![Plan::Ahead];
        for one in SLIPS {
            plans.extend([Plan::One(one), Plan::Lost(one)]);
            if one != Repeated {
                plans.extend([Plan::Twice(one), Plan::Between(one)]);
            }
            let others = SLIPS
                .into_iter()
                .filter(|other| other.number() != one.number());
            plans.extend(
                others.flat_map(|other| [Plan::Two(one, other), Plan::TwoLists(one, other)]),
            );
        }
        plans
    }

    /// A board with sound rings damaged by this plan, and its refusal; none if the
    /// board has no place for it.
    pub fn made(self, board: &Board, rng: &mut Rng) -> Option<(Board, Refusal)> {
        (0..DRAWS).find_map(|_| self.drawn(board, rng))
    }

    fn drawn(self, board: &Board, rng: &mut Rng) -> Option<(Board, Refusal)> {
        let u = rng.below(board.posts());
        let mut lists = Lists {
            right: &board.rings,
            rings: board.rings.clone(),
            rng,
        };
        let number = lists.damage(self, u)?;
        let (order, rings) = (board.order.clone(), lists.rings);
        let place = u as u16;
        Some((Board { order, rings }, Refusal { number, place }))
    }
}

/// Lists that are being damaged.
struct Lists<'a> {
    right: &'a Rings,
    rings: Rings,
    rng: &'a mut Rng,
}

impl Lists<'_> {
    /// Damage by a plan such that u is the lowest name with a bad entry: its number.
    fn damage(&mut self, plan: Plan, u: usize) -> Option<u16> {
        match plan {
            Plan::One(slip) => {
                let [i] = self.places(u)?;
                self.slip(u, i, slip)
            }
            Plan::Two(one, other) => {
                let [i, j] = self.places(u)?;
                let told = self.slip(u, i, one);
                self.slip(u, j, other).and(told)
            }
            Plan::Twice(slip) => {
                let [i, j] = self.places(u)?;
                let told = self.slip(u, i, slip);
                self.rings[u][j] = self.rings[u][i];
                told
            }
            Plan::Between(slip) => {
                let [i, j] = self.places(u)?;
                self.rings[u][j] = self.one_of(self.right[u][..i].to_vec())?;
                self.slip(u, i, slip)
            }
            Plan::Ahead => {
                let [i] = self.places(u)?;
                self.rings[u][i] = self.one_of(self.right[u][i + 1..].to_vec())?;
                Some(Repeated.number())
            }
            Plan::TwoLists(one, other) => self.two_lists(u, one, other),
            Plan::Lost(slip) => {
                let [i] = self.places(u)?;
                let v = usize::from(self.right[u][i]);
                let j = self.right[v].iter().position(|&w| usize::from(w) == u)?;
                self.slip(v, j, slip).and(Some(Unreturned.number()))
            }
        }
    }

    /// A slip in u's list and another in that of a higher post, which must not come to have u.
    fn two_lists(&mut self, u: usize, one: Slip, other: Slip) -> Option<u16> {
        let w = self.one_of((u + 1..self.right.len()).collect())?;
        let ([i], [j]) = (self.places(u)?, self.places(w)?);
        let told = self.slip(u, i, one);
        self.slip(w, j, other)?;
        told.filter(|_| usize::from(self.rings[w][j]) != u)
    }

    /// Places of u's list by lot, ascending, all with higher names: if these are
    /// written over, no list of a lower name loses its return.
    fn places<const COUNT: usize>(&mut self, u: usize) -> Option<[usize; COUNT]> {
        let ring = &self.right[u];
        let higher = |&i: &usize| usize::from(ring[i]) > u;
        let mut places: Vec<usize> = (0..ring.len()).filter(higher).collect();
        self.rng.shuffle(&mut places);
        places.truncate(COUNT);
        places.sort_unstable();
        places.try_into().ok()
    }

    /// Make a slip at place i of u's list: its number, if there is such an entry.
    fn slip(&mut self, u: usize, i: usize, slip: Slip) -> Option<u16> {
        let (right, n) = (&self.right[u], self.right.len() as u16);
        self.rings[u][i] = match slip {
            JustHigh => n,
            Highest => u16::MAX,
            Itself => u as u16,
            Repeated => {
                let still_right = |&k: &usize| self.rings[u][k] == right[k];
                let before = (0..i).filter(still_right).map(|k| right[k]);
                self.one_of(before.collect())?
            }
            Unreturned => {
                let stranger = |v: &u16| usize::from(*v) != u && !right.contains(v);
                self.one_of((0..n).filter(stranger).collect())?
            }
        };
        Some(slip.number())
    }

    /// One of these by lot.
    fn one_of<T: Copy>(&mut self, from: Vec<T>) -> Option<T> {
        (!from.is_empty()).then(|| self.rng.pick(&from))
    }
}

#[cfg(test)]
mod tests;
