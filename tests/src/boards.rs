//! Generators of boards.
//!
//! A board comes from a construction (its posts are fitted one after another
//! in the order itself) or from a list of triangles, for which an order is then
//! found by taking posts off from outside. At the end names and list starts
//! are drawn by lot.

mod built;
mod maps;
mod orders;
mod turns;

pub use built::{constructed, every_board, Habit, HABITS};
pub use maps::{beside, flip, grid_torus, nested, seven_post_torus, stacked, two_poles, with_hubs};
pub use orders::{disguised, ordered, ordered_from, permute};
pub use turns::{every_turn, turned_by, with_v1_at};

use crate::board::Board;
use crate::rng::Rng;

/// The rings of a map without an order.
pub type Rings = Vec<Vec<u16>>;

/// The kinds of random boards.
#[derive(Clone, Copy, PartialEq, Eq, Debug)]
pub enum Kind {
    Stacked,
    Flipped,
    Hubs,
    FlippedHubs,
    TwoPoles,
    Nested,
    NestedAnywhere,
    Constructed,
}

pub const KINDS: [Kind; 8] = [
    Kind::Stacked,
    Kind::Flipped,
    Kind::Hubs,
    Kind::FlippedHubs,
    Kind::TwoPoles,
    Kind::Nested,
    Kind::NestedAnywhere,
    Kind::Constructed,
];

/// A board of n posts (n from 5) of a kind.
pub fn random(kind: Kind, n: usize, rng: &mut Rng) -> Board {
    match kind {
        Kind::Stacked => ordered(&stacked(n, rng), rng),
        Kind::Flipped => {
            let mut rings = stacked(n, rng);
            flip(&mut rings, 10 * n, rng);
            ordered(&rings, rng)
        }
        Kind::Hubs => ordered(&with_hubs(n, 2, rng), rng),
        Kind::FlippedHubs => {
            let mut rings = with_hubs(n, 3, rng);
            flip(&mut rings, n / 2, rng);
            ordered(&rings, rng)
        }
        Kind::TwoPoles => ordered(&two_poles(n), rng),
        Kind::Nested => ordered_from(&nested(n, rng), 0, 1, rng),
        Kind::NestedAnywhere => ordered(&nested(n, rng), rng),
        Kind::Constructed => {
            let habit = rng.pick(&HABITS);
            constructed(n, habit, rng)
        }
    }
}

#[cfg(test)]
mod tests;
