//! How many earlier neighbours an order needs so that the unit accepts it.
//!
//! On a board that passes steps 1 to 11 and is connected one run is forced: if
//! each post from position 3 on has an earlier neighbour and each below n a
//! later one, the earlier neighbours of every post stand side by side. With
//! two of them at every position the order is canonical; with one somewhere it
//! is not. Every order of the small boards is held against this.

use crate::board::Board;

/// What the order makes of one post's ring.
#[derive(Clone, Copy, PartialEq, Eq, Debug)]
pub struct Neighbours {
    pub earlier: usize,
    pub later: usize,
    /// In how many runs the earlier neighbours stand; a whole ring is one.
    pub runs: usize,
}

/// The neighbours of the post in each position.
pub fn by_position(board: &Board) -> Vec<Neighbours> {
    let position = board.positions();
    let neighbours = |(i, &name): (usize, &u16)| {
        let ring = &board.rings[name as usize];
        let earlier: Vec<bool> = ring.iter().map(|&v| position[v as usize] < i).collect();
        count(&earlier)
    };
    board.order.iter().enumerate().map(neighbours).collect()
}

/// Count a ring of which it is told whether each entry is earlier.
fn count(earlier: &[bool]) -> Neighbours {
    let next = earlier.iter().cycle().skip(1);
    let ends = earlier.iter().zip(next).filter(|&(&is, &next)| is && !next);
    let (ends, all) = (ends.count(), !earlier.contains(&false));
    let number = earlier.iter().filter(|&&is| is).count();
    Neighbours {
        earlier: number,
        later: earlier.len() - number,
        runs: if all { 1 } else { ends },
    }
}

/// Whether each post from position 3 on has an earlier neighbour, and each
/// below the last position a later one.
pub fn both_ways(posts: &[Neighbours]) -> bool {
    let below_n = &posts[..posts.len() - 1];
    posts[2..].iter().all(|post| post.earlier > 0) && below_n.iter().all(|post| post.later > 0)
}

/// The first position from 3 on, counted from 1, with fewer than two earlier neighbours.
pub fn first_with_fewer_than_two(posts: &[Neighbours]) -> Option<usize> {
    (3..=posts.len()).find(|position| posts[position - 1].earlier < 2)
}

/// The first position from 3 on, counted from 1, whose earlier neighbours
/// aren't one run.
pub fn first_not_one_run(posts: &[Neighbours]) -> Option<usize> {
    (3..=posts.len()).find(|position| posts[position - 1].runs != 1)
}

#[cfg(test)]
mod tests {
    use super::*;
    use crate::board::d;
    use crate::boards::two_poles;
    use crate::paper;
    use crate::reply::Refusal;

    #[test]
    fn runs_are_counted_around_the_ring() {
        let runs = |earlier: &[bool]| count(earlier).runs;
        assert_eq!(runs(&[false, false]), 0);
        assert_eq!(runs(&[true, true, true]), 1);
        assert_eq!(runs(&[true, false, false, true]), 1);
        assert_eq!(runs(&[false, true, true, false]), 1);
        assert_eq!(runs(&[true, false, true, false]), 2);
    }

    /// Post 3 stands before post 2, which then has no later neighbour: nothing
    /// is forced, and post 3 has two runs.
    #[test]
    fn d_with_two_posts_exchanged_has_a_post_without_later_neighbour() {
        let order = vec![0, 1, 3, 2, 4];
        let posts = by_position(&Board { order, ..d() });
        assert_eq!(posts[3].later, 0);
        assert!(!both_ways(&posts));
        assert_eq!(first_with_fewer_than_two(&posts), None);
        assert_eq!(first_not_one_run(&posts), Some(3));
    }

    /// One earlier neighbour is not enough: this order of the octahedron has one
    /// run everywhere.
    #[test]
    fn one_earlier_neighbour_is_refused_by_12() {
        let board = Board {
            order: vec![0, 1, 2, 4, 3, 5],
            rings: two_poles(6),
        };
        let posts = by_position(&board);
        assert!(both_ways(&posts));
        assert_eq!(first_not_one_run(&posts), None);
        assert_eq!(first_with_fewer_than_two(&posts), Some(3));
        let (number, place) = (12, 3);
        assert_eq!(paper::check(&board.block()), Err(Refusal { number, place }));
    }
}
