//! Boards in pieces.

use crate::board::Board;
use crate::boards::{beside, grid_torus, ordered, seven_post_torus, stacked, Rings};
use crate::rng::Rng;

/// Boards in pieces with the right number of entries and triangles everywhere:
/// a plane piece (the first one's posts) beside one torus or more. Each comes
/// with the number of posts of its plane piece.
pub fn pieces(rng: &mut Rng) -> Vec<(Rings, usize)> {
    let torus = seven_post_torus();
    let triangle = stacked(3, rng);
    let ball = stacked(4, rng);
    let large = stacked(12, rng);
    vec![
        (beside(&triangle, &torus), 3),
        (beside(&ball, &torus), 4),
        (beside(&large, &torus), 12),
        (beside(&ball, &grid_torus(3, 4)), 4),
        (beside(&beside(&ball, &torus), &torus), 4),
        (beside(&beside(&triangle, &grid_torus(3, 3)), &torus), 3),
    ]
}

/// An order for a board in pieces: v1, v2 and vn lie on the plane piece as its
/// outer triangle, its posts keep a canonical order of it, and the posts of
/// the tori stand anywhere from position 3 on.
pub fn order_of_pieces(rings: &Rings, plane_posts: usize, rng: &mut Rng) -> Board {
    let plane = rings[..plane_posts].to_vec();
    let plane = ordered(&plane, rng);
    let mut order = plane.order;
    let mut elsewhere: Vec<u16> = (plane_posts as u16..rings.len() as u16).collect();
    rng.shuffle(&mut elsewhere);
    // Often all together, just before vn or just after v2.
    let together = rng.pick(&[None, Some(2), Some(order.len() - 1)]);
    for post in elsewhere {
        let place = together.unwrap_or_else(|| rng.between(2, order.len() - 1));
        order.insert(place, post);
    }
    let mut all = plane.rings;
    all.extend_from_slice(&rings[plane_posts..]);
    Board { order, rings: all }
}
