//! Canonical orders of maps, arrangements of any order, and other names.

use super::maps::around;
use super::Rings;
use crate::board::Board;
use crate::rng::Rng;

/// A board of this map with an outer triangle and a canonical order drawn by lot.
pub fn ordered(rings: &Rings, rng: &mut Rng) -> Board {
    let v2 = rng.below(rings.len());
    let v1 = rng.pick(&rings[v2]);
    ordered_from(rings, v1, v2 as u16, rng)
}

/// A board of this map with the wire v1 v2 at the bottom and a canonical order
/// drawn by lot: posts are taken off from outside, vn first, each time one of
/// the contour that has no wire to a contour post other than its two neighbours.
pub fn ordered_from(rings: &Rings, v1: u16, v2: u16, rng: &mut Rng) -> Board {
    let (vn, _) = around(&rings[v2 as usize], v1);
    let mut contour = vec![v1, vn, v2];
    let mut taken = vec![false; rings.len()];
    let mut order = Vec::new();
    while contour.len() > 2 {
        let i = rng.pick(&free_places(rings, &contour));
        let post = contour[i] as usize;
        taken[post] = true;
        order.push(contour[i]);
        let start = rings[post].iter().position(|&v| v == contour[i - 1]);
        let mut turned = rings[post].clone();
        turned.rotate_left(start.unwrap());
        let under = turned.into_iter().skip(1).filter(|&v| !taken[v as usize]);
        let under: Vec<u16> = under.filter(|&v| v != contour[i + 1]).collect();
        contour.splice(i..=i, under);
    }
    order.extend([v2, v1]);
    order.reverse();
    let board = Board {
        order,
        rings: rings.clone(),
    };
    disguised(&board, rng)
}

/// The indices of contour posts that can be taken off: v1 and v2 stay.
fn free_places(rings: &Rings, contour: &[u16]) -> Vec<usize> {
    let mut on_contour = vec![false; rings.len()];
    for &w in contour {
        on_contour[w as usize] = true;
    }
    let wires_along = |w: u16| {
        let ring = &rings[w as usize];
        ring.iter().filter(|&&v| on_contour[v as usize]).count()
    };
    (1..contour.len() - 1)
        .filter(|&i| wires_along(contour[i]) == 2)
        .collect()
}

/// Visit the board with every arrangement of its order from position `from` on,
/// counted from 0.
pub fn permute(board: &mut Board, from: usize, visit: &mut dyn FnMut(&Board)) {
    if from == board.posts() {
        return visit(board);
    }
    for i in from..board.posts() {
        board.order.swap(from, i);
        permute(board, from + 1, visit);
        board.order.swap(from, i);
    }
}

/// The same board with names and list starts drawn by lot.
pub fn disguised(board: &Board, rng: &mut Rng) -> Board {
    let mut names: Vec<u16> = (0..board.posts() as u16).collect();
    rng.shuffle(&mut names);
    let new_name = |&old: &u16| names[old as usize];
    let mut rings = vec![Vec::new(); board.posts()];
    for (old, ring) in board.rings.iter().enumerate() {
        let mut ring: Vec<u16> = ring.iter().map(new_name).collect();
        let start = rng.below(ring.len());
        ring.rotate_left(start);
        rings[names[old] as usize] = ring;
    }
    Board {
        order: board.order.iter().map(new_name).collect(),
        rings,
    }
}
