use super::*;
use crate::board::{d, t};
use crate::boards::{beside, every_board, permute, seven_post_torus, stacked, two_poles};
use crate::damage::order_of_pieces;
use crate::rng::Rng;

fn with_order(board: Board, order: &[u16]) -> Board {
    let order = order.to_vec();
    Board { order, ..board }
}

/// A ring of posts 0, 1, .. between the poles n - 2 and n - 1, in this order.
fn poles(order: &[u16]) -> Board {
    Board {
        order: order.to_vec(),
        rings: two_poles(order.len()),
    }
}

fn exterior(graph: &Induced) -> Face {
    Face::new(graph.exterior_face())
}

#[test]
fn t_and_d_keep_the_conditions() {
    assert_eq!(first_broken(&t()), None);
    assert_eq!(first_broken(&d()), None);
    assert_eq!(contour(&t(), 3), [0, 2, 1]);
    assert_eq!(contour(&d(), 3), [0, 2, 1]);
    assert_eq!(contour(&d(), 4), [0, 3, 1]);
    assert_eq!(contour(&d(), 5), [0, 4, 1]);
}

/// Post 2 is to be fitted where posts 0, 1 and 3 already stand around it.
#[test]
fn d_with_two_posts_exchanged_breaks_co3_at_stage_3() {
    let autumn = with_order(d(), &[0, 1, 3, 2, 4]);
    assert_eq!(first_broken(&autumn), Some((3, Condition::Co3)));
    let graph = Induced::of(&autumn, 3);
    let exterior = exterior(&graph);
    assert!(graph.is_2_connected() && graph.is_internally_triangulated(&exterior));
    assert!(exterior.has_wire(0, 1));
    assert!(!graph.lies_in(2, &exterior) && graph.touches_only(2, &exterior));
    assert!(graph.lies_in(2, &Face::new(graph.face(0, 1))));
    assert!(graph.lies_in(4, &exterior));
}

/// An octahedron without two opposite posts is a ring of four, with four
/// corners inside and outside; without two others only the outside has four.
#[test]
fn four_corners_break_co1_where_they_are_internal() {
    let ring = poles(&[0, 1, 2, 3, 4, 5]);
    let graph = Induced::of(&ring, 4);
    assert!(graph.is_2_connected());
    assert_eq!(graph.exterior_face(), [1, 0, 3, 2]);
    assert_eq!(graph.face(0, 1), [0, 1, 2, 3]);
    assert!(!graph.is_internally_triangulated(&exterior(&graph)));
    assert_eq!(broken_at(&ring, 4), Some(Condition::Co1));

    let right = poles(&[0, 1, 4, 2, 3, 5]);
    let graph = Induced::of(&right, 4);
    assert_eq!(graph.exterior_face(), [1, 0, 4, 2]);
    assert!(graph.is_internally_triangulated(&exterior(&graph)));
    assert_eq!(first_broken(&right), None);
}

#[test]
fn connected_is_not_enough_for_co1() {
    // A path of three posts, and two triangles that share one.
    let path = with_order(d(), &[2, 0, 4, 1, 3]);
    let triangles = poles(&[0, 1, 6, 3, 4, 2, 5, 7]);
    for (board, k, shared) in [(path, 3, 0), (triangles, 5, 6)] {
        let graph = Induced::of(&board, k);
        assert!(graph.is_connected(None) && !graph.is_connected(Some(shared)));
        assert!(!graph.is_2_connected());
        assert_eq!(broken_at(&board, k), Some(Condition::Co1));
    }
}

#[test]
fn what_is_not_connected_breaks_co1() {
    let apart = poles(&[0, 1, 3, 2, 4, 5, 6, 7]);
    assert!(!Induced::of(&apart, 3).is_connected(None));
    assert_eq!(broken_at(&apart, 3), Some(Condition::Co1));

    let mut rng = Rng::new(10);
    let rings = beside(&stacked(4, &mut rng), &seven_post_torus());
    for _ in 0..100 {
        let board = order_of_pieces(&rings, 4, &mut rng);
        assert_eq!(broken_at(&board, 11), Some(Condition::Co1));
        assert!(first_broken(&board).is_some());
    }
}

/// A waiting post lies in one face of G_k, if that is connected, whichever
/// corner tells it.
#[test]
fn every_corner_around_a_waiting_post_tells_the_same_face() {
    for n in 4..=6 {
        every_board(n, &mut |board| {
            permute(&mut board.clone(), 0, &mut |board| {
                (3..n).for_each(|k| one_face_for_each_waiting_post(board, k));
            });
        });
    }
}

fn one_face_for_each_waiting_post(board: &Board, k: usize) {
    let graph = Induced::of(board, k);
    if !graph.is_connected(None) {
        return;
    }
    for &waiting in &board.order[k..] {
        let (u, v) = graph.corners_around(waiting)[0];
        assert!(graph.lies_in(waiting, &Face::new(graph.face(u, v))));
    }
}
