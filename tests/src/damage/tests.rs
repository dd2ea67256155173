use super::*;
use crate::boards::{random, Kind};
use crate::refusals::{Service::Check, NUMBERS};
use crate::{linear, paper};
use std::collections::HashSet;

#[test]
fn the_kinds_reach_every_refusal_of_a_block() {
    let mut rng = Rng::new(5);
    let mut reached = HashSet::new();
    for round in 0..40 {
        let board = random(Kind::Flipped, 5 + round, &mut rng);
        for kind in KINDS {
            for block in both(kind, &board, &mut rng) {
                let reply = paper::check(&block);
                assert_eq!(reply, linear::check(&block), "{}", kind.name);
                reached.insert(reply.err().map(|refusal| refusal.number));
            }
        }
    }
    for (number, ..) in NUMBERS.iter().filter(|line| line.1.contains(&Check)) {
        assert!(reached.contains(&Some(*number)), "{number}");
    }
}

/// The order aimed at 14 passes steps 1 to 11 and is refused at a position.
#[test]
fn a_post_without_later_neighbour_is_refused_by_12_or_13() {
    let mut rng = Rng::new(8);
    for round in 0..200 {
        let mut board = random(Kind::Flipped, 6 + round / 4, &mut rng);
        let Some(order) = without_later_neighbour(&board, &mut rng) else {
            continue;
        };
        let n = order.len();
        let moved = (0..n - 1).filter(|&i| {
            let ring = &board.rings[order[i] as usize];
            order[i + 1..].iter().all(|later| !ring.contains(later))
        });
        assert_eq!(moved.count(), 1);
        board.order = order;
        let refusal = paper::check(&board.block()).unwrap_err();
        assert!((12..=13).contains(&refusal.number), "{refusal:?}");
    }
}

#[test]
fn every_kind_changes_the_block_and_names_differ() {
    let mut rng = Rng::new(6);
    let names: HashSet<_> = KINDS.iter().map(|kind| kind.name).collect();
    assert_eq!(names.len(), KINDS.len());
    let board = random(Kind::Flipped, 12, &mut rng);
    let right = board.block();
    for kind in KINDS {
        let changed = (0..50).any(|_| both(kind, &board, &mut rng)[0] != right);
        assert!(changed, "{}", kind.name);
    }
}

#[test]
fn a_board_in_pieces_passes_steps_1_to_11_and_the_order_refuses_it() {
    let mut rng = Rng::new(7);
    for (rings, plane_posts) in pieces(&mut rng) {
        for _ in 0..100 {
            let board = order_of_pieces(&rings, plane_posts, &mut rng);
            let refusal = paper::check(&board.block()).unwrap_err();
            assert!((12..=13).contains(&refusal.number), "{refusal:?}");
        }
    }
}
