use super::maps::around;
use super::*;
use crate::layout::MOST;
use crate::{linear, paper};
use std::collections::HashSet;

/// The number of constructions, 1, 1, 3, 15, 105, 945 for 3 to 8 posts:
/// the product of the odd numbers up to 2n - 7.
fn odd_product(n: usize) -> usize {
    (1..=(2 * n).saturating_sub(7)).step_by(2).product()
}

/// Tutte's number of triangulations of n posts with a marked outer
/// triangle: 2 (4m + 1)! / ((m + 1)! (3m + 2)!) with m = n - 3.
const TUTTE: [(usize, usize); 6] = [(3, 1), (4, 1), (5, 3), (6, 13), (7, 68), (8, 399)];

/// The rings renamed in the order in which a walk from v1, v2 meets the
/// posts: equal for equal maps with equal outer triangles.
fn canonical_form(rings: &Rings, v1: u16, v2: u16) -> Rings {
    let mut found = vec![v1];
    let mut first = vec![v2];
    let mut form: Rings = Vec::new();
    for i in 0..rings.len() {
        let mut ring = rings[found[i] as usize].clone();
        let start = ring.iter().position(|&v| v == first[i]).unwrap();
        ring.rotate_left(start);
        for &v in &ring {
            if !found.contains(&v) {
                found.push(v);
                first.push(found[i]);
            }
        }
        let new_name = |v: &u16| found.iter().position(|w| w == v).unwrap() as u16;
        form.push(ring.iter().map(new_name).collect());
    }
    form
}

#[test]
fn the_number_of_constructions_is_the_odd_product() {
    for n in 3..=8 {
        let mut count = 0;
        every_board(n, &mut |_| count += 1);
        assert_eq!(count, odd_product(n), "n = {n}");
    }
}

#[test]
fn every_triangulation_comes_up() {
    for (n, expected) in TUTTE {
        let mut forms = HashSet::new();
        every_board(n, &mut |board| {
            forms.insert(canonical_form(&board.rings, 0, 1));
        });
        assert_eq!(forms.len(), expected, "n = {n}");
    }
}

/// Of all orders of all triangulations the paper accepts as many as there are constructions.
#[test]
fn every_canonical_order_comes_up() {
    for n in 3..=7 {
        let mut forms = HashSet::new();
        every_board(n, &mut |board| {
            forms.insert(canonical_form(&board.rings, 0, 1));
        });
        let mut accepted = 0;
        for rings in forms {
            let vn = around(&rings[1], 0).0;
            every_order(n as u16, &mut vec![0, 1], &mut |order| {
                let board = Board {
                    order: order.to_vec(),
                    rings: rings.clone(),
                };
                let is = paper::check(&board.block()).is_ok();
                assert!(!is || order[n - 1] == vn);
                accepted += usize::from(is);
            });
        }
        assert_eq!(accepted, odd_product(n), "n = {n}");
    }
}

fn every_order(n: u16, order: &mut Vec<u16>, visit: &mut dyn FnMut(&[u16])) {
    if order.len() == n as usize {
        return visit(order);
    }
    for name in 0..n {
        if !order.contains(&name) {
            order.push(name);
            every_order(n, order, visit);
            order.pop();
        }
    }
}

#[test]
fn every_kind_is_accepted_by_both_implementations() {
    let mut rng = Rng::new(1);
    for kind in KINDS {
        for n in [5, 6, 7, 8, 9, 20, 50, 200, MOST] {
            let block = random(kind, n, &mut rng).block();
            assert_eq!(paper::check(&block), Ok(n as u16), "{kind:?} {n}");
            assert_eq!(linear::check(&block), Ok(n as u16), "{kind:?} {n}");
            for stage in [3, n / 2 + 1, n] {
                let (mut plain, mut literal) = (vec![7; 2 * n], vec![7; 2 * n]);
                let reply = linear::sheet(&block, stage, &mut plain);
                assert_eq!(reply, paper::sheet(&block, stage, &mut literal));
                assert_eq!(plain, literal, "{kind:?} {n} at stage {stage}");
                if n <= 50 {
                    assert_same_records(&block, stage);
                }
            }
        }
    }
    for habit in HABITS {
        let block = constructed(300, habit, &mut rng).block();
        assert_eq!(paper::check(&block), Ok(300));
    }
}

/// Both implementations tell the same of every post.
fn assert_same_records(block: &[u8], stage: usize) {
    for (name, record) in paper::records(block, stage).unwrap().iter().enumerate() {
        assert_eq!(paper::post(block, stage, name), Ok(*record));
        assert_eq!(linear::post(block, stage, name), Ok(*record));
    }
}

/// The ends of runs are found by walking the ring, and by looking at each entry and
/// the one before it.
#[test]
fn both_implementations_tell_the_same_however_lists_are_turned() {
    every_board(5, &mut |board| {
        every_turn(board, &mut |turned| {
            (3..=5).for_each(|stage| assert_same_records(&turned.block(), stage));
        });
    });
}

#[test]
fn flips_keep_triangles_and_change_wires() {
    let mut rng = Rng::new(2);
    let before = stacked(60, &mut rng);
    let mut after = before.clone();
    flip(&mut after, 600, &mut rng);
    assert_ne!(before, after);
    assert_eq!(after.iter().map(Vec::len).sum::<usize>(), 6 * 60 - 12);
    assert_triangles(&after);
}

/// If w follows v around u, then u follows w around v.
fn assert_triangles(rings: &[Vec<u16>]) {
    for (u, ring) in rings.iter().enumerate() {
        for (i, &v) in ring.iter().enumerate() {
            let w = ring[(i + 1) % ring.len()];
            assert_eq!(around(&rings[v as usize], w).0, u as u16);
        }
    }
}

#[test]
fn tori_have_triangles_everywhere() {
    for rings in [seven_post_torus(), grid_torus(3, 3), grid_torus(4, 5)] {
        assert_triangles(&rings);
    }
}
