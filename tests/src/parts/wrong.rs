//! Blocks that are damaged, in pieces, by chance or far too long.

use crate::board::{d, mend_sum, t, Board};
use crate::boards::{self, permute, random, Kind, KINDS};
use crate::compare::fails;
use crate::contours::{broken_at, Condition};
use crate::damage;
use crate::layout::{self, MOST, N_AT};
use crate::trial::Trial;

pub fn every_byte_changed(trial: &mut Trial) {
    for board in [t(), d()] {
        let right = board.block();
        for at in 0..right.len() {
            for byte in 0..=255 {
                let mut block = right.clone();
                block[at] = byte;
                let _ = trial.tester.check(&block);
                mend_sum(&mut block);
                let _ = trial.tester.check(&block);
            }
        }
        for length in 0..right.len() {
            trial.everything(&right[..length], board.posts());
        }
    }
}

pub fn damaged_blocks(trial: &mut Trial) {
    let mut boards = vec![t(), d()];
    for kind in KINDS {
        for n in [5, 6, 7, 9, 12, 16, 23, 40] {
            boards.push(random(kind, n, &mut trial.rng));
        }
    }
    for board in &boards {
        for _ in 0..3 {
            damage_each_way(trial, board, 2);
        }
    }
    for kind in [Kind::Flipped, Kind::Hubs, Kind::Nested] {
        let board = random(kind, MOST, &mut trial.rng);
        damage_each_way(trial, &board, 1);
    }
    println!(
        "  {} kinds of damage, each with its sum as it was and mended",
        damage::KINDS.len()
    );
}

fn damage_each_way(trial: &mut Trial, board: &Board, times: usize) {
    for kind in damage::KINDS {
        let [damaged, mended] = damage::both(kind, board, &mut trial.rng);
        trial.something(&damaged, board.posts(), times);
        trial.something(&mended, board.posts(), times);
        if board.posts() <= 60 {
            trial.conditions_of_block(&mended);
        }
    }
}

pub fn boards_in_pieces(trial: &mut Trial) {
    let pieces = damage::pieces(&mut trial.rng);
    for (rings, plane_posts) in &pieces {
        for _ in 0..500 {
            let mut board = damage::order_of_pieces(rings, *plane_posts, &mut trial.rng);
            let disguised = boards::disguised(&board, &mut trial.rng);
            in_pieces_refused(trial, &disguised);
            trial.something(&disguised.block(), board.posts(), 1);
            // Any order at all, also with v1, v2, vn on a torus.
            trial.rng.shuffle(&mut board.order);
            in_pieces_refused(trial, &board);
            trial.something(&board.block(), board.posts(), 1);
        }
    }
    outer_triangle_on_the_torus(trial);
}

/// A board in pieces is refused, and its last stage, which isn't connected,
/// breaks co1.
fn in_pieces_refused(trial: &mut Trial, board: &Board) {
    let block = board.block();
    let reply = trial.tester.check(&block);
    if reply.is_ok() {
        fails("a board in pieces: it is accepted", &block);
    }
    trial.tester.conditions(board, reply);
    if broken_at(board, board.posts()) != Some(Condition::Co1) {
        fails("a board in pieces: its last stage keeps co1", &block);
    }
}

/// The seven-post torus beside T, every order of it with T's posts last but one.
fn outer_triangle_on_the_torus(trial: &mut Trial) {
    let torus = boards::seven_post_torus();
    let triangle = t().rings;
    let rings = boards::beside(&torus, &triangle);
    let mut seven = Board {
        order: (0..7).collect(),
        rings: torus,
    };
    permute(&mut seven, 0, &mut |seven| {
        let mut order = seven.order.clone();
        order.splice(6..6, [7, 8, 9]);
        let rings = rings.clone();
        in_pieces_refused(trial, &Board { order, rings });
    });
}

pub fn chance_bytes(trial: &mut Trial) {
    let start = layout::header(5);
    let longer_than_any = layout::length(MOST) * 5 / 4;
    for round in 0..3000 {
        let most = if round % 10 == 0 {
            longer_than_any
        } else {
            200
        };
        let length = trial.rng.below(most);
        let mut block: Vec<u8> = (0..length).map(|_| trial.rng.draw() as u8).collect();
        if trial.rng.chance(70) {
            put_start(&mut block, &start[..N_AT]);
        }
        if trial.rng.chance(50) {
            put_start(&mut block, &start);
        }
        trial.something(&block, 5, 1);
        mend_sum(&mut block);
        trial.something(&block, 5, 1);
    }
}

fn put_start(block: &mut [u8], start: &[u8]) {
    if block.len() >= start.len() {
        block[..start.len()].copy_from_slice(start);
    }
}

/// Lengths that look right in 16 bits.
pub fn long_slices(trial: &mut Trial) {
    for board in [t(), d()] {
        let mut block = board.block();
        for room in [65535, 65536, 65536 + 2 * board.posts() - 1, 1 << 17] {
            for stage in 3..=board.posts() {
                let _ = trial.tester.sheet(&block, stage, room);
            }
        }
        for more in [65536, 1 << 20] {
            block.resize(board.block().len() + more, 0);
            trial.something(&block, board.posts(), 10);
            mend_sum(&mut block);
            trial.something(&block, board.posts(), 10);
        }
    }
}
