//! Boards whose lists begin with another entry: they say what they said before.

use crate::board::Board;

/// Visit the board with its lists begun at every entry, in every combination.
pub fn every_turn(board: &Board, visit: &mut dyn FnMut(&Board)) {
    turn_from(0, &mut board.clone(), visit);
}

fn turn_from(name: usize, board: &mut Board, visit: &mut dyn FnMut(&Board)) {
    if name == board.posts() {
        return visit(board);
    }
    for _ in 0..board.rings[name].len() {
        turn_from(name + 1, board, visit);
        board.rings[name].rotate_left(1);
    }
}

/// The board with every list begun so many entries farther on.
pub fn turned_by(board: &Board, by: usize) -> Board {
    let mut turned = board.clone();
    for ring in &mut turned.rings {
        let start = by % ring.len();
        ring.rotate_left(start);
    }
    turned
}

/// The board with v1 at this place in the list of vn, counted from 0.
pub fn with_v1_at(board: &Board, place: usize) -> Board {
    let mut turned = board.clone();
    let (v1, vn) = (board.order[0], board.order[board.posts() - 1]);
    let list = &mut turned.rings[vn as usize];
    let now = list
        .iter()
        .position(|&v| v == v1)
        .expect("vn is wired to v1");
    list.rotate_left(now);
    list.rotate_right(place);
    turned
}

#[cfg(test)]
mod tests {
    use super::*;
    use crate::board::{d, t};
    use std::collections::HashSet;

    #[test]
    fn every_turn_comes_once() {
        for (board, turns) in [(t(), 2 * 2 * 2), (d(), 4 * 4 * 3 * 4 * 3)] {
            let mut seen = HashSet::new();
            every_turn(&board, &mut |turned| {
                assert_eq!(turned.order, board.order);
                assert!(seen.insert(turned.rings.clone()));
            });
            assert_eq!(seen.len(), turns);
        }
    }

    #[test]
    fn lists_begin_where_they_should() {
        let turned = turned_by(&d(), 3);
        assert_eq!(turned.rings[0], [4, 1, 2, 3]);
        assert_eq!(turned.rings[2], d().rings[2]);
        for place in 0..3 {
            let turned = with_v1_at(&d(), place);
            assert_eq!(turned.rings[4][place], 0);
            assert_eq!(turned.rings[..4], d().rings[..4]);
        }
    }
}
