//! Accepted boards whose lists begin with any entry: their runs must lie in them in
//! every way.

use crate::board::Board;
use crate::boards::{constructed, disguised, every_board, random, HABITS, KINDS};
use crate::boards::{every_turn, turned_by, with_v1_at};
use crate::fits::{Place, Ways};
use crate::layout::MOST;
use crate::rng::Rng;
use crate::trial::Trial;
use std::collections::BTreeSet;
use std::process::exit;

/// The most posts of a board that is turned in every combination of its lists, and of
/// one of which all lists are turned alike.
const EVERY_TURN: usize = 5;
const ALIKE: usize = 7;

pub fn turned_lists(trial: &mut Trial) {
    let places = small_boards(trial);
    let missing = missing(&places).map(|place| format!("no run lay at {place:?}"));
    none_left_out("small boards", &missing.collect::<Vec<_>>());
    for (name, boards) in every_sort(&mut trial.rng) {
        let mut ways = Ways::default();
        for board in &boards {
            let places = with_v1_everywhere(trial, board);
            places.iter().for_each(|place| ways.count(place));
        }
        none_left_out(&name, &ways.never());
    }
    println!(
        "  runs lay at all {} places in lists of up to {} entries, and in every way on boards of \
         every kind",
        places.len(),
        ALIKE - 1
    );
}

fn none_left_out(boards: &str, missing: &[String]) {
    if !missing.is_empty() {
        println!("outside: {boards}: {}", missing.join(", "));
        exit(1);
    }
}

/// Places of runs that did not come up, of those that the small boards have.
fn missing(places: &BTreeSet<Place>) -> impl Iterator<Item = Place> + '_ {
    let all = (2..ALIKE).flat_map(Place::all);
    all.filter(|place| !places.contains(place))
}

/// Where runs lie in the lists of all small boards, which are turned.
fn small_boards(trial: &mut Trial) -> BTreeSet<Place> {
    let mut places = BTreeSet::new();
    for n in 3..=ALIKE {
        every_board(n, &mut |board| {
            let board = disguised(board, &mut trial.rng);
            let mut visit = |turned: &Board| places.extend(fits(trial, turned));
            if n <= EVERY_TURN {
                every_turn(&board, &mut visit);
            } else {
                // a list has at most n - 1 entries, so each begins with each of its own
                (0..n - 1).for_each(|by| visit(&turned_by(&board, by)));
            }
        });
    }
    places
}

/// The board is accepted, however its lists are turned: where its runs lie in them.
fn fits(trial: &mut Trial, board: &Board) -> Vec<Place> {
    trial.tester.tally.turned += 1;
    trial.accepted(board);
    trial.fits(board)
}

/// Where the runs lie with v1 first, last and between in the list of vn. All other
/// lists begin by lot.
fn with_v1_everywhere(trial: &mut Trial, board: &Board) -> Vec<Place> {
    let last = board.order[board.posts() - 1];
    let entries = board.rings[last as usize].len();
    let between = trial.rng.between(1, entries - 2);
    let mut places = Vec::new();
    for place in [0, entries - 1, between] {
        let turned = with_v1_at(&disguised(board, &mut trial.rng), place);
        places.extend(fits(trial, &turned));
    }
    places
}

const SIZES: [usize; 5] = [9, 16, 40, 256, MOST];

/// Every kind by chance and every habit of construction.
fn every_sort(rng: &mut Rng) -> Vec<(String, Vec<Board>)> {
    let mut sorts = Vec::new();
    for kind in KINDS {
        let boards = SIZES.map(|n| random(kind, n, rng)).to_vec();
        sorts.push((format!("boards {kind:?}"), boards));
    }
    for habit in HABITS {
        let boards = SIZES.map(|n| constructed(n, habit, rng)).to_vec();
        sorts.push((format!("boards constructed {habit:?}"), boards));
    }
    sorts
}

#[cfg(test)]
mod tests {
    use super::*;

    /// 2 places in lists of two entries, and d (d - 1) in those of d.
    #[test]
    fn a_place_that_never_came_is_found() {
        let all: BTreeSet<Place> = missing(&BTreeSet::new()).collect();
        assert_eq!(all.len(), 2 + 6 + 12 + 20 + 30);
        assert_eq!(missing(&all).next(), None);
        for place in &all {
            let mut others = all.clone();
            others.remove(place);
            assert_eq!(missing(&others).collect::<Vec<_>>(), [*place]);
        }
    }
}
