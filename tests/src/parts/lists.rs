//! Lists damaged on purpose, on boards of every kind: each refusal by an entry
//! must come up on each.

use crate::board::Board;
use crate::boards::{constructed, disguised, every_board, random, HABITS, KINDS};
use crate::compare::fails;
use crate::damage::{self, Plan};
use crate::layout::MOST;
use crate::refusals::BY_ENTRY;
use crate::reply::Refusal;
use crate::rng::Rng;
use crate::trial::Trial;
use std::collections::HashSet;
use std::process::exit;

/// Boards of one kind, and the damage for which one of them at least must have a place.
struct Sort {
    name: String,
    boards: Vec<Board>,
    plans: Vec<Plan>,
}

pub fn damaged_lists(trial: &mut Trial) {
    let plans = Plan::all();
    for sort in every_sort(&mut trial.rng) {
        let mut seen = Seen::default();
        for board in &sort.boards {
            for &plan in &plans {
                if let Some((bad, told)) = plan.made(board, &mut trial.rng) {
                    let number = refused(trial, &bad, plan, told);
                    seen.count(plan, number);
                }
            }
        }
        let missing = seen.missing(&sort.plans);
        if !missing.is_empty() {
            println!("outside: {}: never came {}", sort.name, missing.join(", "));
            exit(1);
        }
    }
    println!(
        "  {} kinds of damage with a refusal that is known beforehand; {BY_ENTRY:?} came up on \
         boards of every kind",
        plans.len()
    );
}

/// All services refuse the board as was foretold: the number that came.
fn refused(trial: &mut Trial, board: &Board, plan: Plan, told: Refusal) -> u16 {
    let block = board.block();
    match trial.tester.check(&block) {
        Err(refusal) if refusal == told => {
            trial.something(&block, board.posts(), 1);
            refusal.number
        }
        other => fails(
            &format!("{plan:?}: {told:?} was made, the reply is {other:?}"),
            &block,
        ),
    }
}

/// What came up on the boards of one kind.
#[derive(Default)]
struct Seen {
    plans: HashSet<Plan>,
    numbers: HashSet<u16>,
}

impl Seen {
    fn count(&mut self, plan: Plan, number: u16) {
        self.plans.insert(plan);
        self.numbers.insert(number);
    }

    /// What of the refusals by an entry, and of these plans, did not.
    fn missing(&self, plans: &[Plan]) -> Vec<String> {
        let numbers = BY_ENTRY
            .iter()
            .filter(|&number| !self.numbers.contains(number));
        let plans = plans.iter().filter(|&plan| !self.plans.contains(plan));
        let numbers = numbers.map(|number| number.to_string());
        numbers
            .chain(plans.map(|plan| format!("{plan:?}")))
            .collect()
    }
}

const SIZES: [usize; 9] = [5, 6, 7, 9, 12, 16, 23, 40, MOST];

/// Every kind by chance, every habit of construction, boards in pieces, and all small boards.
fn every_sort(rng: &mut Rng) -> Vec<Sort> {
    let plans = Plan::all();
    let mut sorts = Vec::new();
    let mut add = |name: String, boards: Vec<Board>, plans: &[Plan]| {
        let plans = plans.to_vec();
        sorts.push(Sort {
            name,
            boards,
            plans,
        })
    };
    for kind in KINDS {
        let boards = SIZES.map(|n| random(kind, n, rng)).to_vec();
        add(format!("boards {kind:?}"), boards, &plans);
    }
    for habit in HABITS {
        let boards = SIZES.map(|n| constructed(n, habit, rng)).to_vec();
        add(format!("boards constructed {habit:?}"), boards, &plans);
    }
    for (rings, plane_posts) in damage::pieces(rng) {
        let board = damage::order_of_pieces(&rings, plane_posts, rng);
        let boards = (0..5).map(|_| disguised(&board, rng)).collect();
        add(format!("boards in pieces, {}", rings.len()), boards, &plans);
    }
    for n in 3..=6 {
        let mut boards = Vec::new();
        every_board(n, &mut |board| boards.push(disguised(board, rng)));
        add(format!("all boards of {n} posts"), boards, &[]);
    }
    sorts
}

#[cfg(test)]
mod tests {
    use super::*;

    /// Everything, but for what is left out.
    fn seen(without: impl Fn(Plan, u16) -> bool) -> Seen {
        let mut seen = Seen::default();
        for plan in Plan::all() {
            for number in BY_ENTRY
                .into_iter()
                .filter(|&number| !without(plan, number))
            {
                seen.count(plan, number);
            }
        }
        seen
    }

    #[test]
    fn a_number_or_a_plan_that_never_came_is_found() {
        let plans = Plan::all();
        assert_eq!(seen(|_, _| false).missing(&plans), [""; 0]);
        for number in BY_ENTRY {
            let missing = seen(|_, other| other == number).missing(&plans);
            assert_eq!(missing, [number.to_string()]);
        }
        for &plan in &plans {
            let without = seen(|other, _| other == plan);
            assert_eq!(without.missing(&plans), [format!("{plan:?}")]);
            assert_eq!(without.missing(&[]), [""; 0]);
        }
        assert_eq!(Seen::default().missing(&[]), ["9", "18", "19", "20"]);
    }

    /// Each number and plan is made on every sort of boards.
    #[test]
    fn every_sort_of_boards_has_a_place_for_what_it_must() {
        let mut rng = Rng::new(12);
        for sort in every_sort(&mut rng) {
            let mut seen = Seen::default();
            for board in sort.boards.iter().filter(|board| board.posts() < MOST) {
                for plan in Plan::all() {
                    if let Some((_, told)) = plan.made(board, &mut rng) {
                        seen.count(plan, told.number);
                    }
                }
            }
            assert_eq!(seen.missing(&sort.plans), [""; 0], "{}", sort.name);
        }
    }
}
