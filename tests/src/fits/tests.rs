//! Ends read in wrong ways, each of which must be found out on the boards that are tried.

use super::*;
use crate::boards::{every_board, every_turn, random, turned_by, KINDS};
use crate::cases::octahedron;
use crate::paper;
use crate::rng::Rng;

/// The sheet of a stage as the paper has it.
fn sheet(block: &[u8], stage: usize) -> Vec<u16> {
    let mut sheet = vec![0; 2 * stage];
    paper::sheet(block, stage, &mut sheet).unwrap();
    sheet
}

/// Tell the ends of all posts at all stages, each changed by `told`: the first fault.
fn fault(board: &Board, told: impl Fn(&Fits, usize, u16, Fit) -> Fit) -> Option<String> {
    let block = board.block();
    let mut fits = Fits::new(board);
    for stage in 3..=board.posts() {
        let sheet = sheet(&block, stage);
        for (name, record) in (0..).zip(paper::records(&block, stage).unwrap()) {
            let fit = told(&fits, stage, name, record.fit);
            if let Err(fault) = fits.tell(&sheet, name, fit) {
                return Some(fault);
            }
        }
    }
    None
}

#[test]
fn the_papers_ends_are_right_on_every_kind_of_board() {
    let right = |_: &Fits, _, _, fit| fit;
    for n in 3..=7 {
        every_board(n, &mut |board| assert_eq!(fault(board, right), None));
    }
    for kind in KINDS {
        let board = random(kind, 30, &mut Rng::new(14));
        assert_eq!(fault(&board, right), None, "{kind:?}");
    }
}

/// The ends by a rule, for a post with a run at a stage.
type Reading = fn(&Fits, usize, u16, Fit) -> (u16, u16);

fn ring<'a>(fits: &Fits<'a>, name: u16) -> &'a [u16] {
    &fits.board.rings[name as usize]
}

fn last(fits: &Fits) -> u16 {
    *fits.board.order.last().unwrap()
}

const WRONG: [(&str, Reading); 9] = [
    ("in each other's place", |_, _, _, fit| {
        (fit.right, fit.left)
    }),
    ("a list read as a line", |fits, _, name, _| {
        let earlier = fits.earlier(name);
        (earlier[0], earlier[earlier.len() - 1])
    }),
    (
        "vn's ring from its list's first entry on",
        |fits, _, name, fit| {
            let list = ring(fits, name);
            if name == last(fits) {
                (list[0], list[list.len() - 1])
            } else {
                (fit.left, fit.right)
            }
        },
    ),
    ("those fitted first and last", |fits, _, name, _| {
        let mut earlier = fits.earlier(name);
        earlier.sort_by_key(|&w| fits.positions[w as usize]);
        (earlier[0], earlier[earlier.len() - 1])
    }),
    ("one farther in on the left", |fits, _, name, fit| {
        let list = ring(fits, name);
        let i = list.iter().position(|&v| v == fit.left).unwrap();
        (list[(i + 1) % list.len()], fit.right)
    }),
    ("one farther out on the right", |fits, _, name, fit| {
        let list = ring(fits, name);
        let i = list.iter().position(|&v| v == fit.right).unwrap();
        (fit.left, list[(i + 1) % list.len()])
    }),
    ("always the bottom wire", |fits, _, _, _| {
        (fits.board.order[0], fits.board.order[1])
    }),
    ("positions and not names", |fits, _, _, fit| {
        let position = |name: u16| fits.positions[name as usize] as u16 + 1;
        (position(fit.left), position(fit.right))
    }),
    (
        "all neighbours that are placed by now",
        |fits, stage, name, fit| {
            let placed = |v: &&u16| fits.positions[**v as usize] < stage;
            let placed: Vec<u16> = ring(fits, name).iter().filter(placed).copied().collect();
            (fit.left, placed[placed.len() - 1])
        },
    ),
];

#[test]
fn ends_read_in_a_wrong_way_are_found() {
    for (name, reading) in WRONG {
        let told = |fits: &Fits, stage: usize, post: u16, fit: Fit| {
            if !(2..stage).contains(&fits.positions[post as usize]) {
                return fit;
            }
            let (left, right) = reading(fits, stage, post, fit);
            Fit { left, right }
        };
        let found = (0..5).any(|by| fault(&turned_by(&octahedron(), by), told).is_some());
        assert!(found, "{name}");
    }
}

/// A post without a run tells itself, and not nobody or what will be.
#[test]
fn a_post_without_a_run_tells_itself() {
    let board = octahedron();
    for name in board.order.iter().copied() {
        let other = |_: &Fits, stage: usize, post: u16, fit: Fit| {
            let waits = stage == 3 && post == name && fit.left == fit.right;
            Fit {
                left: if waits { (name + 1) % 6 } else { fit.left },
                ..fit
            }
        };
        // the third post has its run at stage 3
        assert_eq!(fault(&board, other).is_some(), name != board.order[2]);
    }
}

#[test]
fn ends_that_change_are_found() {
    for stage in 4..=6 {
        let changed = |_: &Fits, now: usize, post: u16, fit: Fit| {
            let (left, right) = (fit.right, fit.left);
            if now == stage && post == 4 {
                Fit { left, right }
            } else {
                fit
            }
        };
        let told = fault(&octahedron(), changed).unwrap();
        assert!(told.starts_with("at an earlier stage"), "{told}");
    }
}

/// The ends are the same wherever lists begin.
#[test]
fn turned_lists_change_no_end() {
    let fits = |board: &Board| paper::fit_text(&board.block());
    every_turn(&crate::board::d(), &mut |turned| {
        assert_eq!(fits(turned), fits(&crate::board::d()));
    });
    let by = |by| fits(&turned_by(&octahedron(), by));
    (1..5).for_each(|turn| assert_eq!(by(turn), by(0)));
}

#[test]
fn what_is_printed_is_tested_line_by_line() {
    let board = octahedron();
    let right = paper::fit_text(&board.block()).unwrap();
    assert_eq!(test_lines(&board, &right), Ok(4));
    for (old, new) in [
        ("between 4 1", "between 1 4"),
        ("between 0 2", "between 0 4"),
        ("between 0 1 4 4", "between 0 2 4 4"),
        ("between 0 1 3 1", "between 0 1 0 1"),
        ("5 3 between", "5 2 between"),
        ("5 3 between", "4 3 between"),
        ("5 3 between", "5 3 within"),
        ("6 5 between 0 1 4 4\n", ""),
    ] {
        assert!(right.contains(old));
        assert!(
            test_lines(&board, &right.replace(old, new)).is_err(),
            "{new}"
        );
    }
}
