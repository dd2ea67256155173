//! The numbered cases E1 to E17 of docs/RULES.md, each compared and asserted as it
//! stands there, and the ends of every run of D and of a board worked out by hand.

use crate::board::{d, mend_sum, t, Board};
use crate::boards::two_poles;
use crate::compare::Tester;
use crate::layout::{self, FEWEST, MOST, N_AT};
use crate::reply::{Fit, Record, Refusal, Standing};

fn refused<T>(number: u16, place: u16) -> Result<T, Refusal> {
    Err(Refusal { number, place })
}

fn d_with_order(order: [u16; 5]) -> Board {
    Board {
        order: order.to_vec(),
        ..d()
    }
}

fn sum_of(block: &[u8]) -> u16 {
    layout::get(block, block.len() - 2)
}

/// Run all numbered cases.
pub fn run(tester: &mut Tester) {
    boards(tester);
    sheets(tester);
    refused_blocks(tester);
    refused_lists(tester);
    stages_and_rooms(tester);
    posts(tester);
    over_the_end(tester);
    ends(tester);
}

fn boards(tester: &mut Tester) {
    let (t, d) = (t().block(), d().block());
    assert_eq!((t.len(), sum_of(&t)), (33, 236));
    assert_eq!((d.len(), sum_of(&d)), (65, 285));
    assert_eq!(tester.check(&t), Ok(3));
    assert_eq!(tester.check(&d), Ok(5));
}

/// Cases 1 to 4.
fn sheets(tester: &mut Tester) {
    let (t, d) = (t().block(), d().block());
    assert_eq!(tester.sheet(&t, 3, 6), Ok(vec![0, 0, 2, 0, 1, 1]));
    assert_eq!(tester.sheet(&d, 3, 6), Ok(vec![0, 0, 2, 0, 1, 1]));
    assert_eq!(tester.sheet(&d, 4, 8), Ok(vec![0, 0, 4, 0, 2, 1, 2, 2]));
    let last = vec![0, 0, 6, 0, 3, 1, 3, 2, 3, 3];
    assert_eq!(tester.sheet(&d, 5, 10), Ok(last));
}

/// Cases 5, 9, 10 and 11.
fn refused_blocks(tester: &mut Tester) {
    let autumn = d_with_order([0, 1, 3, 2, 4]).block();
    assert_eq!(sum_of(&autumn), 285);
    assert_eq!(tester.check(&autumn), refused(13, 3));

    let mut t_237 = t().block();
    layout::put(&mut t_237, layout::sum_at(3), 237);
    assert_eq!(tester.check(&t_237), refused(6, 0));
    assert_eq!(tester.check(&t().block()[..32]), refused(5, 0));

    assert_eq!(tester.check(&[]), refused(1, 0));
    assert_eq!(tester.check(b"PGB\0\x01\0"), refused(1, 0));
    for n in [FEWEST - 1, MOST + 1] {
        let mut block = d().block();
        layout::put(&mut block, N_AT, n as u16);
        mend_sum(&mut block);
        assert_eq!(tester.check(&block), refused(4, 0));
    }

    let repeated = d_with_order([0, 1, 2, 2, 4]).block();
    assert_eq!(sum_of(&repeated), 284);
    assert_eq!(tester.check(&repeated), refused(7, 4));
}

/// D with another list of post 2; what its sum then is, and its refusal.
struct BadList {
    file: &'static [u8],
    list: [u16; 3],
    sum: u16,
    number: u16,
}

macro_rules! bad_list {
    ($name:literal, $list:expr, $sum:literal, $number:literal) => {
        BadList {
            file: include_bytes!(concat!("../../boards/", $name, ".pgb")),
            list: $list,
            sum: $sum,
            number: $number,
        }
    };
}

const BAD_LISTS: [BadList; 4] = [
    bad_list!("high", [0, 1, 7], 289, 9),
    bad_list!("itself", [0, 1, 2], 284, 18),
    bad_list!("repeated", [0, 1, 1], 283, 19),
    bad_list!("unreturned", [0, 1, 4], 286, 20),
];

/// The blocks of cases 12 to 15, as they lie in boards/.
pub fn bad_lists() -> impl Iterator<Item = &'static [u8]> {
    BAD_LISTS.iter().map(|bad| bad.file)
}

fn d_with_list(post: usize, list: &[u16]) -> Vec<u8> {
    let mut board = d();
    board.rings[post] = list.to_vec();
    board.block()
}

/// Cases 12 to 16.
fn refused_lists(tester: &mut Tester) {
    for bad in &BAD_LISTS {
        let block = d_with_list(2, &bad.list);
        assert_eq!(sum_of(&block), bad.sum);
        assert_eq!(block, bad.file);
        assert_eq!(tester.check(&block), refused(bad.number, 2));
    }
    for (list, number) in [([1, 7, 1, 4], 9), ([1, 1, 7, 4], 19)] {
        let block = d_with_list(0, &list);
        assert_eq!(sum_of(&block), 288);
        assert_eq!(tester.check(&block), refused(number, 0));
    }
}

/// Case 6.
fn stages_and_rooms(tester: &mut Tester) {
    let d = d().block();
    assert_eq!(tester.sheet(&d, 2, 10), refused(15, 0));
    assert_eq!(tester.sheet(&d, 6, 12), refused(15, 0));
    assert_eq!(tester.post(&d, 2, 0), refused(15, 0));
    assert_eq!(tester.post(&d, 6, 0), refused(15, 0));
    assert_eq!(tester.sheet(&d, 5, 9), refused(16, 0));
    assert!(tester.sheet(&d, 5, 10).is_ok());
}

fn record(
    x: u16,
    y: u16,
    standing: Standing,
    (left, right): (u16, u16),
) -> Result<Record, Refusal> {
    let fit = Fit { left, right };
    Ok(Record {
        x,
        y,
        standing,
        fit,
    })
}

/// Case 17, but for what no C function tells: the ends of board L, where a run goes
/// over the end of its list.
fn over_the_end(tester: &mut Tester) {
    let l = Board {
        order: vec![0, 1, 2, 3, 4],
        rings: vec![
            vec![1, 2, 3, 4],
            vec![4, 2, 0],
            vec![0, 1, 4, 3],
            vec![2, 4, 0],
            vec![0, 3, 2, 1],
        ],
    };
    let l = l.block();
    assert_eq!(sum_of(&l), 287);
    let on = |left, right| Standing::OnContour { left, right };
    assert_eq!(tester.post(&l, 4, 3), record(2, 2, on(0, 2), (0, 2)));
    let covered = Standing::Covered { by: 4 };
    assert_eq!(tester.post(&l, 5, 3), record(3, 2, covered, (0, 2)));
    assert_eq!(tester.post(&l, 5, 0), record(0, 0, on(0, 4), (0, 0)));
}

/// Cases 7 and 8.
fn posts(tester: &mut Tester) {
    let d = d().block();
    let between = Standing::OnContour { left: 0, right: 1 };
    assert_eq!(tester.post(&d, 3, 2), record(1, 1, between, (0, 1)));
    let covered = Standing::Covered { by: 3 };
    assert_eq!(tester.post(&d, 4, 2), record(2, 1, covered, (0, 1)));
    let waiting = record(0, 0, Standing::Waiting, (4, 4));
    assert_eq!(tester.post(&d, 4, 4), waiting);
    assert_eq!(tester.post(&d, 4, 5), refused(17, 0));
}

/// An octahedron: the runs of positions 3 to 6 are 0 1; 4 1; 0 4 2; 0 3 2 1.
pub fn octahedron() -> Board {
    Board {
        order: vec![0, 1, 4, 2, 3, 5],
        rings: two_poles(6),
    }
}

/// The ends by position at every stage: v1 and v2 have no run, and what waits tells
/// itself.
fn ends(tester: &mut Tester) {
    let of_d = [(0, 0), (1, 1), (0, 1), (0, 1), (0, 1)];
    let of_octahedron = [(0, 0), (1, 1), (0, 1), (4, 1), (0, 2), (0, 1)];
    for (board, ends) in [(d(), &of_d[..]), (octahedron(), &of_octahedron)] {
        let block = board.block();
        for stage in 3..=board.posts() {
            for (i, (&name, &ends)) in board.order.iter().zip(ends).enumerate() {
                let (left, right) = if i < stage { ends } else { (name, name) };
                let record = tester.post(&block, stage, name.into());
                assert_eq!(record.map(|record| record.fit), Ok(Fit { left, right }));
            }
        }
    }
}
