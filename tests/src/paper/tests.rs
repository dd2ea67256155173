//! Lists of board D changed by hand, for both implementations.

use crate::board::d;
use crate::reply::Refusal;
use crate::{linear, paper};

/// Changed lists of D, and the refusal by the entry that is bad first.
type Case = (&'static [(usize, &'static [u16])], u16, u16);

const CASES: [Case; 22] = [
    // D's lists are 0: 1 2 3 4; 1: 4 3 2 0; 2: 0 1 3; 3: 0 2 1 4; 4: 0 3 1. One bad entry
    (&[(2, &[0, 1, 5])], 9, 2),
    (&[(2, &[0, 1, 65535])], 9, 2),
    (&[(2, &[0, 1, 2])], 18, 2),
    (&[(2, &[0, 1, 0])], 19, 2),
    (&[(2, &[0, 1, 4])], 20, 2),
    // in the first entry and in the last
    (&[(0, &[5, 2, 3, 4])], 9, 0),
    (&[(0, &[0, 2, 3, 4])], 18, 0),
    (&[(0, &[1, 2, 3, 1])], 19, 0),
    // the first of two equal entries is right: what stands between them is told
    (&[(0, &[1, 0, 3, 1])], 18, 0),
    (&[(0, &[1, 5, 3, 1])], 9, 0),
    (&[(0, &[2, 2, 3, 0])], 19, 0),
    (&[(0, &[2, 2, 5, 0])], 19, 0),
    // two bad entries in one list, both ways round
    (&[(0, &[0, 5, 3, 4])], 18, 0),
    (&[(0, &[5, 0, 3, 4])], 9, 0),
    // a bad entry two times: the second is a repeat besides
    (&[(0, &[0, 0, 3, 4])], 18, 0),
    (&[(0, &[5, 5, 3, 4])], 9, 0),
    // 4 has lost 0, which has it first, or after another bad entry
    (&[(0, &[4, 1, 2, 3]), (4, &[3, 1, 5])], 20, 0),
    (&[(0, &[4, 0, 2, 3]), (4, &[3, 1, 5])], 20, 0),
    (&[(0, &[0, 4, 2, 3]), (4, &[3, 1, 5])], 18, 0),
    (&[(0, &[4, 4, 2, 3]), (4, &[3, 1, 5])], 20, 0),
    // two lists: the lower name is told, whatever the higher one has
    (&[(2, &[0, 1, 4]), (3, &[0, 3, 1, 4])], 20, 2),
    (&[(1, &[1, 3, 2, 0]), (3, &[0, 2, 1, 5])], 18, 1),
];

#[test]
fn the_first_bad_entry_of_the_lowest_bad_list_is_told() {
    for (lists, number, place) in CASES {
        let mut board = d();
        for &(name, list) in lists {
            board.rings[name] = list.to_vec();
        }
        let told = Err(Refusal { number, place });
        assert_eq!(paper::check(&board.block()), told, "{lists:?}");
        assert_eq!(linear::check(&board.block()), told, "{lists:?}");
    }
}
