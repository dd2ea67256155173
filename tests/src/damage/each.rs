//! One block for each refusal that a block alone can get.

use crate::board::{d, mend_sum, t, Board};
use crate::boards::two_poles;
use crate::layout::{self, MOST, N_AT, VERSION_AT};

/// The number of each refusal that check can give, with a block that gets it.
pub fn one_for_each() -> Vec<(u16, Vec<u8>)> {
    let d_with = |at: usize, number: u16| {
        let mut block = d().block();
        layout::put(&mut block, at, number);
        mend_sum(&mut block);
        block
    };
    let d_in_order = |order: [u16; 5]| {
        let order = order.to_vec();
        Board { order, ..d() }.block()
    };
    let (right, mut sum_off, mut list_turned) = (d().block(), t().block(), d());
    layout::put(&mut sum_off, layout::sum_at(3), 237);
    list_turned.rings[0].reverse();
    // a third post with one earlier neighbour
    let octahedron = Board {
        order: vec![0, 1, 2, 4, 3, 5],
        rings: two_poles(6),
    };
    vec![
        (1, right[..layout::HEADER - 1].to_vec()),
        (2, d_with(1, 0)),
        (3, d_with(VERSION_AT, 2)),
        (4, d_with(N_AT, MOST as u16 + 1)),
        (5, right[..right.len() - 1].to_vec()),
        (6, sum_off),
        (7, d_in_order([0, 1, 2, 2, 4])),
        (8, d_with(layout::degree_at(5, 0), 1)),
        (9, d_with(layout::entry_at(5, 0), 5)),
        (10, list_turned.block()),
        (11, d_in_order([1, 0, 2, 3, 4])),
        (12, octahedron.block()),
        (13, d_in_order([0, 1, 3, 2, 4])),
        (18, d_with(layout::entry_at(5, 0), 0)),
        (19, d_with(layout::entry_at(5, 0), 2)),
        // post 2 with 0 1 4 as its list: 4 has 0 3 1
        (20, d_with(layout::entry_at(5, 10), 4)),
    ]
}

#[cfg(test)]
mod tests {
    use super::*;
    use crate::paper;
    use crate::refusals::{Service, NUMBERS};

    #[test]
    fn each_number_of_check_has_its_block() {
        let blocks = one_for_each();
        let of_check = NUMBERS
            .iter()
            .filter(|line| line.1.contains(&Service::Check));
        let numbers: Vec<u16> = of_check.map(|line| line.0).collect();
        let given: Vec<u16> = blocks.iter().map(|block| block.0).collect();
        assert_eq!(given, numbers);
        for (number, block) in blocks {
            assert_eq!(paper::check(&block).unwrap_err().number, number);
        }
    }
}
