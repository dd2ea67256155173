use super::*;
use crate::board::{d, t};
use crate::boards::{random, KINDS};
use crate::damage;
use crate::rng::Rng;

fn message(text: &str) -> String {
    parse(text).unwrap_err().to_string()
}

#[test]
fn a_block_goes_to_text_and_back() {
    let mut rng = Rng::new(3);
    let mut boards = vec![t(), d()];
    boards.extend(KINDS.map(|kind| random(kind, 40, &mut rng)));
    for board in boards {
        let block = board.block();
        let shown = show(&block);
        assert!(shown.whole);
        assert_eq!(parse(&shown.text), Ok(board));
    }
}

#[test]
fn the_block_of_d_has_65_bytes_and_sum_285() {
    let block = d().block();
    assert_eq!(block.len(), 65);
    assert_eq!(block[63..], 285u16.to_be_bytes());
}

#[test]
fn a_damaged_block_is_shown_as_far_as_it_can_be_read() {
    let mut rng = Rng::new(4);
    for kind in damage::KINDS {
        for block in damage::both(kind, &d(), &mut rng) {
            let shown = show(&block);
            let back = parse(&shown.text).map(|board| board.block());
            assert_eq!(shown.whole, back.as_ref() == Ok(&block), "{}", kind.name);
            assert!(shown.text.starts_with("# "), "{}", kind.name);
        }
    }
    for length in 0..65 {
        assert!(!show(&d().block()[..length]).whole);
    }
}

#[test]
fn errors_say_what_and_where() {
    let t = "order 0 1 2\n0: 1 2\n1: 2 0\n2: 0 1\n";
    assert!(parse(t).is_ok());
    assert_eq!(message("0: 1 2\n"), "the text: there is no line `order ..`");
    assert_eq!(
        message("order 0 1 x\n"),
        "line 1: `x` is not a number from 0 to 65535"
    );
    assert_eq!(
        message("# T\norder 0 1\n"),
        format!("line 2: the order has 2 posts; a board has 3 to {MOST}")
    );
    assert_eq!(
        message(&format!("{t}order 0 1 2\n")),
        "line 5: a second order; the first is on line 1"
    );
    assert_eq!(
        message(&format!("{t}2: 0 1\n")),
        "line 5: a second list of post 2; see line 4"
    );
    assert_eq!(
        message(&format!("{t}3: 0 1\n")),
        "line 5: post 3, but the order has 3 posts: 0 to 2"
    );
    assert_eq!(
        message("order 0 1 2\n0: 1 2\n1: 2 0\n"),
        "the text: post 2 has no list"
    );
    assert_eq!(
        message("order 0 1 2\n0: 1 2\n1: 2 0\n2: 0\n"),
        "the text: the lists have 5 entries; a board of 3 posts has 6"
    );
    assert_eq!(
        message("order 0 1 2\nwires\n"),
        "line 2: `wires` is neither `order ..` nor `name: ..`"
    );
}
