//! What the programs `sheet`, `stage`, `fit` and `why` print.

use super::{accepted, check, number_at, stage_allowed, Board, Drawing};
use crate::reply::{Fit, Refusal};
use crate::words::Words;

/// The text of a block's stage: of the one asked for, or of the last.
pub fn sheet_text(block: &[u8], stage: Option<u128>) -> Result<String, Refusal> {
    let board = accepted(block)?;
    let stage = match stage {
        None => board.n,
        // a stage too large for this machine's numbers is above any n, as the largest of them is
        Some(stage) => stage.try_into().unwrap_or(usize::MAX),
    };
    stage_allowed(&board, stage)?;
    Ok(text(&board, stage))
}

/// The word, n and the stage; then of each position up to it: position, name, x, y.
fn text(board: &Board, stage: usize) -> String {
    let drawing = Drawing::at_stage(board, stage);
    let mut text = format!("sheet {} {stage}\n", board.n);
    for position in 1..=stage {
        let name = board.v(position);
        let (x, y) = drawing.point(name);
        text += &format!("{position} {name} {x} {y}\n");
    }
    text
}

/// The text of `fit`: of each position from 3 on its name, the word, the ends of
/// its run, and x and y at the last stage.
pub fn fit_text(block: &[u8]) -> Result<String, Refusal> {
    let board = accepted(block)?;
    let drawing = Drawing::at_stage(&board, board.n);
    let mut text = String::new();
    for position in 3..=board.n {
        let name = board.v(position);
        let Fit { left, right } = board.fit(name, board.n);
        let (x, y) = drawing.point(name);
        text += &format!("{position} {name} between {left} {right} {x} {y}\n");
    }
    Ok(text)
}

/// The line of a refusal: the word, number, place.
pub fn refused_text(refusal: Refusal) -> String {
    format!("refused {} {}\n", refusal.number, refusal.place)
}

/// The line of `why`: an accepted block's n and how far its sheet goes, or a refusal
/// and what it means.
pub fn why_text(block: &[u8]) -> String {
    match check(block) {
        Ok(n) => {
            let (x, y) = (2 * n - 4, n - 2);
            format!(
                "accepted {n}: the board has {n} posts, and on its sheet x goes from 0 to {x} and \
                 y from 0 to {y}\n"
            )
        }
        Err(refusal) => {
            // a block that is too short for an n gets words that tell none
            let n = if block.len() < 7 {
                0
            } else {
                number_at(block, 5)
            };
            let Refusal { number, place } = refusal;
            let words = Words::of_readme().of(refusal, n as u16);
            format!("refused {number} {place}: {words}\n")
        }
    }
}

/// The line of a word that says no number.
pub fn usage_text() -> String {
    "usage: stage K < block, with K the stage, from 3 to the number of posts\n".into()
}

/// The most characters that a word for a stage has.
const LONGEST_WORD: usize = 32;

/// The number that a word says: one decimal digit or more, and nothing else.
pub fn number(word: &[u8]) -> Option<u128> {
    if word.is_empty() || word.len() > LONGEST_WORD {
        return None;
    }
    let mut number = 0;
    for character in word {
        let digit = b"0123456789".iter().position(|digit| digit == character)?;
        number = 10 * number + digit as u128;
    }
    Some(number)
}

#[cfg(test)]
mod tests {
    use super::*;
    use crate::board::{d, mend_sum, t, Board};
    use crate::boards::{random, KINDS};
    use crate::cases::octahedron;
    use crate::layout;
    use crate::rng::Rng;

    fn refused(number: u16, place: u16) -> Result<String, Refusal> {
        Err(Refusal { number, place })
    }

    /// As the paper prints it.
    #[test]
    fn the_sheet_of_d() {
        let last = "sheet 5 5\n1 0 0 0\n2 1 6 0\n3 2 3 1\n4 3 3 2\n5 4 3 3\n";
        assert_eq!(sheet_text(&d().block(), None), Ok(last.into()));
        assert_eq!(sheet_text(&d().block(), Some(5)), Ok(last.into()));
    }

    /// The paper's cases 1 to 3, in the form of the sheet.
    #[test]
    fn earlier_stages_of_t_and_d() {
        let three = "1 0 0 0\n2 1 2 0\n3 2 1 1\n";
        let of_t = sheet_text(&t().block(), None);
        assert_eq!(of_t, Ok(format!("sheet 3 3\n{three}")));
        let of_d = sheet_text(&d().block(), Some(3));
        assert_eq!(of_d, Ok(format!("sheet 5 3\n{three}")));
        let four = "sheet 5 4\n1 0 0 0\n2 1 4 0\n3 2 2 1\n4 3 2 2\n";
        assert_eq!(sheet_text(&d().block(), Some(4)), Ok(four.into()));
    }

    /// Lines go by position; the name stands beside it.
    #[test]
    fn names_are_not_positions() {
        let order = vec![2, 0, 1];
        let block = Board { order, ..t() }.block();
        let lines = "sheet 3 3\n1 2 0 0\n2 0 2 0\n3 1 1 1\n";
        assert_eq!(sheet_text(&block, None), Ok(lines.into()));
    }

    /// Worked out by hand: each post of D goes over the whole contour, and T has
    /// one run alone, which is v3's whole ring.
    #[test]
    fn the_fits_of_d_and_t() {
        let of_d = "3 2 between 0 1 3 1\n4 3 between 0 1 3 2\n5 4 between 0 1 3 3\n";
        assert_eq!(fit_text(&d().block()), Ok(of_d.into()));
        assert_eq!(fit_text(&t().block()), Ok("3 2 between 0 1 1 1\n".into()));
        let order = vec![2, 0, 1];
        let turned = Board { order, ..t() }.block();
        assert_eq!(fit_text(&turned), Ok("3 1 between 2 0 1 1\n".into()));
        assert_eq!(fit_text(b""), refused(1, 0));
    }

    /// Worked out by hand, stage by stage.
    #[test]
    fn the_fits_of_an_octahedron() {
        let lines = [
            "3 4 between 0 1 3 1",
            "4 2 between 4 1 5 2",
            "5 3 between 0 2 4 3",
            "6 5 between 0 1 4 4",
        ];
        let text = lines.map(|line| format!("{line}\n")).concat();
        assert_eq!(fit_text(&octahedron().block()), Ok(text));
    }

    #[test]
    fn no_such_stage_comes_after_all_that_is_wrong_with_the_block() {
        for stage in [0, 2, 6, 65539, (1 << 32) + 3, (1 << 64) + 3] {
            assert_eq!(sheet_text(&d().block(), Some(stage)), refused(15, 0));
            assert_eq!(sheet_text(b"PGB", Some(stage)), refused(1, 0));
        }
        let order = vec![0, 1, 3, 2, 4];
        let autumn = Board { order, ..d() }.block();
        assert_eq!(sheet_text(&autumn, Some(6)), refused(13, 3));
        assert_eq!(sheet_text(&autumn, None), refused(13, 3));
    }

    #[test]
    fn the_line_of_a_refusal() {
        let (number, place) = (13, 3);
        assert_eq!(refused_text(Refusal { number, place }), "refused 13 3\n");
    }

    #[test]
    fn the_line_of_an_accepted_block() {
        let of_d = "accepted 5: the board has 5 posts, and on its sheet x goes from 0 to 6 and y \
                    from 0 to 3\n";
        assert_eq!(why_text(&d().block()), of_d);
        let of_t = "accepted 3: the board has 3 posts, and on its sheet x goes from 0 to 2 and y \
                    from 0 to 1\n";
        assert_eq!(why_text(&t().block()), of_t);
    }

    /// What the line says of x and y is how far the last sheet goes.
    #[test]
    fn the_sheet_goes_as_far_as_the_line_says() {
        let mut rng = Rng::new(13);
        for kind in KINDS {
            for n in [5, 6, 17, 60] {
                let block = random(kind, n, &mut rng).block();
                let sheet = sheet_text(&block, None).unwrap();
                let ends = |column: usize| {
                    let words = sheet
                        .lines()
                        .skip(1)
                        .map(|line| line.split(' ').nth(column));
                    let numbers: Vec<usize> =
                        words.map(|word| word.unwrap().parse().unwrap()).collect();
                    (
                        *numbers.iter().min().unwrap(),
                        *numbers.iter().max().unwrap(),
                    )
                };
                let ((left, right), (bottom, top)) = (ends(2), ends(3));
                let said = format!("x goes from {left} to {right} and y from {bottom} to {top}\n");
                assert!(why_text(&block).ends_with(&said), "{kind:?} {n}");
            }
        }
    }

    #[test]
    fn the_line_of_a_refused_block() {
        let order = vec![0, 1, 3, 2, 4];
        let autumn = "refused 13 3: at position 3 of the order: the post's wires to posts fitted \
                      before it do not lie side by side; two posts may stand in each other's place\n";
        assert_eq!(why_text(&Board { order, ..d() }.block()), autumn);
        let short = "refused 1 0: the block is cut short: it has fewer than 7 bytes\n";
        for length in 0..7 {
            assert_eq!(why_text(&d().block()[..length]), short);
        }
        let of_all = |n: usize| {
            format!("refused 8 {n}: the degrees of all {n} posts together are not 6 times {n} less 12\n")
        };
        let mut block = d().block();
        layout::put(&mut block, layout::degree_at(5, 4), 4);
        mend_sum(&mut block);
        assert_eq!(why_text(&block), of_all(5));
        let one =
            "refused 8 4: the degree of post 4 is below 2, or so high that there are not that \
                   many other posts\n";
        layout::put(&mut block, layout::degree_at(5, 4), 5);
        mend_sum(&mut block);
        assert_eq!(why_text(&block), one);
    }

    #[test]
    fn a_word_of_digits_says_a_number() {
        for (word, says) in [("0", 0), ("3", 3), ("003", 3), ("0000000005", 5)] {
            assert_eq!(number(word.as_bytes()), Some(says));
        }
        assert_eq!(number(b"18446744073709551619"), Some((1 << 64) + 3));
        let nines = [b'9'; LONGEST_WORD];
        assert_eq!(number(&nines), Some(10u128.pow(32) - 1));
    }

    #[test]
    fn no_other_word_does() {
        for word in ["", "x", "3x", "-3", "+3", " 3", "3 ", "/", ":", "٣", "３"] {
            assert_eq!(number(word.as_bytes()), None, "{word}");
        }
        assert_eq!(number(&[b'0'; LONGEST_WORD + 1]), None);
        assert_eq!(number(b"3\xFF"), None);
    }
}
