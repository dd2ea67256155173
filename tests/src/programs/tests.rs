use super::*;
use crate::board::d;
use crate::boards::{random, Kind};
use crate::layout::MOST;
use crate::rng::Rng;

const SHEET_OF_D: &[u8] = b"sheet 5 5\n1 0 0 0\n2 1 6 0\n3 2 3 1\n4 3 3 2\n5 4 3 3\n";

/// The sheet of a board by chance.
fn sheet(n: usize) -> String {
    let board = random(Kind::Flipped, n, &mut Rng::new(11));
    paper::sheet_text(&board.block(), None).unwrap()
}

#[test]
fn the_same_text_has_no_difference() {
    assert_eq!(difference(SHEET_OF_D, SHEET_OF_D), None);
    assert_eq!(difference(b"", b""), None);
    let text = sheet(MOST);
    assert_eq!(difference(text.as_bytes(), text.as_bytes()), None);
}

/// A program that prints the first five posts alone.
#[test]
fn posts_that_are_not_printed_are_found() {
    let right = sheet(40);
    let lines: Vec<&str> = right.split_inclusive('\n').collect();
    let printed = lines[..6].concat();
    let sixth = lines[6].trim_end();
    assert!(sixth.starts_with("6 "));
    let told = format!("line 7: got nothing, not \"{sixth}\\n\"");
    assert_eq!(difference(printed.as_bytes(), right.as_bytes()), Some(told));
}

/// A program that prints the last two digits of a number alone: the first line
/// that has a larger one is told.
#[test]
fn numbers_modulo_100_are_found() {
    for n in [60, 120, MOST] {
        let right = sheet(n);
        let modulo = |word: &str| {
            let number = word.parse::<usize>();
            number.map_or(word.to_string(), |number| (number % 100).to_string())
        };
        let printed: String = right
            .lines()
            .map(|line| line.split(' ').map(modulo).collect::<Vec<_>>().join(" ") + "\n")
            .collect();
        let large = |line: &str| {
            line.split(' ')
                .any(|word| word.len() > 2 && word != "sheet")
        };
        let at = right.lines().position(large).unwrap();
        let line = |text: &str| text.lines().nth(at).unwrap().to_string();
        let told = format!(
            "line {}: got \"{}\\n\", not \"{}\\n\"",
            at + 1,
            line(&printed),
            line(&right)
        );
        assert_eq!(
            difference(printed.as_bytes(), right.as_bytes()),
            Some(told),
            "{n}"
        );
    }
}

#[test]
fn every_byte_counts() {
    for at in 0..SHEET_OF_D.len() {
        let mut printed = SHEET_OF_D.to_vec();
        printed[at] ^= 1;
        assert!(difference(&printed, SHEET_OF_D).is_some(), "byte {at}");
        assert!(difference(&SHEET_OF_D[..at], SHEET_OF_D).is_some());
    }
    let more = [SHEET_OF_D, b"6"].concat();
    let told = "line 7: got \"6\", not nothing";
    assert_eq!(difference(&more, SHEET_OF_D), Some(told.into()));
    let unended = &SHEET_OF_D[..SHEET_OF_D.len() - 1];
    let told = "line 6: got \"5 4 3 3\", not \"5 4 3 3\\n\"";
    assert_eq!(difference(unended, SHEET_OF_D), Some(told.into()));
}

#[test]
fn a_usage_line_is_compared_whole() {
    let usage = paper::usage_text();
    assert_eq!(difference(usage.as_bytes(), usage.as_bytes()), None);
    for printed in [
        "",
        "\n",
        "usage: stage",
        "usage: stage K\n",
        "refused 15 0\n",
    ] {
        assert!(difference(printed.as_bytes(), usage.as_bytes()).is_some());
    }
}

/// Any command that does not read its input, or reads it slowly, is fed all the same.
#[test]
fn a_program_may_stop_reading() {
    let run = |script: &str, input: &[u8], piece| {
        let mut command = Command::new("sh");
        command.args(["-c", script]);
        fed(command, input, piece).unwrap().stdout
    };
    let long = vec![b'a'; 1 << 20];
    assert_eq!(run("echo done", &long, usize::MAX), b"done\n");
    assert_eq!(run("cat", &long, usize::MAX), long);
    assert_eq!(run("cat", &d().block(), 7), d().block());
    assert_eq!(run("cat", b"", usize::MAX), b"");
}
