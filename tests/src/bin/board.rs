//! The board tool: a block from a readable text, and back; its sheet and its fits.

use outside::boards::{random, Kind};
use outside::layout::MOST;
use outside::reply::Refusal;
use outside::rng::Rng;
use outside::{paper, text};
use std::io::{self, Read, Write};
use std::process::ExitCode;

/// The fewest posts of a board by chance.
const FEWEST_BY_CHANCE: usize = 5;

const USAGE: &str = "\
board pack < TEXT > BLOCK     write a block from its text
board show < BLOCK > TEXT     write a block's text (of a damaged one what can be read)
board sheet [K] < BLOCK       print the last stage, or stage K, by the rules
board fit < BLOCK             print between which posts each is fitted, by the rules
board make POSTS [SEED]       write the block of a board by chance

The text of a board has a line `order ..` with the names in the order of
fitting, and for each name a line `name: ..` with its neighbours
counter-clockwise. What follows a # on a line is a remark.
";

fn main() -> ExitCode {
    let arguments: Vec<String> = std::env::args().skip(1).collect();
    let words: Vec<&str> = arguments.iter().map(String::as_str).collect();
    let done = match words[..] {
        ["pack"] => pack(),
        ["show"] => show(),
        ["sheet"] => sheet(None),
        ["sheet", word] => stage(word),
        ["fit"] => fit(),
        ["make", posts] => make(posts, "1"),
        ["make", posts, seed] => make(posts, seed),
        _ => Err(USAGE.into()),
    };
    match done {
        Ok(status) => status,
        Err(message) => {
            eprint!("{message}");
            ExitCode::from(2)
        }
    }
}

fn input() -> Result<Vec<u8>, String> {
    let mut bytes = Vec::new();
    match io::stdin().read_to_end(&mut bytes) {
        Ok(_) => Ok(bytes),
        Err(error) => Err(format!("standard input: {error}\n")),
    }
}

fn output(bytes: &[u8]) -> Result<(), String> {
    let written = io::stdout().write_all(bytes);
    written.map_err(|error| format!("standard output: {error}\n"))
}

/// A board that the unit will refuse is packed too, and said to be one.
fn pack() -> Result<ExitCode, String> {
    let text = String::from_utf8(input()?).map_err(|error| format!("the text: {error}\n"))?;
    let board = text::parse(&text).map_err(|error| format!("{error}\n"))?;
    let block = board.block();
    if let Err(refusal) = paper::check(&block) {
        eprintln!(
            "note: the unit refuses this block: {} {}",
            refusal.number, refusal.place
        );
    }
    output(&block)?;
    Ok(ExitCode::SUCCESS)
}

/// The status is 1 if the text does not give the block back.
fn show() -> Result<ExitCode, String> {
    let shown = text::show(&input()?);
    output(shown.text.as_bytes())?;
    Ok(ExitCode::from(u8::from(!shown.whole)))
}

/// What the programs `sheet` and `stage` should print.
fn sheet(stage: Option<u128>) -> Result<ExitCode, String> {
    told(paper::sheet_text(&input()?, stage))
}

/// What the program `fit` should print.
fn fit() -> Result<ExitCode, String> {
    told(paper::fit_text(&input()?))
}

/// A text of the independent implementation, or its refusal's line.
fn told(text: Result<String, Refusal>) -> Result<ExitCode, String> {
    output(text.unwrap_or_else(paper::refused_text).as_bytes())?;
    Ok(ExitCode::SUCCESS)
}

fn stage(word: &str) -> Result<ExitCode, String> {
    match paper::number(word.as_bytes()) {
        Some(stage) => sheet(Some(stage)),
        None => Err(format!("`{word}` is not a stage, a whole number\n")),
    }
}

fn make(posts: &str, seed: &str) -> Result<ExitCode, String> {
    let posts = match posts.parse() {
        Ok(posts @ FEWEST_BY_CHANCE..=MOST) => posts,
        _ => {
            return Err(format!(
                "`{posts}` is not a number of posts from {FEWEST_BY_CHANCE} to {MOST}\n"
            ))
        }
    };
    let seed = seed
        .parse()
        .map_err(|_| format!("`{seed}` is not a seed, a whole number\n"))?;
    let board = random(Kind::Flipped, posts, &mut Rng::new(seed));
    output(&board.block())?;
    Ok(ExitCode::SUCCESS)
}

#[cfg(test)]
mod tests {
    use super::*;
    use std::fs;

    /// Each block in boards/ stands beside the text that gives it.
    #[test]
    fn the_boards_to_try_have_right_texts() {
        let folder = concat!(env!("CARGO_MANIFEST_DIR"), "/../boards");
        let files = fs::read_dir(folder).unwrap();
        let paths = files.map(|file| file.unwrap().path());
        let blocks: Vec<_> = paths
            .filter(|path| path.extension().is_some_and(|end| end == "pgb"))
            .collect();
        assert!(!blocks.is_empty());
        for path in blocks {
            let block = fs::read(&path).unwrap();
            let text = fs::read_to_string(path.with_extension("txt")).unwrap();
            assert_eq!(text::parse(&text).unwrap().block(), block, "{path:?}");
            assert_eq!(text::show(&block).text, text, "{path:?}");
        }
    }
}
