//! Stands in for the programs where the test program is tried alone: the
//! plain linear implementation, printed.

use crate::layout::{self, MOST};
use crate::linear;
use crate::paper;
use crate::reply::Refusal;
use crate::words::Words;
use std::ffi::OsString;
use std::fmt::Write as _;
use std::io::{self, Read, Write};

/// Do what the program that the first word names would do with the others.
pub fn stand_in(mut words: impl Iterator<Item = OsString>) -> io::Result<()> {
    let mut block = Vec::new();
    let answer = match words.next() {
        Some(name) if name == "stage" => match words.next().as_ref().and_then(stage) {
            None => paper::usage_text(),
            stage => {
                read(&mut block)?;
                printed(&block, stage)
            }
        },
        name => {
            read(&mut block)?;
            match name.as_ref().and_then(|name| name.to_str()) {
                Some("why") => why(&block),
                Some("fit") => fits(&block).unwrap_or_else(refused),
                _ => printed(&block, None),
            }
        }
    };
    io::stdout().write_all(answer.as_bytes())
}

/// No more is read than tells a block that is too long.
fn read(block: &mut Vec<u8>) -> io::Result<usize> {
    let enough = layout::length(MOST) + 1;
    io::stdin().take(enough as u64).read_to_end(block)
}

fn stage(word: &OsString) -> Option<usize> {
    let word = word.to_str()?;
    let digits = !word.is_empty() && word.bytes().all(|byte| byte.is_ascii_digit());
    (digits && word.len() <= 32).then(|| word.parse().unwrap_or(usize::MAX))
}

fn refused(Refusal { number, place }: Refusal) -> String {
    format!("refused {number} {place}\n")
}

fn printed(block: &[u8], stage: Option<usize>) -> String {
    sheet(block, stage).unwrap_or_else(refused)
}

/// The words are those of README.md, whoever prints them.
fn why(block: &[u8]) -> String {
    let words = |refusal| {
        let header = block.len() >= layout::HEADER;
        let n = if header {
            layout::get(block, layout::N_AT)
        } else {
            0
        };
        Words::of_readme().of(refusal, n)
    };
    match linear::check(block) {
        Err(refusal) => format!(
            "refused {} {}: {}\n",
            refusal.number,
            refusal.place,
            words(refusal)
        ),
        Ok(n) => {
            let (high, wide) = (n - 2, 2 * (n - 2));
            format!(
                "accepted {n}: the board has {n} posts, and on its sheet x goes from 0 to {wide} \
                 and y from 0 to {high}\n"
            )
        }
    }
}

fn sheet(block: &[u8], stage: Option<usize>) -> Result<String, Refusal> {
    let mut buffer = [0; 2 * MOST];
    let n = linear::check(block)?;
    let count = linear::sheet(block, stage.unwrap_or(n.into()), &mut buffer)?;
    let mut text = format!("sheet {n} {}\n", count / 2);
    for (i, point) in buffer[..count.into()].chunks(2).enumerate() {
        let name = layout::get(block, layout::order_at(i));
        writeln!(text, "{} {name} {} {}", i + 1, point[0], point[1]).unwrap();
    }
    Ok(text)
}

fn fits(block: &[u8]) -> Result<String, Refusal> {
    let mut buffer = [0; 2 * MOST];
    let n = linear::check(block)?;
    linear::sheet(block, n.into(), &mut buffer)?;
    let mut text = String::new();
    for (i, (left, right)) in (2..).zip(linear::ends(block)?) {
        let name = layout::get(block, layout::order_at(i));
        let (x, y) = (buffer[2 * i], buffer[2 * i + 1]);
        writeln!(text, "{} {name} between {left} {right} {x} {y}", i + 1).unwrap();
    }
    Ok(text)
}
