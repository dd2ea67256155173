//! The readable form of a block.
//!
//! ```text
//! # a remark, to the end of its line
//! order 0 1 2 3 4
//! 0: 1 2 3 4
//! 1: 4 3 2 0
//! ```
//!
//! `order` gives the names in the order of fitting; each further line gives a
//! post's name and its neighbours, counter-clockwise.

use crate::board::{sum, Board};
use crate::layout::{self, FEWEST, HEADER, MARK, MOST, N_AT, VERSION, VERSION_AT};
use crate::paper;
use std::fmt::{self, Display, Write};

/// What is wrong with a text, and on which line (none: with the text as a whole).
#[derive(Debug, PartialEq, Eq)]
pub struct TextError {
    line: Option<usize>,
    message: String,
}

impl Display for TextError {
    fn fmt(&self, f: &mut fmt::Formatter) -> fmt::Result {
        match self.line {
            Some(line) => write!(f, "line {line}: {}", self.message),
            None => write!(f, "the text: {}", self.message),
        }
    }
}

fn wrong<T>(line: Option<usize>, message: String) -> Result<T, TextError> {
    Err(TextError { line, message })
}

/// Something said on a line.
struct Said {
    line: usize,
    numbers: Vec<u16>,
}

/// Read a board from its text. The board needn't be a right one, but a block
/// must be able to hold it: as many posts as are allowed, a list for each, and
/// as many entries as there are to be.
pub fn parse(text: &str) -> Result<Board, TextError> {
    let mut order: Option<Said> = None;
    let mut lists: Vec<(u16, Said)> = Vec::new();
    for (index, whole_line) in text.lines().enumerate() {
        let line = index + 1;
        let words = whole_line.split('#').next().unwrap_or("").trim();
        if words.is_empty() {
            continue;
        }
        if let Some(names) = words.strip_prefix("order") {
            if let Some(first) = &order {
                let message = format!("a second order; the first is on line {}", first.line);
                return wrong(Some(line), message);
            }
            let numbers = numbers(names, line)?;
            order = Some(Said { line, numbers });
        } else if let Some((name, neighbours)) = words.split_once(':') {
            let name = number(name.trim(), line)?;
            let numbers = numbers(neighbours, line)?;
            lists.push((name, Said { line, numbers }));
        } else {
            let message = format!("`{words}` is neither `order ..` nor `name: ..`");
            return wrong(Some(line), message);
        }
    }
    match order {
        Some(order) => assemble(order, lists),
        None => wrong(None, "there is no line `order ..`".into()),
    }
}

/// The board of a block that text can hold: one of which n, the length and the sum are right.
pub fn board(block: &[u8]) -> Board {
    parse(&show(block).text).expect("its text is whole")
}

fn number(word: &str, line: usize) -> Result<u16, TextError> {
    word.parse().or_else(|_| {
        let message = format!("`{word}` is not a number from 0 to 65535");
        wrong(Some(line), message)
    })
}

fn numbers(words: &str, line: usize) -> Result<Vec<u16>, TextError> {
    let words = words.split_whitespace();
    words.map(|word| number(word, line)).collect()
}

fn assemble(order: Said, lists: Vec<(u16, Said)>) -> Result<Board, TextError> {
    let n = order.numbers.len();
    if !layout::allowed(n) {
        let message = format!("the order has {n} posts; a board has {FEWEST} to {MOST}");
        return wrong(Some(order.line), message);
    }
    let mut rings: Vec<Option<Said>> = (0..n).map(|_| None).collect();
    for (name, said) in lists {
        let line = Some(said.line);
        let Some(place) = rings.get_mut(usize::from(name)) else {
            let message = format!("post {name}, but the order has {n} posts: 0 to {}", n - 1);
            return wrong(line, message);
        };
        if let Some(first) = place {
            let message = format!("a second list of post {name}; see line {}", first.line);
            return wrong(line, message);
        }
        *place = Some(said);
    }
    if let Some(name) = rings.iter().position(Option::is_none) {
        return wrong(None, format!("post {name} has no list"));
    }
    let rings: Vec<Vec<u16>> = rings
        .into_iter()
        .flatten()
        .map(|said| said.numbers)
        .collect();
    let entries: usize = rings.iter().map(Vec::len).sum();
    let right = layout::entries(n);
    if entries != right {
        let message = format!("the lists have {entries} entries; a board of {n} posts has {right}");
        return wrong(None, message);
    }
    Ok(Board {
        order: order.numbers,
        rings,
    })
}

/// A block as text.
pub struct Shown {
    pub text: String,
    /// Whether the text gives the block back, byte for byte.
    pub whole: bool,
}

/// Show a block as text: a damaged one as far as it can be read, with remarks
/// on what could not be.
pub fn show(block: &[u8]) -> Shown {
    let mut text = match paper::check(block) {
        Ok(n) => format!("# accepted: a board of {n} posts\n"),
        Err(refusal) => format!("# refused {} {}\n", refusal.number, refusal.place),
    };
    if block.len() < HEADER {
        remark(
            &mut text,
            format!("only {} bytes: there is no header", block.len()),
        );
    } else {
        show_parts(&mut text, block);
    }
    let whole = parse(&text).is_ok_and(|board| board.block() == block);
    if !whole {
        remark(&mut text, "this text does not give the block back".into());
    }
    Shown { text, whole }
}

fn remark(text: &mut String, what: String) {
    writeln!(text, "# {what}").unwrap();
}

fn line(text: &mut String, start: impl Display, numbers: &[u16]) {
    write!(text, "{start}").unwrap();
    for number in numbers {
        write!(text, " {number}").unwrap();
    }
    text.push('\n');
}

/// The parts of a block whose header is there.
fn show_parts(text: &mut String, block: &[u8]) {
    if block[..VERSION_AT] != MARK {
        let mark = &block[..VERSION_AT];
        remark(text, format!("the mark is {mark:02x?}, not PGB"));
    }
    let version = layout::get(block, VERSION_AT);
    let n = usize::from(layout::get(block, N_AT));
    if version != VERSION {
        remark(text, format!("the version is {version}, not {VERSION}"));
    }
    if !layout::allowed(n) {
        remark(text, format!("n is {n}, not from {FEWEST} to {MOST}"));
    }
    let end = end_of_lists(text, block, n);
    show_numbers(
        text,
        &mut Reader(&block[HEADER..end.unwrap_or(block.len())]),
        n,
    );
    match end {
        Some(end) => show_sum(text, block, end),
        None => remark(text, "there is no sum".into()),
    }
}

/// Where the lists end and the sum stands, if the block goes on so far.
fn end_of_lists(text: &mut String, block: &[u8], n: usize) -> Option<usize> {
    if n < FEWEST {
        return None;
    }
    let (length, right) = (block.len(), layout::length(n));
    if length != right {
        remark(text, format!("{length} bytes, but n = {n} needs {right}"));
    }
    (length >= right).then(|| layout::sum_at(n))
}

fn show_sum(text: &mut String, block: &[u8], at: usize) {
    let (told, right) = (layout::get(block, at), sum(&block[..at]));
    if told == right {
        remark(text, format!("sum {told}"));
    } else {
        remark(text, format!("sum {told}, but the bytes give {right}"));
    }
    let beyond = block.len() - at - 2;
    if beyond > 0 {
        remark(text, format!("bytes beyond the sum: {beyond}"));
    }
}

/// The order, the degrees and the lists.
fn show_numbers(text: &mut String, reader: &mut Reader, n: usize) {
    let order = reader.numbers(n);
    line(text, "order", &order);
    if order.len() < n {
        remark(
            text,
            format!("the order ends after {} of {n} entries", order.len()),
        );
    }
    let degrees = reader.numbers(n);
    if degrees.len() < n {
        remark(text, format!("there are {} of {n} degrees", degrees.len()));
    }
    for (name, &degree) in degrees.iter().enumerate() {
        let list = reader.numbers(usize::from(degree));
        line(text, format!("{name}:"), &list);
        if list.len() < usize::from(degree) {
            remark(
                text,
                format!("list {name} ends after {} of {degree} entries", list.len()),
            );
        }
    }
    if !reader.0.is_empty() {
        remark(
            text,
            format!("bytes that belong to no list: {}", reader.0.len()),
        );
    }
}

/// Reads 16-bit numbers, high byte first.
struct Reader<'a>(&'a [u8]);

impl Reader<'_> {
    /// The next `count` numbers, or fewer if the bytes run out.
    fn numbers(&mut self, count: usize) -> Vec<u16> {
        let count = count.min(self.0.len() / 2);
        let (read, rest) = self.0.split_at(2 * count);
        self.0 = rest;
        let pairs = read.chunks_exact(2);
        pairs
            .map(|pair| u16::from_be_bytes([pair[0], pair[1]]))
            .collect()
    }
}

#[cfg(test)]
mod tests;
