//! What `fit` printed of an accepted board, tested as the records of its last stage are.

use super::Fits;
use crate::board::Board;
use crate::reply::Fit;

/// What a line says behind its position.
struct Line {
    name: u16,
    fit: Fit,
    point: [u16; 2],
}

/// The number of lines that were tested.
pub fn test_lines(board: &Board, text: &str) -> Result<usize, String> {
    let said: Option<Vec<Line>> = text.lines().zip(3..).map(said).collect();
    let said = said.ok_or("a line is not as it should be")?;
    let names: Vec<u16> = said.iter().map(|line| line.name).collect();
    if names != board.order[2..] {
        return Err("the lines do not go through the positions from 3 on".into());
    }
    // v1 and v2 have no line; they stand at both ends of the bottom
    let mut sheet = vec![0, 0, 2 * board.posts() as u16 - 4, 0];
    sheet.extend(said.iter().flat_map(|line| line.point));
    let mut fits = Fits::new(board);
    for Line { name, fit, .. } in &said {
        let told = fits.tell(&sheet, *name, *fit);
        told.map_err(|fault| format!("post {name}, {fit:?}: {fault}"))?;
    }
    Ok(said.len())
}

/// What the line of a position says.
fn said((line, position): (&str, usize)) -> Option<Line> {
    let words: Vec<&str> = line.split(' ').collect();
    let [at, name, "between", left, right, x, y] = words[..] else {
        return None;
    };
    let number = |word: &str| word.parse().ok();
    let fit = Fit {
        left: number(left)?,
        right: number(right)?,
    };
    (at == position.to_string()).then_some(Line {
        name: number(name)?,
        fit,
        point: [number(x)?, number(y)?],
    })
}
