//! The ends that records tell, tested on replies of the unit alone: what it tells of
//! each post against the sheet of the same stage, the block's order and its lists.
//!
//! On the sheet the ends of a post's run are its outermost earlier neighbours, with
//! the post between them, and that stays so: of two posts with a wire the one on
//! the right never moves less than the other.

mod places;
mod printed;

pub use places::{Place, Ways};
pub use printed::test_lines;

use crate::board::Board;
use crate::reply::Fit;

/// What is told of a board's posts, stage after stage.
pub struct Fits<'a> {
    board: &'a Board,
    /// The position of each name, counted from 0.
    positions: Vec<usize>,
    /// The ends that were told of each name first, once it was placed.
    told: Vec<Option<Fit>>,
}

impl<'a> Fits<'a> {
    pub fn new(board: &'a Board) -> Self {
        Fits {
            board,
            positions: board.positions(),
            told: vec![None; board.posts()],
        }
    }

    /// Test what is told of a post at the stage of this sheet; stages ascend. The first
    /// time that its run is told this gives the place of the run in its list.
    pub fn tell(&mut self, sheet: &[u16], name: u16, fit: Fit) -> Result<Option<Place>, String> {
        let stage = sheet.len() / 2;
        if !(2..stage).contains(&self.positions[name as usize]) {
            return match fit {
                Fit { left, right } if left == name && right == name => Ok(None),
                _ => Err("it has no run yet or none at all, and does not tell itself".into()),
            };
        }
        let before = self.told[name as usize].replace(fit);
        if before.is_some_and(|before| before != fit) {
            return Err(format!("at an earlier stage {before:?} was told"));
        }
        self.outermost(sheet, name, fit)?;
        Ok(before.is_none().then(|| self.place(name, fit)))
    }

    /// The neighbours of a post that were placed before it, as its list has them.
    fn earlier(&self, name: u16) -> Vec<u16> {
        let position = |post: u16| self.positions[post as usize];
        let list = self.board.rings[name as usize].iter().copied();
        list.filter(|&v| position(v) < position(name)).collect()
    }

    /// Both ends are earlier neighbours, all others stand between them, and so does
    /// the post.
    fn outermost(&self, sheet: &[u16], name: u16, Fit { left, right }: Fit) -> Result<(), String> {
        let earlier = self.earlier(name);
        if let Some(end) = [left, right].into_iter().find(|end| !earlier.contains(end)) {
            return Err(format!("{end} is no neighbour that was placed earlier"));
        }
        let x = |post: u16| sheet[2 * self.positions[post as usize]];
        let between = |post: u16| x(left) < x(post) && x(post) < x(right);
        let others = earlier.iter().copied().filter(|&w| w != left && w != right);
        match others.chain([name]).find(|&post| !between(post)) {
            None => Ok(()),
            Some(post) => Err(format!("{post} does not stand between the ends")),
        }
    }

    fn place(&self, name: u16, fit: Fit) -> Place {
        let list = &self.board.rings[name as usize];
        let start = list.iter().position(|&v| v == fit.left);
        Place {
            entries: list.len(),
            run: self.earlier(name).len(),
            start: start.expect("an end is a neighbour"),
        }
    }
}

#[cfg(test)]
mod tests;
