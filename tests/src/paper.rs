//! The rules of docs/RULES.md done literally: every step of the table in its
//! order, every stage by moving whole groups. It is written to be held beside
//! them, not for speed, and shares nothing but the limits with any other
//! implementation.

mod drawing;
mod order;
mod print;

pub use print::{fit_text, number, refused_text, sheet_text, usage_text, why_text};

use crate::layout::{FEWEST, MOST};
use crate::reply::{Record, Refusal};
use drawing::Drawing;

/// Check a block: its number of posts, or a refusal.
pub fn check(block: &[u8]) -> Result<u16, Refusal> {
    accepted(block).map(|board| board.n as u16)
}

/// Write the sheet of a stage to the buffer: how many entries that is, or a refusal.
pub fn sheet(block: &[u8], stage: usize, buffer: &mut [u16]) -> Result<u16, Refusal> {
    let board = accepted(block)?;
    stage_allowed(&board, stage)?;
    if buffer.len() < 2 * stage {
        return refuse(16, 0);
    }
    let drawing = Drawing::at_stage(&board, stage);
    for position in 1..=stage {
        let (x, y) = drawing.point(board.v(position));
        buffer[2 * position - 2] = x;
        buffer[2 * position - 1] = y;
    }
    Ok(2 * stage as u16)
}

/// A post's record at a stage, or a refusal.
pub fn post(block: &[u8], stage: usize, name: usize) -> Result<Record, Refusal> {
    let board = accepted(block)?;
    stage_allowed(&board, stage)?;
    if name >= board.n {
        return refuse(17, 0);
    }
    Ok(board.record(&Drawing::at_stage(&board, stage), stage, name))
}

/// The records of all posts at a stage by name, or a refusal.
pub fn records(block: &[u8], stage: usize) -> Result<Vec<Record>, Refusal> {
    let board = accepted(block)?;
    stage_allowed(&board, stage)?;
    let drawing = Drawing::at_stage(&board, stage);
    let record = |name| board.record(&drawing, stage, name);
    Ok((0..board.n).map(record).collect())
}

fn refuse<T>(number: u16, place: usize) -> Result<T, Refusal> {
    Err(Refusal {
        number,
        place: place as u16,
    })
}

/// Step 15.
fn stage_allowed(board: &Board, stage: usize) -> Result<(), Refusal> {
    if stage < 3 || stage > board.n {
        return refuse(15, 0);
    }
    Ok(())
}

/// What a block says: its order and its lists, with the position of each name.
struct Board {
    n: usize,
    order: Vec<usize>,
    positions: Vec<usize>,
    lists: Vec<Vec<usize>>,
}

/// Steps 1 to 13.
fn accepted(block: &[u8]) -> Result<Board, Refusal> {
    let n = header(block)?;
    let order = order(block, n)?;
    let degrees = degrees(block, n)?;
    let lists = lists(block, &degrees);
    let mut positions = vec![0; n];
    for position in 1..=n {
        positions[order[position - 1]] = position;
    }
    let board = Board {
        n,
        order,
        positions,
        lists,
    };
    board.rings()?;
    board.triangles()?;
    board.outer_triangle()?;
    for k in 3..=n {
        board.canonical_at(k)?;
    }
    Ok(board)
}

/// The 16-bit number at a byte offset, high byte first.
fn number_at(block: &[u8], offset: usize) -> usize {
    usize::from(block[offset]) * 256 + usize::from(block[offset + 1])
}

/// Steps 1 to 6.
fn header(block: &[u8]) -> Result<usize, Refusal> {
    if block.len() < 7 {
        return refuse(1, 0);
    }
    if block[0..3] != [0x50, 0x47, 0x42] {
        return refuse(2, 0);
    }
    if number_at(block, 3) != 1 {
        return refuse(3, 0);
    }
    let n = number_at(block, 5);
    if !(FEWEST..=MOST).contains(&n) {
        return refuse(4, 0);
    }
    if block.len() != 16 * n - 15 {
        return refuse(5, 0);
    }
    let last = block.len() - 2;
    let sum: usize = block[..last].iter().map(|&byte| usize::from(byte)).sum();
    if sum % 65536 != number_at(block, last) {
        return refuse(6, 0);
    }
    Ok(n)
}

/// Step 7: the order, a name for each position.
fn order(block: &[u8], n: usize) -> Result<Vec<usize>, Refusal> {
    let mut order = Vec::new();
    for position in 1..=n {
        let name = number_at(block, 7 + 2 * (position - 1));
        if name >= n || order.contains(&name) {
            return refuse(7, position);
        }
        order.push(name);
    }
    Ok(order)
}

/// Step 8: the degrees of names 0 to n-1.
fn degrees(block: &[u8], n: usize) -> Result<Vec<usize>, Refusal> {
    let mut degrees = Vec::new();
    for name in 0..n {
        let degree = number_at(block, 7 + 2 * n + 2 * name);
        if degree < 2 || degree > n - 1 {
            return refuse(8, name);
        }
        degrees.push(degree);
    }
    if degrees.iter().sum::<usize>() != 6 * n - 12 {
        return refuse(8, n);
    }
    Ok(degrees)
}

/// The neighbour lists of names 0 to n-1.
fn lists(block: &[u8], degrees: &[usize]) -> Vec<Vec<usize>> {
    let mut offset = 7 + 4 * degrees.len();
    let mut lists = Vec::new();
    for &degree in degrees {
        let list = (0..degree).map(|i| number_at(block, offset + 2 * i));
        lists.push(list.collect());
        offset += 2 * degree;
    }
    lists
}

/// The entry that follows `a` in a ring, which goes on at its beginning (G1, G2).
fn follower(ring: &[usize], a: usize) -> Option<usize> {
    let i = ring.iter().position(|&entry| entry == a)?;
    Some(ring[(i + 1) % ring.len()])
}

impl Board {
    /// The post in a position.
    fn v(&self, position: usize) -> usize {
        self.order[position - 1]
    }

    /// A post's record at a stage, of which this is the drawing.
    fn record(&self, drawing: &Drawing, stage: usize, name: usize) -> Record {
        let (x, y) = drawing.point(name);
        Record {
            x,
            y,
            standing: drawing.standing(name),
            fit: self.fit(name, stage),
        }
    }

    /// Step 9 (G3): the lists in the order of names, the entries of each from its
    /// first on. The first bad entry decides.
    fn rings(&self) -> Result<(), Refusal> {
        for u in 0..self.n {
            for i in 0..self.lists[u].len() {
                if let Some(number) = self.entry_fault(u, i) {
                    return refuse(number, u);
                }
            }
        }
        Ok(())
    }

    /// What is wrong with entry i of u's list: 9, no post has that name; 18, it is
    /// u; 19, it stands in the list before; 20, its own list does not have u.
    fn entry_fault(&self, u: usize, i: usize) -> Option<u16> {
        let v = self.lists[u][i];
        if v >= self.n {
            return Some(9);
        }
        if v == u {
            return Some(18);
        }
        if self.lists[u][..i].contains(&v) {
            return Some(19);
        }
        if !self.lists[v].contains(&u) {
            return Some(20);
        }
        None
    }

    /// Step 10 (G4): of two entries of u side by side, v and then w, the ring of v
    /// has u right after w.
    fn triangles(&self) -> Result<(), Refusal> {
        for u in 0..self.n {
            let ring = &self.lists[u];
            for i in 0..ring.len() {
                let (v, w) = (ring[i], ring[(i + 1) % ring.len()]);
                if follower(&self.lists[v], w) != Some(u) {
                    return refuse(10, u);
                }
            }
        }
        Ok(())
    }

    /// Step 11 (G6): v1 has v2 in its list, and at v2 the entry after v1 is vn.
    fn outer_triangle(&self) -> Result<(), Refusal> {
        let (v1, v2, vn) = (self.v(1), self.v(2), self.v(self.n));
        if !self.lists[v1].contains(&v2) || follower(&self.lists[v2], v1) != Some(vn) {
            return refuse(11, 0);
        }
        Ok(())
    }
}

#[cfg(test)]
mod tests;
