//! What a plain programmer would write for speed: positions by name, lists
//! searched for the entry that returns a wire, and the shift method in linear
//! time by offsets (each post keeps its distance from the post left of it; the
//! distances are added up once, at the end).
//!
//! The benchmark measures the unit against it, and it stands in for the unit
//! when the C library isn't linked.

mod drawing;

use crate::layout::{FEWEST, MOST};
use crate::reply::{Fit, Record, Refusal, Standing};
use drawing::Drawing;

/// Check a block: its number of posts, or a refusal.
pub fn check(block: &[u8]) -> Result<u16, Refusal> {
    Ok(Board::read(block)?.order.len() as u16)
}

/// Write the sheet of a stage to the buffer: the count of entries written, or a refusal.
pub fn sheet(block: &[u8], stage: usize, buffer: &mut [u16]) -> Result<u16, Refusal> {
    let board = Board::read(block)?;
    let n = board.order.len();
    if !(3..=n).contains(&stage) {
        return refuse(15, 0);
    }
    if buffer.len() < 2 * stage {
        return refuse(16, 0);
    }
    let drawing = Drawing::at_stage(&board, stage);
    for (point, &name) in buffer.chunks_exact_mut(2).zip(&board.order[..stage]) {
        point[0] = drawing.x[name as usize] as u16;
        point[1] = drawing.y[name as usize] as u16;
    }
    Ok(2 * stage as u16)
}

/// A post's record at a stage, or a refusal.
pub fn post(block: &[u8], stage: usize, name: usize) -> Result<Record, Refusal> {
    let board = Board::read(block)?;
    let n = board.order.len();
    if !(3..=n).contains(&stage) {
        return refuse(15, 0);
    }
    if name >= n {
        return refuse(17, 0);
    }
    let drawing = Drawing::at_stage(&board, stage);
    let position = board.position[name] as usize;
    let (left, right) = match position {
        2.. if position < stage => board.run_ends[position],
        _ => (name as u16, name as u16),
    };
    let standing = if position >= stage {
        Standing::Waiting
    } else if drawing.covered_by[name] != NONE {
        Standing::Covered {
            by: drawing.covered_by[name],
        }
    } else {
        Standing::OnContour {
            left: drawing.left[name],
            right: drawing.right[name],
        }
    };
    Ok(Record {
        x: drawing.x[name] as u16,
        y: drawing.y[name] as u16,
        standing,
        fit: Fit { left, right },
    })
}

/// Both ends of each run by position, from the third on, or a refusal.
pub fn ends(block: &[u8]) -> Result<Vec<(u16, u16)>, Refusal> {
    Ok(Board::read(block)?.run_ends.split_off(2))
}

/// No post.
const NONE: u16 = u16::MAX;

fn refuse<T>(number: u16, place: usize) -> Result<T, Refusal> {
    Err(Refusal {
        number,
        place: place as u16,
    })
}

fn number(block: &[u8], at: usize) -> u16 {
    u16::from_be_bytes([block[at], block[at + 1]])
}

/// An accepted block. Positions count from 0 in here.
struct Board {
    order: Vec<u16>,
    position: Vec<u16>,
    /// Both ends of each position's run, from position 2 (the third) on.
    run_ends: Vec<(u16, u16)>,
}

impl Board {
    fn read(block: &[u8]) -> Result<Self, Refusal> {
        let n = read_header(block)?;
        let (order, position) = read_order(block, n)?;
        let starts = read_degrees(block, n)?;
        let lists = Lists {
            entries: block[7 + 4 * n..block.len() - 2]
                .chunks_exact(2)
                .map(|bytes| u16::from_be_bytes([bytes[0], bytes[1]]))
                .collect(),
            starts,
        };
        let twins = lists.twins()?;
        lists.check_triangles(&twins)?;
        let (v1, v2, vn) = (order[0], order[1], order[n - 1]);
        if lists.following(v2 as usize, v1) != Some(vn) {
            return refuse(11, 0);
        }
        let mut run_ends = vec![(v1, v2); n];
        for k in 2..n {
            let ring = lists.ring(order[k] as usize);
            let ends = find_run(ring, &position, k)?;
            if k < n - 1 {
                run_ends[k] = ends.expect("only the last post has earlier neighbours alone");
            }
        }
        Ok(Board {
            order,
            position,
            run_ends,
        })
    }
}

fn read_header(block: &[u8]) -> Result<usize, Refusal> {
    if block.len() < 7 {
        return refuse(1, 0);
    }
    if &block[..3] != b"PGB" {
        return refuse(2, 0);
    }
    if number(block, 3) != 1 {
        return refuse(3, 0);
    }
    let n = number(block, 5) as usize;
    if !(FEWEST..=MOST).contains(&n) {
        return refuse(4, 0);
    }
    if block.len() != 16 * n - 15 {
        return refuse(5, 0);
    }
    let (bytes, sum) = block.split_at(block.len() - 2);
    let total: u32 = bytes.iter().map(|&byte| u32::from(byte)).sum();
    if total as u16 != number(sum, 0) {
        return refuse(6, 0);
    }
    Ok(n)
}

/// The order, and the position of each name.
fn read_order(block: &[u8], n: usize) -> Result<(Vec<u16>, Vec<u16>), Refusal> {
    let mut order = Vec::with_capacity(n);
    let mut position = vec![NONE; n];
    for k in 0..n {
        let name = number(block, 7 + 2 * k);
        if name as usize >= n || position[name as usize] != NONE {
            return refuse(7, k + 1);
        }
        position[name as usize] = k as u16;
        order.push(name);
    }
    Ok((order, position))
}

/// Where each list starts among all entries, and where the last one ends.
fn read_degrees(block: &[u8], n: usize) -> Result<Vec<usize>, Refusal> {
    let mut starts = Vec::with_capacity(n + 1);
    let mut total = 0;
    for name in 0..n {
        let degree = number(block, 7 + 2 * n + 2 * name) as usize;
        if degree < 2 || degree >= n {
            return refuse(8, name);
        }
        starts.push(total);
        total += degree;
    }
    starts.push(total);
    if total != 6 * n - 12 {
        return refuse(8, n);
    }
    Ok(starts)
}

struct Lists {
    entries: Vec<u16>,
    starts: Vec<usize>,
}

impl Lists {
    fn ring(&self, name: usize) -> &[u16] {
        &self.entries[self.starts[name]..self.starts[name + 1]]
    }

    /// The post that follows `a` at `u`.
    fn following(&self, u: usize, a: u16) -> Option<u16> {
        let ring = self.ring(u);
        let i = ring.iter().position(|&entry| entry == a)?;
        Some(*ring.get(i + 1).unwrap_or(&ring[0]))
    }

    /// For each entry v of u's list, where u stands in v's list.
    fn twins(&self) -> Result<Vec<u16>, Refusal> {
        let n = self.starts.len() - 1;
        let mut twins = Vec::with_capacity(self.entries.len());
        let mut last_seen_at = vec![NONE; n];
        for u in 0..n {
            for &v in self.ring(u) {
                let v = v as usize;
                if v >= n {
                    return refuse(9, u);
                } else if v == u {
                    return refuse(18, u);
                } else if last_seen_at[v] == u as u16 {
                    return refuse(19, u);
                }
                last_seen_at[v] = u as u16;
                match self.ring(v).iter().position(|&entry| entry == u as u16) {
                    Some(twin) => twins.push(twin as u16),
                    None => return refuse(20, u),
                }
            }
        }
        Ok(twins)
    }

    /// Where w follows v at u, the entry before u at v must be w.
    fn check_triangles(&self, twins: &[u16]) -> Result<(), Refusal> {
        let n = self.starts.len() - 1;
        for u in 0..n {
            let ring = self.ring(u);
            let twins = &twins[self.starts[u]..self.starts[u + 1]];
            for (i, (&v, &twin)) in ring.iter().zip(twins).enumerate() {
                let w = *ring.get(i + 1).unwrap_or(&ring[0]);
                let other = self.ring(v as usize);
                let before = (twin as usize).checked_sub(1).unwrap_or(other.len() - 1);
                if other[before] != w {
                    return refuse(10, u);
                }
            }
        }
        Ok(())
    }
}

/// The ends of the run of the post in position k: none if all its neighbours are earlier.
fn find_run(ring: &[u16], position: &[u16], k: usize) -> Result<Option<(u16, u16)>, Refusal> {
    let earlier = |v: u16| (position[v as usize] as usize) < k;
    let (mut count, mut starts, mut first, mut last) = (0, 0, NONE, NONE);
    let mut before = ring[ring.len() - 1];
    for &v in ring {
        if earlier(v) {
            count += 1;
            if !earlier(before) {
                starts += 1;
                first = v;
            }
        } else if earlier(before) {
            last = before;
        }
        before = v;
    }
    if count < 2 {
        return refuse(12, k + 1);
    }
    if starts > 1 {
        return refuse(13, k + 1);
    }
    Ok((starts == 1).then_some((first, last)))
}
