//! A board as a block describes it, and the block's bytes.

use crate::layout;

/// An order of fitting and a ring for each name: a board, whether right or wrong.
#[derive(Clone, PartialEq, Eq, Debug)]
pub struct Board {
    pub order: Vec<u16>,
    pub rings: Vec<Vec<u16>>,
}

impl Board {
    pub fn posts(&self) -> usize {
        self.order.len()
    }

    /// The position of each name, counted from 0.
    pub fn positions(&self) -> Vec<usize> {
        let mut positions = vec![0; self.posts()];
        for (i, &name) in self.order.iter().enumerate() {
            positions[name as usize] = i;
        }
        positions
    }

    /// The block of this board, with its sum.
    pub fn block(&self) -> Vec<u8> {
        let mut block = layout::header(self.order.len() as u16);
        let mut put = |number: u16| block.extend(number.to_be_bytes());
        self.order.iter().for_each(|&name| put(name));
        self.rings.iter().for_each(|ring| put(ring.len() as u16));
        self.rings.iter().flatten().for_each(|&entry| put(entry));
        put(0);
        mend_sum(&mut block);
        block
    }
}

/// The sum of these bytes, wrapped at 65,536.
pub fn sum(bytes: &[u8]) -> u16 {
    bytes
        .iter()
        .fold(0, |sum, &byte| sum.wrapping_add(u16::from(byte)))
}

/// Write the sum of all earlier bytes into the last two, if there are two.
pub fn mend_sum(block: &mut [u8]) {
    if let Some(at) = block.len().checked_sub(2) {
        let right = sum(&block[..at]);
        layout::put(block, at, right);
    }
}

/// Board T of the paper.
pub fn t() -> Board {
    Board {
        order: vec![0, 1, 2],
        rings: vec![vec![1, 2], vec![2, 0], vec![0, 1]],
    }
}

/// Board D of the paper.
pub fn d() -> Board {
    Board {
        order: vec![0, 1, 2, 3, 4],
        rings: vec![
            vec![1, 2, 3, 4],
            vec![4, 3, 2, 0],
            vec![0, 1, 3],
            vec![0, 2, 1, 4],
            vec![0, 3, 1],
        ],
    }
}
