//! The shift method in linear time.

use super::{Board, NONE};

/// A stage. `x` holds the distance from the left neighbour (on the contour, or
/// among the posts covered together; the first of those counts from the post
/// that covers it) until `add_up` makes it the column.
pub struct Drawing {
    pub x: Vec<i32>,
    pub y: Vec<i32>,
    pub left: Vec<u16>,
    pub right: Vec<u16>,
    first_covered: Vec<u16>,
    pub covered_by: Vec<u16>,
}

impl Drawing {
    pub fn at_stage(board: &Board, stage: usize) -> Self {
        let n = board.order.len();
        let mut drawing = Drawing {
            x: vec![0; n],
            y: vec![0; n],
            left: vec![NONE; n],
            right: vec![NONE; n],
            first_covered: vec![NONE; n],
            covered_by: vec![NONE; n],
        };
        drawing.start(board.order[0], board.order[1], board.order[2]);
        for k in 3..stage {
            drawing.place(board.order[k], board.run_ends[k]);
        }
        drawing.add_up(&board.order[..stage]);
        drawing
    }

    fn start(&mut self, v1: u16, v2: u16, v3: u16) {
        self.x[v3 as usize] = 1;
        self.x[v2 as usize] = 1;
        self.y[v3 as usize] = 1;
        self.left[v1 as usize] = v1;
        self.right[v2 as usize] = v2;
        self.join(v1, v3);
        self.join(v3, v2);
    }

    fn join(&mut self, left: u16, right: u16) {
        self.right[left as usize] = right;
        self.left[right as usize] = left;
    }

    fn place(&mut self, new: u16, (l, r): (u16, u16)) {
        let first = self.right[l as usize];
        let last = self.left[r as usize];
        self.x[first as usize] += 1;
        self.x[r as usize] += 1;
        let mut width = self.x[r as usize];
        let mut w = first;
        while w != r {
            width += self.x[w as usize];
            self.covered_by[w as usize] = new;
            w = self.right[w as usize];
        }
        let (yl, yr) = (self.y[l as usize], self.y[r as usize]);
        let from_left = (width + yr - yl) / 2;
        self.x[new as usize] = from_left;
        self.y[new as usize] = (width + yr + yl) / 2;
        self.x[r as usize] = width - from_left;
        if first != r {
            self.x[first as usize] -= from_left;
            self.first_covered[new as usize] = first;
            self.right[last as usize] = NONE;
        }
        self.join(l, new);
        self.join(new, r);
    }

    /// The contour from left to right, then what each post covers, the latest first.
    fn add_up(&mut self, standing: &[u16]) {
        let (v1, v2) = (standing[0], standing[1]);
        let mut w = v1;
        while w != v2 {
            let next = self.right[w as usize];
            self.x[next as usize] += self.x[w as usize];
            w = next;
        }
        for &post in standing.iter().rev() {
            let mut column = self.x[post as usize];
            let mut w = self.first_covered[post as usize];
            while w != NONE {
                column += self.x[w as usize];
                self.x[w as usize] = column;
                w = self.right[w as usize];
            }
        }
    }
}
