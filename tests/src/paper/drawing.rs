//! The stages, each by moving whole groups.

use super::Board;
use crate::reply::Standing;

/// A stage: where the posts stand, the contour from left to right, the group of
/// each contour post, and by whom the others are covered. All by name.
pub struct Drawing {
    points: Vec<Option<(i64, i64)>>,
    contour: Vec<usize>,
    groups: Vec<Vec<usize>>,
    covered_by: Vec<Option<usize>>,
}

impl Drawing {
    pub fn at_stage(board: &Board, stage: usize) -> Self {
        let mut drawing = Self::at_stage_3(board);
        for k in 4..=stage {
            drawing.place(board.v(k), &board.run(k));
        }
        drawing
    }

    fn at_stage_3(board: &Board) -> Self {
        let (v1, v2, v3) = (board.v(1), board.v(2), board.v(3));
        let mut points = vec![None; board.n];
        points[v1] = Some((0, 0));
        points[v3] = Some((1, 1));
        points[v2] = Some((2, 0));
        let mut groups = vec![Vec::new(); board.n];
        for v in [v1, v3, v2] {
            groups[v] = vec![v];
        }
        Drawing {
            points,
            contour: vec![v1, v3, v2],
            groups,
            covered_by: vec![None; board.n],
        }
    }

    /// From one stage to the next: place the post with this run.
    fn place(&mut self, new: usize, run: &[usize]) {
        let p = self.contour_index(run[0]);
        let q = self.contour_index(run[run.len() - 1]);
        assert_eq!(
            self.contour[p..=q],
            *run,
            "a run is a stretch of the contour"
        );

        let between = self.contour[p + 1..q].to_vec();
        let right = self.contour[q..].to_vec();
        self.move_groups(&between, 1);
        self.move_groups(&right, 2);

        let (xl, yl) = self.points[run[0]].unwrap();
        let (xr, yr) = self.points[run[run.len() - 1]].unwrap();
        self.points[new] = Some((half(xl + xr + yr - yl), half(xr - xl + yr + yl)));

        self.groups[new] = vec![new];
        for &w in &between {
            let group = std::mem::take(&mut self.groups[w]);
            self.groups[new].extend(group);
            self.covered_by[w] = Some(new);
        }
        self.contour.splice(p + 1..q, [new]);
    }

    fn contour_index(&self, name: usize) -> usize {
        self.contour.iter().position(|&w| w == name).unwrap()
    }

    /// Move the groups of these contour posts to the right.
    fn move_groups(&mut self, contour_posts: &[usize], by: i64) {
        for &w in contour_posts {
            for &member in &self.groups[w] {
                self.points[member].as_mut().unwrap().0 += by;
            }
        }
    }

    /// Where a post stands; (0, 0) for one that waits (R2).
    pub fn point(&self, name: usize) -> (u16, u16) {
        let (x, y) = self.points[name].unwrap_or((0, 0));
        (x.try_into().unwrap(), y.try_into().unwrap())
    }

    /// How a post stands; v1 is its own left neighbour, and v2 its own right one (R3).
    pub fn standing(&self, name: usize) -> Standing {
        if let Some(by) = self.covered_by[name] {
            return Standing::Covered { by: by as u16 };
        }
        if self.points[name].is_none() {
            return Standing::Waiting;
        }
        let i = self.contour_index(name);
        let last = self.contour.len() - 1;
        Standing::OnContour {
            left: self.contour[i.saturating_sub(1)] as u16,
            right: self.contour[last.min(i + 1)] as u16,
        }
    }
}

/// Half of an even number.
fn half(sum: i64) -> i64 {
    assert_eq!(sum.rem_euclid(2), 0, "both halves are exact");
    sum / 2
}
