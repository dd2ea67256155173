//! The order's rule at each position, and the run of the post there.

use super::{refuse, Board};
use crate::reply::{Fit, Refusal};

impl Board {
    /// For each entry of vk's ring, whether it stands in an earlier position.
    fn earlier(&self, k: usize) -> Vec<bool> {
        let ring = &self.lists[self.v(k)];
        ring.iter().map(|&v| self.positions[v] < k).collect()
    }

    /// Steps 12 and 13 at position k.
    ///
    /// What is asserted after them is the claim that a refusal for a post
    /// without later neighbours isn't needed: it is tried on every block that
    /// comes here. As long as 12 and 13 don't come, each run is a stretch of
    /// the contour, a ring of wires with v1 v2 among them. A post below position
    /// n with earlier neighbours alone would have the whole contour around it,
    /// and so v1 following v2 in its ring; then it would follow v1 at v2, where
    /// step 11 has found vn.
    pub fn canonical_at(&self, k: usize) -> Result<(), Refusal> {
        let earlier = self.earlier(k);
        if earlier.iter().filter(|&&is| is).count() < 2 {
            return refuse(12, k);
        }
        if run_starts(&earlier).len() > 1 {
            return refuse(13, k);
        }
        assert!(
            k == self.n || earlier.contains(&false),
            "the claim that no block can show 14: position {k} passes 12 and 13 \
             and has no later neighbour"
        );
        Ok(())
    }

    /// The run of vk (O6): its earlier neighbours in the turn of the ring. Where
    /// they are all of it, for vn, the first is v1.
    pub fn run(&self, k: usize) -> Vec<usize> {
        let ring = &self.lists[self.v(k)];
        let earlier = self.earlier(k);
        let start = if k == self.n {
            ring.iter().position(|&v| v == self.v(1)).unwrap()
        } else {
            run_starts(&earlier)[0]
        };
        let turned = (0..ring.len()).map(|i| (start + i) % ring.len());
        turned
            .take_while(|&i| earlier[i])
            .map(|i| ring[i])
            .collect()
    }

    /// The ends of a post's run, if it is placed at this stage and has one: v1, v2
    /// and waiting posts tell themselves twice.
    pub fn fit(&self, name: usize, stage: usize) -> Fit {
        let k = self.positions[name];
        let run = if (3..=stage).contains(&k) {
            self.run(k)
        } else {
            vec![name]
        };
        Fit {
            left: run[0] as u16,
            right: run[run.len() - 1] as u16,
        }
    }
}

/// The places in a ring where a run of earlier neighbours starts: the entry
/// is earlier and the one before it isn't. There is none if all are earlier.
fn run_starts(earlier: &[bool]) -> Vec<usize> {
    let before = |i: usize| earlier[(i + earlier.len() - 1) % earlier.len()];
    let starts = (0..earlier.len()).filter(|&i| earlier[i] && !before(i));
    starts.collect()
}
