//! Chrobak and Nakano's conditions co1 to co3, checked on faces that are walked.
//!
//! A board that passes steps 1 to 11 is a drawing on a surface without any
//! points: at each post its ring tells how the wires lie around it, counter-
//! clockwise. Striking the waiting posts out of all rings leaves the drawing
//! of G_k, and its faces are walked wire by wire. Nothing in here knows of
//! runs, of the table's rule for each position, or of placing. Their
//! words are read so:
//!
//! - *G_k*, the subgraph that v1 to vk induce: these posts and every wire
//!   between two of them, each ring being the board's without its other
//!   entries.
//! - *face*: a way goes along a wire from u to v and then on to the entry just
//!   before u in v's ring, so that what it goes round lies on its left. Going
//!   on in this manner comes back to the start, and the wires gone along, each
//!   in one direction, bound one face. A face has a corner for each of them.
//! - *external* or *exterior face, C_k*: the face of G_k in which the board's
//!   outer triangle lies. That triangle lies at v2 in the corner after v1,
//!   where vn follows, and so on one side of the wire v1 v2; every other face is
//!   *internal*.
//! - *2-connected*: three posts or more, each of which can be reached from each
//!   along wires, also when any one post is taken away.
//! - *internally triangulated*: every internal face has three corners.
//! - *C_k contains (v1, v2)*: the way round C_k goes along the wire v1 v2.
//! - *v_(k+1) is in the exterior face*: a waiting post lies in the face of G_k
//!   that has the corner of a placed post's ring in which it stands. A post
//!   with waiting neighbours alone lies where they lie.
//! - *belong to C_k*: the way round C_k comes past that post.
//!
//! By this reading co2 can't fail once step 11 has passed: the side of v1 v2 on
//! which the outer triangle lies is a side of v1 v2. It is looked for on the
//! way round nonetheless.

use crate::board::Board;

/// One of the three conditions.
#[derive(Clone, Copy, PartialEq, Eq, Debug)]
pub enum Condition {
    Co1,
    Co2,
    Co3,
}

/// The first of the conditions that the board breaks at stage k, from 3 to n.
/// The board is one that passes steps 1 to 11.
pub fn broken_at(board: &Board, k: usize) -> Option<Condition> {
    let graph = Induced::of(board, k);
    // The faces are walked only if G_k is connected: otherwise one walk
    // doesn't go all the way round a face.
    if !graph.is_2_connected() {
        return Some(Condition::Co1);
    }
    let exterior = Face::new(graph.exterior_face());
    if !graph.is_internally_triangulated(&exterior) {
        return Some(Condition::Co1);
    }
    if !exterior.has_wire(board.order[0], board.order[1]) {
        return Some(Condition::Co2);
    }
    let next = board.order.get(k)?;
    let kept = graph.lies_in(*next, &exterior) && graph.touches_only(*next, &exterior);
    (!kept).then_some(Condition::Co3)
}

/// The first stage at which the board breaks a condition, and which one.
pub fn first_broken(board: &Board) -> Option<(usize, Condition)> {
    (3..=board.posts()).find_map(|k| Some((k, broken_at(board, k)?)))
}

/// The exterior face of G_k from v1 to v2, the way round that isn't the wire
/// v1 v2. G_k is connected.
pub fn contour(board: &Board, k: usize) -> Vec<u16> {
    let mut posts = Induced::of(board, k).exterior_face();
    // The way round begins along the wire from v2 to v1.
    posts.rotate_left(1);
    posts
}

/// G_k within its board.
struct Induced<'a> {
    board: &'a Board,
    k: usize,
    /// Whether each name is placed.
    placed: Vec<bool>,
    /// The rings by name without their waiting posts; none at a waiting post.
    rings: Vec<Vec<u16>>,
}

/// The way round a face, from one post to the next, and at the end to the first.
struct Face {
    /// Its steps along a wire, sorted.
    steps: Vec<(u16, u16)>,
}

impl Face {
    fn new(posts: Vec<u16>) -> Self {
        let ends = posts.iter().cycle().skip(1);
        let mut steps: Vec<(u16, u16)> = posts.iter().copied().zip(ends.copied()).collect();
        steps.sort_unstable();
        Face { steps }
    }

    fn has_step(&self, from: u16, to: u16) -> bool {
        self.steps.binary_search(&(from, to)).is_ok()
    }

    /// Whether the way goes along this wire, in either direction.
    fn has_wire(&self, one: u16, other: u16) -> bool {
        self.has_step(one, other) || self.has_step(other, one)
    }

    fn has_post(&self, post: u16) -> bool {
        self.steps.iter().any(|step| step.0 == post)
    }
}

impl<'a> Induced<'a> {
    fn of(board: &'a Board, k: usize) -> Self {
        let mut placed = vec![false; board.posts()];
        for &name in &board.order[..k] {
            placed[name as usize] = true;
        }
        let ring_of = |name: usize| -> Vec<u16> {
            let entries = board.rings[name].iter().copied();
            entries.filter(|&v| placed[v as usize]).collect()
        };
        let mut rings = vec![Vec::new(); board.posts()];
        for &name in &board.order[..k] {
            rings[name as usize] = ring_of(name as usize);
        }
        Induced {
            board,
            k,
            placed,
            rings,
        }
    }

    fn is_2_connected(&self) -> bool {
        let posts = &self.board.order[..self.k];
        self.k >= 3
            && self.is_connected(None)
            && posts.iter().all(|&post| self.is_connected(Some(post)))
    }

    /// Whether all posts can be reached from one another, without one if it is given.
    fn is_connected(&self, without: Option<u16>) -> bool {
        let mut posts = self.board.order[..self.k].iter().copied();
        let Some(start) = posts.find(|&post| Some(post) != without) else {
            return true;
        };
        let mut seen = vec![false; self.placed.len()];
        seen[start as usize] = true;
        if let Some(post) = without {
            seen[post as usize] = true;
        }
        let reached = reach(start, &mut seen, &self.rings);
        reached.len() + usize::from(without.is_some()) == self.k
    }

    /// The posts past which the way round the face left of the step goes,
    /// beginning with that step.
    fn face(&self, from: u16, to: u16) -> Vec<u16> {
        let mut posts = Vec::new();
        let (mut u, mut v) = (from, to);
        loop {
            posts.push(u);
            (u, v) = (v, entry_before(&self.rings[v as usize], u));
            if (u, v) == (from, to) {
                return posts;
            }
        }
    }

    /// The exterior face, beginning with the step from v2 to v1: the outer
    /// triangle lies in the corner of v2 that comes after v1.
    fn exterior_face(&self) -> Vec<u16> {
        self.face(self.board.order[1], self.board.order[0])
    }

    /// Whether every face other than the exterior one has three corners.
    fn is_internally_triangulated(&self, exterior: &Face) -> bool {
        let from = |u: u16| self.rings[u as usize].iter().map(move |&v| (u, v));
        let mut steps = self.board.order[..self.k].iter().flat_map(|&u| from(u));
        steps.all(|(u, v)| exterior.has_step(u, v) || self.face(u, v).len() == 3)
    }

    /// The corners of placed posts in which a waiting post stands, or one to
    /// which it is joined by waiting posts. Each is told by the step that has
    /// it on its left: from the placed post to the placed one before the corner.
    /// There is none if the waiting post is on another piece than G_k.
    fn corners_around(&self, waiting: u16) -> Vec<(u16, u16)> {
        let mut seen = self.placed.clone();
        seen[waiting as usize] = true;
        let mut corners = Vec::new();
        for post in reach(waiting, &mut seen, &self.board.rings) {
            for &u in self.placed_neighbours(post) {
                corners.push((u, self.placed_before(u, post)));
            }
        }
        corners
    }

    fn placed_neighbours(&self, post: u16) -> impl Iterator<Item = &u16> {
        let ring = &self.board.rings[post as usize];
        ring.iter().filter(|&&v| self.placed[v as usize])
    }

    /// The last placed entry before this one in u's ring.
    fn placed_before(&self, u: u16, entry: u16) -> u16 {
        let ring = &self.board.rings[u as usize];
        let mut before = entry_before(ring, entry);
        while !self.placed[before as usize] {
            before = entry_before(ring, before);
        }
        before
    }

    /// Whether a waiting post lies in the face.
    fn lies_in(&self, waiting: u16, face: &Face) -> bool {
        let corners = self.corners_around(waiting);
        !corners.is_empty() && corners.iter().all(|&(u, v)| face.has_step(u, v))
    }

    /// Whether all placed neighbours of a waiting post are posts of the face.
    fn touches_only(&self, waiting: u16, face: &Face) -> bool {
        self.placed_neighbours(waiting).all(|&v| face.has_post(v))
    }
}

/// The entry before `a` in a ring: before the first stands the last.
fn entry_before(ring: &[u16], a: u16) -> u16 {
    let i = ring.iter().position(|&v| v == a).unwrap();
    ring[i.checked_sub(1).unwrap_or(ring.len() - 1)]
}

/// All posts that can be reached from `start` past posts not yet seen. They
/// are marked as seen; the start is already.
fn reach(start: u16, seen: &mut [bool], rings: &[Vec<u16>]) -> Vec<u16> {
    let mut reached = vec![start];
    let mut i = 0;
    while i < reached.len() {
        for &v in &rings[reached[i] as usize] {
            if !seen[v as usize] {
                seen[v as usize] = true;
                reached.push(v);
            }
        }
        i += 1;
    }
    reached
}

#[cfg(test)]
mod tests;
