//! A block while it is damaged: its numbers by what they are.

use crate::board::Board;
use crate::boards::Rings;
use crate::layout;
use crate::rng::Rng;

/// A block being damaged, with the board it was made from.
pub struct Draft<'a> {
    pub board: &'a Board,
    pub bytes: Vec<u8>,
}

impl Draft<'_> {
    pub fn n(&self) -> usize {
        self.board.posts()
    }

    pub fn degree(&self, name: usize) -> usize {
        self.board.rings[name].len()
    }

    /// The offset of the order entry in a position, counted from 0.
    pub fn order_at(&self, position: usize) -> usize {
        layout::order_at(position)
    }

    /// The offset of a post's degree.
    pub fn degree_at(&self, name: usize) -> usize {
        layout::degree_at(self.n(), name)
    }

    /// The offset of entry i of a post's list.
    pub fn entry_at(&self, name: usize, i: usize) -> usize {
        let before: usize = (0..name).map(|other| self.degree(other)).sum();
        layout::entry_at(self.n(), before + i)
    }

    /// Where the lists end.
    pub fn sum_at(&self) -> usize {
        layout::sum_at(self.n())
    }

    pub fn get(&self, at: usize) -> u16 {
        layout::get(&self.bytes, at)
    }

    pub fn put(&mut self, at: usize, number: u16) {
        layout::put(&mut self.bytes, at, number);
    }

    pub fn exchange(&mut self, at: usize, other: usize) {
        let (one, two) = (self.get(at), self.get(other));
        self.put(at, two);
        self.put(other, one);
    }

    pub fn exchange_positions(&mut self, i: usize, j: usize) {
        self.exchange(self.order_at(i), self.order_at(j));
    }

    pub fn put_order(&mut self, order: &[u16]) {
        for (position, &name) in order.iter().enumerate() {
            self.put(self.order_at(position), name);
        }
    }

    pub fn put_list(&mut self, name: usize, list: &[u16]) {
        for (i, &entry) in list.iter().enumerate() {
            self.put(self.entry_at(name, i), entry);
        }
    }

    /// Write degrees and lists of other rings with as many entries in all.
    pub fn put_rings(&mut self, rings: &Rings) {
        for (name, ring) in rings.iter().enumerate() {
            self.put(self.degree_at(name), ring.len() as u16);
        }
        let mut at = self.entry_at(0, 0);
        for &entry in rings.iter().flatten() {
            self.put(at, entry);
            at += 2;
        }
    }

    /// A post and an index in its list.
    pub fn any_entry(&self, rng: &mut Rng) -> (usize, usize) {
        let name = rng.below(self.n());
        (name, rng.below(self.degree(name)))
    }

    /// The offset of any entry of any list.
    pub fn any_entry_at(&self, rng: &mut Rng) -> usize {
        let (name, i) = self.any_entry(rng);
        self.entry_at(name, i)
    }

    /// Write over one entry of a post's list: with no post's name, with the post
    /// itself, with another entry of the list, or with any post.
    pub fn put_bad_entry(&mut self, name: usize, rng: &mut Rng) {
        let (degree, n) = (self.degree(name), self.n());
        let at = |i| self.entry_at(name, i);
        let (entry, other) = (at(rng.below(degree)), at(rng.below(degree)));
        let bad = match rng.below(5) {
            0 => n as u16,
            1 => 65535,
            2 => name as u16,
            3 => self.get(other),
            _ => rng.below(n) as u16,
        };
        self.put(entry, bad)
    }

    /// Two different posts.
    pub fn two_posts(&self, rng: &mut Rng) -> (usize, usize) {
        let one = rng.below(self.n());
        let other = (one + rng.between(1, self.n() - 1)) % self.n();
        (one, other)
    }

    /// A number in one position of the order; as one post's degree.
    pub fn put_one_entry(&mut self, number: u16, rng: &mut Rng) {
        let position = rng.below(self.n());
        self.put(self.order_at(position), number)
    }

    pub fn put_one_degree(&mut self, number: u16, rng: &mut Rng) {
        let name = rng.below(self.n());
        self.put(self.degree_at(name), number)
    }

    pub fn change_degree(&mut self, name: usize, by: i32) {
        let degree = i32::from(self.get(self.degree_at(name)));
        self.put(self.degree_at(name), (degree + by).max(0) as u16);
    }

    pub fn cut(&mut self, low: usize, high: usize, rng: &mut Rng) {
        self.bytes.truncate(rng.between(low, high));
    }

    /// An order with the posts from position `from` to the last but one shuffled.
    pub fn shuffle_order(&mut self, from: usize, rng: &mut Rng) {
        let mut order = self.board.order.clone();
        let last = self.n() - 1;
        rng.shuffle(&mut order[from.min(last)..last]);
        self.put_order(&order);
    }
}

/// The board's order with one post, drawn by lot, moved to just after the last
/// of its neighbours: all of them are earlier, and its position is below n. The
/// post has no wire to vn, so v1, v2 and vn stay; there may be no such post.
pub fn without_later_neighbour(board: &Board, rng: &mut Rng) -> Option<Vec<u16>> {
    let mut order = board.order.clone();
    let vn = order[order.len() - 1];
    let ring = |post: u16| &board.rings[post as usize];
    let far_from_vn = |post: &u16| *post != vn && !ring(*post).contains(&vn);
    let posts: Vec<u16> = order.iter().copied().filter(far_from_vn).collect();
    if posts.is_empty() {
        return None;
    }
    let post = rng.pick(&posts);
    order.retain(|&other| other != post);
    let last = order.iter().rposition(|other| ring(post).contains(other))?;
    order.insert(last + 1, post);
    Some(order)
}
