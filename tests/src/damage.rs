//! Kinds of damage to the block of an accepted board, and boards in pieces.

mod draft;
mod each;
mod lists;
mod pieces;

pub use each::one_for_each;
pub use lists::{Plan, Slip};
pub use pieces::{order_of_pieces, pieces};

use crate::board::{mend_sum, Board};
use crate::layout::{FEWEST, HEADER, MOST, N_AT, VERSION_AT};
use crate::rng::Rng;
use draft::{without_later_neighbour, Draft};

/// A kind of damage.
pub struct Damage {
    pub name: &'static str,
    apply: fn(&mut Draft, &mut Rng),
}

/// A block with this damage: as it is, and with its sum mended.
pub fn both(kind: &Damage, board: &Board, rng: &mut Rng) -> [Vec<u8>; 2] {
    let mut draft = Draft {
        board,
        bytes: board.block(),
    };
    (kind.apply)(&mut draft, rng);
    let mut mended = draft.bytes.clone();
    mend_sum(&mut mended);
    [draft.bytes, mended]
}

macro_rules! damages {
    ($($name:literal: |$draft:ident, $rng:ident| $apply:expr),* $(,)?) => {
        &[$(Damage { name: $name, apply: |$draft: &mut Draft, $rng: &mut Rng| $apply }),*]
    };
}

/// All kinds of damage.
pub const KINDS: &[Damage] = damages![
    // the order
    "two posts in each other's place": |draft, rng| {
        let (i, j) = draft.two_posts(rng);
        draft.exchange_positions(i, j)
    },
    "two posts side by side in the order exchanged": |draft, rng| {
        let i = rng.below(draft.n() - 1);
        draft.exchange_positions(i, i + 1)
    },
    "v1 and v2 exchanged": |draft, _rng| draft.exchange_positions(0, 1),
    "v2 and vn exchanged": |draft, _rng| draft.exchange_positions(1, draft.n() - 1),
    "v1 and vn exchanged": |draft, _rng| draft.exchange_positions(0, draft.n() - 1),
    "an order entry repeated": |draft, rng| {
        let (i, j) = draft.two_posts(rng);
        draft.put(draft.order_at(i), draft.get(draft.order_at(j)))
    },
    "an order entry of n": |draft, rng| draft.put_one_entry(draft.n() as u16, rng),
    "an order entry of 65535": |draft, rng| draft.put_one_entry(65535, rng),
    "the order turned": |draft, rng| {
        let mut order = draft.board.order.clone();
        order.rotate_left(rng.between(1, draft.n() - 1));
        draft.put_order(&order)
    },
    "the order reversed": |draft, _rng| {
        let mut order = draft.board.order.clone();
        order.reverse();
        draft.put_order(&order)
    },
    "the order shuffled between v2 and vn": |draft, rng| draft.shuffle_order(2, rng),
    "the second half of the order shuffled": |draft, rng| {
        let half = draft.n() / 2 + 1;
        draft.shuffle_order(half, rng)
    },
    "one post fitted too early or too late": |draft, rng| {
        let mut order = draft.board.order.clone();
        let last = draft.n() - 1;
        if last > 2 {
            let post = order.remove(rng.between(2, last - 1));
            order.insert(rng.between(2, last - 1), post);
        }
        draft.put_order(&order)
    },
    "a post fitted just after the last of its neighbours": |draft, rng| {
        if let Some(order) = without_later_neighbour(draft.board, rng) {
            draft.put_order(&order)
        }
    },
    // the degrees
    "one degree up, another down": |draft, rng| {
        let (i, j) = draft.two_posts(rng);
        draft.change_degree(i, 1);
        draft.change_degree(j, -1)
    },
    "a degree up by one": |draft, rng| {
        let name = rng.below(draft.n());
        draft.change_degree(name, 1)
    },
    "a degree down by one": |draft, rng| {
        let name = rng.below(draft.n());
        draft.change_degree(name, -1)
    },
    "a degree of 0": |draft, rng| draft.put_one_degree(0, rng),
    "a degree of 1": |draft, rng| draft.put_one_degree(1, rng),
    "a degree of n": |draft, rng| draft.put_one_degree(draft.n() as u16, rng),
    "a degree of 65535": |draft, rng| draft.put_one_degree(65535, rng),
    "two degrees exchanged": |draft, rng| {
        let (i, j) = draft.two_posts(rng);
        draft.exchange(draft.degree_at(i), draft.degree_at(j))
    },
    // the lists
    "one list reversed": |draft, rng| {
        let name = rng.below(draft.n());
        let mut list = draft.board.rings[name].clone();
        list.reverse();
        draft.put_list(name, &list)
    },
    "every list reversed (the board from behind)": |draft, _rng| {
        for name in 0..draft.n() {
            let mut list = draft.board.rings[name].clone();
            list.reverse();
            draft.put_list(name, &list);
        }
    },
    "all entries turned past the ends of their lists": |draft, _rng| {
        let mut entries = draft.board.rings.concat();
        entries.rotate_left(1);
        draft.put_list(0, &entries)
    },
    "an entry dropped, the rest moved up": |draft, rng| {
        let mut entries = draft.board.rings.concat();
        let dropped = entries.remove(rng.below(entries.len()));
        entries.push(dropped);
        draft.put_list(0, &entries)
    },
    "two entries of a list exchanged": |draft, rng| {
        let name = rng.below(draft.n());
        let i = rng.below(draft.degree(name));
        let j = rng.below(draft.degree(name));
        draft.exchange(draft.entry_at(name, i), draft.entry_at(name, j))
    },
    "two entries of any lists exchanged": |draft, rng| {
        let (one, other) = (draft.any_entry_at(rng), draft.any_entry_at(rng));
        draft.exchange(one, other)
    },
    "a post as its own neighbour": |draft, rng| {
        let (name, i) = draft.any_entry(rng);
        draft.put(draft.entry_at(name, i), name as u16)
    },
    "an entry of n": |draft, rng| {
        let at = draft.any_entry_at(rng);
        draft.put(at, draft.n() as u16)
    },
    "an entry of 65535": |draft, rng| {
        let at = draft.any_entry_at(rng);
        draft.put(at, 65535)
    },
    "an entry repeated in its list": |draft, rng| {
        let (name, i) = draft.any_entry(rng);
        let j = (i + 1) % draft.degree(name);
        draft.put(draft.entry_at(name, i), draft.board.rings[name][j])
    },
    "an entry that isn't returned": |draft, rng| {
        let (name, i) = draft.any_entry(rng);
        let ring = &draft.board.rings[name];
        let strangers: Vec<u16> = (0..draft.n() as u16)
            .filter(|v| usize::from(*v) != name && !ring.contains(v))
            .collect();
        if !strangers.is_empty() {
            draft.put(draft.entry_at(name, i), rng.pick(&strangers));
        }
    },
    "bad entries in one list": |draft, rng| {
        let name = rng.below(draft.n());
        (0..rng.between(2, 4)).for_each(|_| draft.put_bad_entry(name, rng))
    },
    "bad entries in any lists": |draft, rng| {
        (0..rng.between(2, 6)).for_each(|_| draft.put_bad_entry(rng.below(draft.n()), rng))
    },
    "a wire laid elsewhere, at both ends": |draft, rng| {
        let mut rings = draft.board.rings.clone();
        let (a, i) = draft.any_entry(rng);
        let b = usize::from(rings[a].remove(i));
        rings[b].retain(|&v| usize::from(v) != a);
        let (c, d) = draft.two_posts(rng);
        let (at_c, at_d) = (rng.below(rings[c].len() + 1), rng.below(rings[d].len() + 1));
        rings[c].insert(at_c, d as u16);
        rings[d].insert(at_d, c as u16);
        draft.put_rings(&rings)
    },
    "a post moved within a list": |draft, rng| {
        let name = rng.below(draft.n());
        let mut list = draft.board.rings[name].clone();
        let post = list.remove(rng.below(list.len()));
        list.insert(rng.below(list.len() + 1), post);
        draft.put_list(name, &list)
    },
    "two names exchanged in the lists alone": |draft, rng| {
        let (a, b) = draft.two_posts(rng);
        let mut rings = draft.board.rings.clone();
        rings.swap(a, b);
        for entry in rings.iter_mut().flatten() {
            if usize::from(*entry) == a {
                *entry = b as u16;
            } else if usize::from(*entry) == b {
                *entry = a as u16;
            }
        }
        draft.put_rings(&rings)
    },
    "two lists exchanged with their degrees": |draft, rng| {
        let (a, b) = draft.two_posts(rng);
        let mut rings = draft.board.rings.clone();
        rings.swap(a, b);
        draft.put_rings(&rings)
    },
    "every entry one name too high": |draft, _rng| {
        let entries: Vec<u16> = draft.board.rings.iter().flatten().map(|v| v + 1).collect();
        draft.put_list(0, &entries)
    },
    // the header and the sum
    "another mark": |draft, rng| draft.bytes[rng.below(VERSION_AT)] ^= 1 << rng.below(8),
    "another version": |draft, rng| draft.put(VERSION_AT, rng.pick(&[0, 2, 256, 257, 65535])),
    "n one off": |draft, rng| {
        let n = draft.n() as u16;
        draft.put(N_AT, rng.pick(&[n - 1, n + 1]))
    },
    "n out of bounds": |draft, rng| {
        let n = rng.pick(&[0, 1, FEWEST - 1, MOST + 1, 2 * MOST, 65535]);
        draft.put(N_AT, n as u16)
    },
    "another n": |draft, rng| draft.put(N_AT, rng.between(FEWEST, MOST) as u16),
    "a sum one off": |draft, rng| {
        let at = draft.bytes.len() - 2;
        let by = rng.pick(&[1, 65535, 256]);
        draft.put(at, draft.get(at).wrapping_add(by))
    },
    "the two bytes of the sum exchanged": |draft, _rng| {
        let last = draft.bytes.len() - 1;
        draft.bytes.swap(last - 1, last)
    },
    "low bytes first": |draft, _rng| {
        draft.bytes[VERSION_AT..].chunks_exact_mut(2).for_each(<[u8]>::reverse)
    },
    // the length
    "cut in the header": |draft, rng| draft.cut(0, HEADER, rng),
    "cut in the order": |draft, rng| draft.cut(HEADER + 1, draft.degree_at(0), rng),
    "cut in the degrees": |draft, rng| draft.cut(draft.degree_at(0) + 1, draft.entry_at(0, 0), rng),
    "cut in the lists": |draft, rng| draft.cut(draft.entry_at(0, 0) + 1, draft.sum_at(), rng),
    "cut in the sum": |draft, rng| draft.cut(draft.sum_at(), draft.sum_at() + 1, rng),
    "bytes appended": |draft, rng| {
        let more = rng.between(1, 20);
        draft.bytes.extend((0..more).map(|_| rng.draw() as u8))
    },
    "a byte lost in the middle": |draft, rng| {
        let at = rng.below(draft.bytes.len());
        draft.bytes.remove(at);
    },
    "a byte too many in the middle": |draft, rng| {
        let at = rng.below(draft.bytes.len());
        draft.bytes.insert(at, rng.draw() as u8)
    },
    "the block twice": |draft, _rng| draft.bytes.extend_from_within(..),
    // anywhere
    "a bit turned": |draft, rng| {
        let at = rng.below(draft.bytes.len());
        draft.bytes[at] ^= 1 << rng.below(8)
    },
    "a byte changed": |draft, rng| {
        let at = rng.below(draft.bytes.len());
        draft.bytes[at] = rng.draw() as u8
    },
    "a number replaced by one that could be a name": |draft, rng| {
        let at = HEADER + 2 * rng.below((draft.bytes.len() - HEADER) / 2);
        draft.put(at, rng.below(draft.n() + 1) as u16)
    },
    "all zero": |draft, _rng| draft.bytes.fill(0),
    "all zero behind the header": |draft, _rng| draft.bytes[HEADER..].fill(0),
    "chance behind the header": |draft, rng| {
        draft.bytes[HEADER..].iter_mut().for_each(|byte| *byte = rng.draw() as u8)
    },
    "chance names behind a right order and right degrees": |draft, rng| {
        for at in (draft.entry_at(0, 0)..draft.sum_at()).step_by(2) {
            draft.put(at, rng.below(draft.n()) as u16);
        }
    },
    "chance throughout": |draft, rng| {
        draft.bytes.iter_mut().for_each(|byte| *byte = rng.draw() as u8)
    },
];

#[cfg(test)]
mod tests;
