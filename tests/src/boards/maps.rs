//! Maps without an order, from triangles.

use super::Rings;
use crate::rng::Rng;

/// A triangle, its posts counter-clockwise.
type Triangle = [u16; 3];

/// The rings of the map with these triangles: where (u, v, w) is one, w follows v at u.
fn rings_of(n: usize, triangles: &[Triangle]) -> Rings {
    let mut followers: Vec<Vec<(u16, u16)>> = vec![Vec::new(); n];
    for &[a, b, c] in triangles {
        for (u, v, w) in [(a, b, c), (b, c, a), (c, a, b)] {
            followers[u as usize].push((v, w));
        }
    }
    followers.iter().map(|pairs| ring_of(pairs)).collect()
}

/// The ring in which w follows v for each pair (v, w).
fn ring_of(pairs: &[(u16, u16)]) -> Vec<u16> {
    let mut sorted = pairs.to_vec();
    sorted.sort_unstable();
    let mut ring = vec![sorted[0].0];
    for _ in 1..sorted.len() {
        let last = ring[ring.len() - 1];
        let at = sorted.binary_search_by_key(&last, |pair| pair.0).unwrap();
        ring.push(sorted[at].1);
    }
    ring
}

/// Both sides of one triangle. The outside is (0, 2, 1).
fn two_sides() -> Vec<Triangle> {
    vec![[0, 1, 2], [0, 2, 1]]
}

/// Put a new post into the triangle with this index.
fn stack(triangles: &mut Vec<Triangle>, index: usize, new: u16) {
    let [a, b, c] = triangles[index];
    triangles[index] = [a, b, new];
    triangles.push([b, c, new]);
    triangles.push([c, a, new]);
}

/// Stacked: each new post goes into a triangle drawn by lot.
pub fn stacked(n: usize, rng: &mut Rng) -> Rings {
    let mut triangles = two_sides();
    for new in 3..n as u16 {
        let index = rng.below(triangles.len());
        stack(&mut triangles, index, new);
    }
    rings_of(n, &triangles)
}

/// Stacked, but mostly beside one of the first `hubs` posts, which become hubs.
pub fn with_hubs(n: usize, hubs: u16, rng: &mut Rng) -> Rings {
    let mut triangles = two_sides();
    for new in 3..n as u16 {
        let mut index = rng.below(triangles.len());
        for _ in 0..20 {
            if triangles[index].iter().any(|&post| post < hubs) {
                break;
            }
            index = rng.below(triangles.len());
        }
        stack(&mut triangles, index, new);
    }
    rings_of(n, &triangles)
}

/// Two hubs joined to every post of a ring of n - 2 (n from 5).
pub fn two_poles(n: usize) -> Rings {
    let (north, south) = (n as u16 - 2, n as u16 - 1);
    let mut triangles = Vec::new();
    for a in 0..north {
        let b = (a + 1) % north;
        triangles.push([a, b, north]);
        triangles.push([b, a, south]);
    }
    rings_of(n, &triangles)
}

/// Triangles nested in one another; posts left over are stacked.
pub fn nested(n: usize, rng: &mut Rng) -> Rings {
    let mut triangles = two_sides();
    let mut inmost = 0;
    let mut new = 3;
    while new + 3 <= n as u16 {
        let [a, b, c] = triangles[inmost];
        let [d, e, f] = [new, new + 1, new + 2];
        triangles[inmost] = [a, b, d];
        triangles.extend([[b, e, d], [b, c, e], [c, f, e], [c, a, f], [a, d, f]]);
        inmost = triangles.len();
        triangles.push([d, e, f]);
        new += 3;
    }
    for new in new..n as u16 {
        let index = rng.below(triangles.len());
        stack(&mut triangles, index, new);
    }
    rings_of(n, &triangles)
}

/// The complete graph of seven posts on a torus: every two posts have a wire.
pub fn seven_post_torus() -> Rings {
    let ring = |i: u16| [1, 3, 2, 6, 4, 5].map(|step| (i + step) % 7).to_vec();
    (0..7).map(ring).collect()
}

/// A torus of `rows` times `columns` posts (3 or more each), six wires at each.
pub fn grid_torus(rows: u16, columns: u16) -> Rings {
    let name = |row: u16, column: u16| (row % rows) * columns + column % columns;
    let ring = |i: u16| {
        let (r, c) = (i / columns, i % columns);
        let (up, right) = (r + 1, c + 1);
        let (down, left) = (r + rows - 1, c + columns - 1);
        let around = [
            (r, right),
            (up, right),
            (up, c),
            (r, left),
            (down, left),
            (down, c),
        ];
        around.map(|(row, column)| name(row, column)).to_vec()
    };
    (0..rows * columns).map(ring).collect()
}

/// Two maps beside each other: the names of the second count on from the first.
pub fn beside(first: &Rings, second: &Rings) -> Rings {
    let shift = first.len() as u16;
    let moved = |ring: &Vec<u16>| ring.iter().map(|v| v + shift).collect();
    let mut both = first.clone();
    both.extend(second.iter().map(moved));
    both
}

/// The entry that follows `a` in a ring, and the one before it.
pub fn around(ring: &[u16], a: u16) -> (u16, u16) {
    let i = ring.iter().position(|&v| v == a).unwrap();
    let m = ring.len();
    (ring[(i + 1) % m], ring[(i + m - 1) % m])
}

/// Try to turn `times` wires drawn by lot: the wire between two triangles goes,
/// the other diagonal comes. A wire is left where it is if its ends would have
/// fewer than three wires or the other diagonal is there already.
pub fn flip(rings: &mut Rings, times: usize, rng: &mut Rng) {
    for _ in 0..times {
        let a = rng.below(rings.len()) as u16;
        let b = rng.pick(&rings[a as usize]);
        flip_wire(rings, a, b);
    }
}

fn flip_wire(rings: &mut Rings, a: u16, b: u16) {
    let (c, d) = around(&rings[a as usize], b);
    let few = rings[a as usize].len() < 4 || rings[b as usize].len() < 4;
    if few || rings[c as usize].contains(&d) {
        return;
    }
    rings[a as usize].retain(|&v| v != b);
    rings[b as usize].retain(|&v| v != a);
    insert_after(&mut rings[c as usize], a, d);
    insert_after(&mut rings[d as usize], b, c);
}

fn insert_after(ring: &mut Vec<u16>, entry: u16, new: u16) {
    let i = ring.iter().position(|&v| v == entry).unwrap();
    ring.insert(i + 1, new);
}
