//! What sheet wrote tested with whole numbers alone: the third demand, and that
//! no sheet is the mirror image of its rings.

use crate::board::Board;

/// A point of the grid.
type Point = (i64, i64);

/// The points of a sheet by position, counted from 0.
fn points(sheet: &[u16]) -> Vec<Point> {
    let point = |pair: &[u16]| (i64::from(pair[0]), i64::from(pair[1]));
    sheet.chunks_exact(2).map(point).collect()
}

/// The wires of stage k (M1), by position counted from 0.
fn wires(board: &Board, k: usize) -> Vec<(usize, usize)> {
    let position = board.positions();
    let mut wires = Vec::new();
    for (u, &name) in board.order[..k].iter().enumerate() {
        let ends = board.rings[name as usize].iter();
        let later = ends
            .map(|&v| position[v as usize])
            .filter(|&v| u < v && v < k);
        wires.extend(later.map(|v| (u, v)));
    }
    wires
}

/// The inner triangles of stage k by position counted from 0, each read at all
/// three corners: u, a, b where b follows a at u and all three are placed. The
/// outer triangle v2, v1, vn is left out, at whichever corner it is read.
fn inner_triangles(board: &Board, k: usize) -> Vec<[usize; 3]> {
    let position = board.positions();
    let last = board.posts() - 1;
    let outer = [[1, 0, last], [0, last, 1], [last, 1, 0]];
    let mut triangles = Vec::new();
    for (u, &name) in board.order[..k].iter().enumerate() {
        let ring = &board.rings[name as usize];
        for (i, &a) in ring.iter().enumerate() {
            let b = ring[(i + 1) % ring.len()];
            let triangle = [u, position[a as usize], position[b as usize]];
            if triangle.iter().all(|&post| post < k) && !outer.contains(&triangle) {
                triangles.push(triangle);
            }
        }
    }
    triangles
}

/// Twice the signed area of the triangle a, b, c: above zero if c lies left of
/// the line from a to b, below zero if right of it.
fn side(a: Point, b: Point, c: Point) -> i64 {
    (b.0 - a.0) * (c.1 - a.1) - (b.1 - a.1) * (c.0 - a.0)
}

/// Whether c, on the line through a and b, lies on the segment between them.
fn within(a: Point, b: Point, c: Point) -> bool {
    let inside = |p: i64, q: i64, r: i64| p.min(q) <= r && r <= p.max(q);
    inside(a.0, b.0, c.0) && inside(a.1, b.1, c.1)
}

/// Whether some point lies on both segments, ends counted.
fn meet(a: Point, b: Point, c: Point, d: Point) -> bool {
    let apart = |p: i64, q: i64, r: i64, s: i64| p.max(q) < r.min(s) || r.max(s) < p.min(q);
    if apart(a.0, b.0, c.0, d.0) || apart(a.1, b.1, c.1, d.1) {
        return false;
    }
    let (c_side, d_side) = (side(a, b, c).signum(), side(a, b, d).signum());
    let (a_side, b_side) = (side(c, d, a).signum(), side(c, d, b).signum());
    (c_side * d_side < 0 && a_side * b_side < 0)
        || (c_side == 0 && within(a, b, c))
        || (d_side == 0 && within(a, b, d))
        || (a_side == 0 && within(c, d, a))
        || (b_side == 0 && within(c, d, b))
}

/// Whether the segments from a to b and from a to c share a point other than a.
fn overlap(a: Point, b: Point, c: Point) -> bool {
    let same_way = (b.0 - a.0) * (c.0 - a.0) + (b.1 - a.1) * (c.1 - a.1) > 0;
    side(a, b, c) == 0 && same_way
}

/// Whether two different wires meet other than at a post they share.
fn short(points: &[Point], (a, b): (usize, usize), (c, d): (usize, usize)) -> bool {
    let p = |i: usize| points[i];
    if a == c {
        overlap(p(a), p(b), p(d))
    } else if a == d {
        overlap(p(a), p(b), p(c))
    } else if b == c {
        overlap(p(b), p(a), p(d))
    } else if b == d {
        overlap(p(b), p(a), p(c))
    } else {
        meet(p(a), p(b), p(c), p(d))
    }
}

/// What is wrong with the sheet of a stage by D3, if anything: a post off the
/// grid, two posts at one point, or two wires with a point in common that is
/// not a post at which both end.
pub fn stage_fault(board: &Board, sheet: &[u16]) -> Option<String> {
    let points = points(sheet);
    let k = points.len();
    let (width, height) = (2 * k as i64 - 4, k as i64 - 2);
    if let Some(i) = points.iter().position(|p| p.0 > width || p.1 > height) {
        return Some(format!("position {} is off the grid", i + 1));
    }
    let mut sorted = points.clone();
    sorted.sort_unstable();
    if let Some(pair) = sorted.windows(2).find(|pair| pair[0] == pair[1]) {
        return Some(format!("two posts stand at {:?}", pair[0]));
    }
    let wires = wires(board, k);
    for (i, &one) in wires.iter().enumerate() {
        for &other in &wires[..i] {
            if short(&points, one, other) {
                return Some(format!("wires {other:?} and {one:?} meet"));
            }
        }
    }
    None
}

/// How many inner triangles the sheet of a stage has, if each turns the way its
/// rings do: its signed area, from whichever corner, is above zero. Otherwise
/// a triangle that doesn't, as in a mirror image.
pub fn turning_triangles(board: &Board, sheet: &[u16]) -> Result<usize, String> {
    let points = points(sheet);
    let triangles = inner_triangles(board, points.len());
    for &[u, a, b] in &triangles {
        let area = side(points[u], points[a], points[b]);
        if area <= 0 {
            let corners = [u + 1, a + 1, b + 1];
            return Err(format!(
                "the triangle of positions {corners:?} has twice the area {area}"
            ));
        }
    }
    Ok(triangles.len() / 3)
}

/// What is wrong with the moves from one stage to a later one `steps` stages
/// on, if anything: heights stay, and each step moves right by 0 to 2.
pub fn moves_fault(before: &[u16], after: &[u16], steps: usize) -> Option<String> {
    let moved = points(before).into_iter().zip(points(after));
    for (i, (old, new)) in moved.enumerate() {
        let right = new.0 - old.0;
        if old.1 != new.1 || right < 0 || right > 2 * steps as i64 {
            return Some(format!("position {} moves from {old:?} to {new:?}", i + 1));
        }
    }
    None
}

#[cfg(test)]
mod tests {
    use super::*;
    use crate::board::{d, t};
    use crate::boards::{random, KINDS};
    use crate::rng::Rng;

    #[test]
    fn segments_meet_with_ends_counted() {
        assert!(meet((0, 0), (2, 2), (0, 2), (2, 0)));
        assert!(meet((0, 0), (2, 0), (1, 0), (1, 5)));
        assert!(meet((0, 0), (2, 0), (2, 0), (3, 7)));
        assert!(meet((0, 0), (4, 4), (1, 1), (2, 2)));
        assert!(!meet((0, 0), (4, 4), (5, 5), (6, 6)));
        assert!(!meet((0, 0), (2, 0), (0, 1), (2, 1)));
        assert!(!meet((0, 0), (4, 2), (2, 0), (3, 1)));
    }

    #[test]
    fn wires_from_one_post_overlap_only_along_one_line() {
        assert!(overlap((0, 0), (1, 1), (3, 3)));
        assert!(!overlap((0, 0), (1, 1), (-3, -3)));
        assert!(!overlap((0, 0), (1, 1), (1, 0)));
    }

    #[test]
    fn a_sheet_with_two_wires_that_meet_is_caught() {
        let right = [0, 0, 6, 0, 3, 1, 3, 2, 3, 3];
        assert_eq!(stage_fault(&d(), &right), None);
        // Post 2 left behind at the last stage, as if only contour posts moved.
        assert_eq!(stage_fault(&d(), &[0, 0, 6, 0, 2, 1, 3, 2, 3, 3]), None);
        assert!(stage_fault(&d(), &[0, 0, 6, 0, 1, 2, 3, 2, 3, 3]).is_some());
        assert!(stage_fault(&d(), &[0, 0, 6, 0, 3, 2, 3, 2, 3, 3]).is_some());
        assert!(stage_fault(&d(), &[0, 0, 7, 0, 3, 1, 3, 2, 3, 3]).is_some());
    }

    /// A sheet from behind: every column counted from the right.
    fn mirrored(sheet: &[u16]) -> Vec<u16> {
        let width = sheet.iter().step_by(2).max().unwrap();
        let turned = |pair: &[u16]| [width - pair[0], pair[1]];
        sheet.chunks_exact(2).flat_map(turned).collect()
    }

    #[test]
    fn a_mirrored_sheet_is_caught() {
        let stages: [&[u16]; 3] = [
            &[0, 0, 2, 0, 1, 1],
            &[0, 0, 4, 0, 2, 1, 2, 2],
            &[0, 0, 6, 0, 3, 1, 3, 2, 3, 3],
        ];
        for (sheet, triangles) in stages.into_iter().zip([1, 3, 5]) {
            assert_eq!(turning_triangles(&d(), sheet), Ok(triangles));
            // No wire tells a mirror image: none meets another in it.
            let mirrored = mirrored(sheet);
            assert_eq!(stage_fault(&d(), &mirrored), None);
            assert!(turning_triangles(&d(), &mirrored).is_err());
        }
        assert_eq!(turning_triangles(&t(), stages[0]), Ok(1));
        assert!(turning_triangles(&t(), &mirrored(stages[0])).is_err());
    }

    #[test]
    fn a_flat_triangle_is_caught() {
        assert!(turning_triangles(&d(), &[0, 0, 6, 0, 3, 0, 3, 2, 3, 3]).is_err());
    }

    /// A board has 2n - 4 triangles, and at its last stage one is the outer one.
    #[test]
    fn one_triangle_is_left_out_at_the_last_stage() {
        let mut boards = vec![t(), d()];
        boards.extend(KINDS.map(|kind| random(kind, 30, &mut Rng::new(9))));
        for board in boards {
            let n = board.posts();
            let inner = inner_triangles(&board, n);
            assert_eq!(inner.len(), 3 * (2 * n - 5));
            let before = inner_triangles(&board, n - 1);
            assert!(before.iter().all(|triangle| inner.contains(triangle)));
            let around_vn = inner.len() - before.len();
            let degree = board.rings[board.order[n - 1] as usize].len();
            assert_eq!(around_vn, 3 * (degree - 1));
        }
    }

    #[test]
    fn moves_are_to_the_right_by_at_most_two() {
        assert_eq!(moves_fault(&[0, 0, 2, 0], &[0, 0, 4, 0], 1), None);
        assert!(moves_fault(&[0, 0, 2, 0], &[0, 0, 5, 0], 1).is_some());
        assert!(moves_fault(&[0, 0, 2, 0], &[0, 0, 1, 0], 1).is_some());
        assert!(moves_fault(&[0, 0, 2, 0], &[0, 1, 2, 0], 1).is_some());
    }
}
