//! Where runs lie in their lists.

/// The place of a run in its list: how many entries the list has, how many of them
/// are the run, and at which it begins, counted from 0.
#[derive(Clone, Copy, PartialEq, Eq, PartialOrd, Ord, Debug)]
pub struct Place {
    pub entries: usize,
    pub run: usize,
    pub start: usize,
}

impl Place {
    /// Every place in a list of so many entries. In a list of two, board T's, a run is
    /// the whole ring.
    pub fn all(entries: usize) -> impl Iterator<Item = Place> {
        let runs = 2..=entries;
        runs.flat_map(move |run| {
            (0..entries).map(move |start| Place {
                entries,
                run,
                start,
            })
        })
    }

    fn whole(&self) -> bool {
        self.run == self.entries
    }

    fn begins_last(&self) -> bool {
        self.start + 1 == self.entries
    }

    /// Its last entry; one that lies beyond the list's end counts on.
    fn end(&self) -> usize {
        self.start + self.run - 1
    }
}

/// A way to lie in a list, which is to come up.
type Way = (&'static str, fn(&Place) -> bool);

const WAYS: [Way; 8] = [
    ("from the first entry on", |p| !p.whole() && p.start == 0),
    ("from the last entry on", |p| !p.whole() && p.begins_last()),
    ("over the end of the list", |p| {
        !p.whole() && p.end() >= p.entries
    }),
    ("up to the last entry", |p| {
        !p.whole() && p.end() + 1 == p.entries
    }),
    ("up to the first entry", |p| {
        !p.whole() && p.end() == p.entries
    }),
    ("around the whole ring, v1 first", |p| {
        p.whole() && p.start == 0
    }),
    ("around the whole ring, v1 last", |p| {
        p.whole() && p.begins_last()
    }),
    ("around the whole ring, v1 between", |p| {
        p.whole() && p.start > 0 && !p.begins_last()
    }),
];

/// How many runs lay in each way. A run may lie in several.
#[derive(Default)]
pub struct Ways([u64; WAYS.len()]);

impl Ways {
    pub fn count(&mut self, place: &Place) {
        for (count, (_, is)) in self.0.iter_mut().zip(WAYS) {
            *count += u64::from(is(place));
        }
    }

    /// Add counts that were written by index; there may be no such way.
    pub fn add(&mut self, index: usize, times: u64) -> Option<()> {
        *self.0.get_mut(index)? += times;
        Some(())
    }

    pub fn each(&self) -> impl Iterator<Item = (usize, u64)> + '_ {
        self.0.iter().copied().enumerate()
    }

    /// The ways that did not come up.
    pub fn never(&self) -> Vec<String> {
        let never = WAYS.iter().zip(self.0).filter(|(_, count)| *count == 0);
        never
            .map(|((name, _), _)| format!("no run lay {name}"))
            .collect()
    }

    pub fn print(&self) {
        let lines = WAYS.iter().zip(self.0);
        lines.for_each(|((name, _), count)| println!("  {count:8} {name}"));
    }
}

#[cfg(test)]
mod tests {
    use super::*;

    fn ways(entries: usize, run: usize, start: usize) -> Vec<&'static str> {
        let place = Place {
            entries,
            run,
            start,
        };
        let lies = WAYS.iter().filter(|(_, is)| is(&place));
        lies.map(|(name, _)| *name).collect()
    }

    #[test]
    fn each_place_lies_in_its_ways() {
        let over = "over the end of the list";
        assert_eq!(ways(5, 2, 0), ["from the first entry on"]);
        assert_eq!(ways(5, 2, 1), [""; 0]);
        assert_eq!(ways(5, 2, 3), ["up to the last entry"]);
        assert_eq!(
            ways(5, 2, 4),
            ["from the last entry on", over, "up to the first entry"]
        );
        assert_eq!(ways(5, 3, 4), ["from the last entry on", over]);
        assert_eq!(ways(5, 3, 3), [over, "up to the first entry"]);
        assert_eq!(ways(5, 4, 3), [over]);
        assert_eq!(ways(4, 4, 0), ["around the whole ring, v1 first"]);
        assert_eq!(ways(4, 4, 2), ["around the whole ring, v1 between"]);
        assert_eq!(ways(4, 4, 3), ["around the whole ring, v1 last"]);
    }

    #[test]
    fn a_way_that_never_came_is_found() {
        for (left_out, (name, is)) in WAYS.iter().enumerate() {
            let mut ways = Ways::default();
            let others = Place::all(5).filter(|place| !is(place));
            others.for_each(|place| ways.count(&place));
            let never = ways.never();
            assert!(never.contains(&format!("no run lay {name}")), "{left_out}");
            Place::all(5).for_each(|place| ways.count(&place));
            assert_eq!(ways.never(), [""; 0]);
        }
    }
}
