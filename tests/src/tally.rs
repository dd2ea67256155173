//! What a run counts. Processes that run a part each write theirs to a file,
//! and the files are added up.

use crate::fits::Ways;
use crate::refusals::{Replies, SERVICES};
use std::fmt::Write;

/// Counts by name.
macro_rules! counts {
    ($($(#[$what:meta])* $name:ident,)*) => {
        #[derive(Default)]
        pub struct Tally {
            $($(#[$what])* pub $name: u64,)*
            pub replies: Replies,
            /// How the runs lay whose ends were tested.
            pub ways: Ways,
        }

        impl Tally {
            fn counts(&mut self) -> Vec<(&'static str, &mut u64)> {
                vec![$((stringify!($name), &mut self.$name),)*]
            }
        }
    };
}

counts! {
    /// Calls compared, with the programs' runs among them.
    calls,
    /// Runs of a program, of which every byte that it prints is compared.
    runs,
    /// Of these, runs with a word that says no number.
    usages,
    /// Sheets tested for wires that meet.
    sheets,
    pairs_of_stages,
    /// Inner triangles tested for their turn.
    triangles,
    /// Contours told by records, compared with a face.
    contours,
    /// Records whose ends were tested on the sheet of their stage.
    ends,
    /// Lines of `fit` whose ends were tested on the points of all its lines.
    fits,
    /// Boards whose lists were turned.
    turned,
    /// Orders compared with Chrobak and Nakano's conditions (X2): accepted, and
    /// they hold at every stage; accepted and compared at some stages alone;
    /// refused, by the condition that is broken first.
    kept,
    kept_at_some_stages,
    co1,
    co2,
    co3,
    /// Orders that pass steps 1 to 11 and were asked whether one run is forced.
    forced,
    /// Of these, each post has an earlier neighbour, from position 3 on, and a
    /// later one, below n: with two earlier ones everywhere, accepted.
    forced_with_two,
    /// The same with one earlier neighbour somewhere, refused with 12.
    forced_with_one,
}

impl Tally {
    /// How many orders were compared with Chrobak and Nakano's conditions.
    pub fn orders(&self) -> u64 {
        self.kept + self.kept_at_some_stages + self.co1 + self.co2 + self.co3
    }

    /// A line for each count, for each number that a service gave, and for each way
    /// in which runs lay.
    pub fn text(&mut self) -> String {
        let mut text = String::new();
        for (name, count) in self.counts() {
            writeln!(text, "{name} {count}").unwrap();
        }
        for (service, number, times) in self.replies.each() {
            writeln!(text, "{} {number} {times}", service.name()).unwrap();
        }
        for (index, times) in self.ways.each() {
            writeln!(text, "way {index} {times}").unwrap();
        }
        text
    }

    /// Add what a text says, or give the line that can't be read.
    pub fn add(&mut self, text: &str) -> Result<(), String> {
        let add_line = |line: &str| self.add_line(line).ok_or(line.to_string());
        text.lines().try_for_each(add_line)
    }

    fn add_line(&mut self, line: &str) -> Option<()> {
        let words: Vec<&str> = line.split(' ').collect();
        match words[..] {
            [name, count] => {
                let mut counts = self.counts().into_iter();
                *counts.find(|known| known.0 == name)?.1 += count.parse::<u64>().ok()?;
            }
            ["way", index, times] => {
                self.ways.add(index.parse().ok()?, times.parse().ok()?)?;
            }
            [name, number, times] => {
                let service = SERVICES.into_iter().find(|known| known.name() == name)?;
                let (number, times) = (number.parse().ok()?, times.parse().ok()?);
                self.replies.count(service, Some(number), times);
            }
            _ => return None,
        }
        Some(())
    }

    /// Say what was counted. The whole run fails if a reply came that cannot, or if a
    /// reply or a run's way to lie never came that should; a part alone fails by the
    /// former only.
    pub fn report(&self, whole: bool) -> Result<(), Vec<String>> {
        self.replies.print();
        let faults = self.faults(whole);
        if !faults.is_empty() {
            return Err(faults);
        }
        println!("no number came that cannot come");
        if whole {
            println!("each number that should come came, from each service that can give it");
        }
        self.report_boards();
        println!(
            "{} runs of the programs sheet, stage, fit and why: {} print a sheet, the fits, a \
             refusal or what it means as the rules say, to the last byte, {} were given no number \
             and say how to call",
            self.runs,
            self.runs - self.usages,
            self.usages
        );
        println!("outside: {} calls compared, 0 differences", self.calls);
        Ok(())
    }

    fn faults(&self, whole: bool) -> Vec<String> {
        let mut faults = self.replies.faults(whole);
        if whole {
            faults.extend(self.ways.never());
        }
        faults
    }

    fn report_boards(&self) {
        println!(
            "{} sheets tested pair of wires by pair of wires, {} pairs of stages for moves",
            self.sheets, self.pairs_of_stages
        );
        println!(
            "{} inner triangles on these sheets, each turned as its rings say",
            self.triangles
        );
        let (orders, kept, at_some) = (self.orders(), self.kept, self.kept_at_some_stages);
        println!(
            "{orders} orders beyond step 11 against co1 to co3: {kept} accepted keep them at \
             every stage, {at_some} at some stages,"
        );
        println!(
            "  refused: co1 is broken first in {}, co2 in {}, co3 in {}",
            self.co1, self.co2, self.co3
        );
        println!(
            "{} contours told by records, each the exterior face of its stage",
            self.contours
        );
        println!(
            "{} records tell as their ends the outermost earlier neighbours on the sheet, the same \
             at every later stage; {} lines of fit do too",
            self.ends, self.fits
        );
        println!(
            "{} boards with lists turned; in all lists runs lay",
            self.turned
        );
        self.ways.print();
    }
}

#[cfg(test)]
mod tests {
    use super::*;
    use crate::refusals::Service;

    #[test]
    fn tallies_add_up() {
        let mut one = Tally {
            calls: 3,
            co2: 1,
            ..Tally::default()
        };
        one.replies.count(Service::Post, Some(17), 2);
        one.replies.count(Service::Check, None, 1);
        let mut sum = Tally::default();
        sum.add(&one.text()).unwrap();
        sum.add(&one.text()).unwrap();
        assert_eq!((sum.calls, sum.co2, sum.kept), (6, 2, 0));
        let replies: Vec<_> = sum.replies.each().collect();
        assert_eq!(replies, [(Service::Check, 0, 2), (Service::Post, 17, 4)]);
        assert_eq!(sum.add("calls 1\nwires 2\n"), Err("wires 2".into()));
        assert_eq!(sum.add("calls one\n"), Err("calls one".into()));
    }

    #[test]
    fn a_way_to_lie_that_never_came_fails_a_whole_run() {
        let mut tally = Tally::default();
        let ways = tally.ways.never();
        assert_eq!(tally.faults(false), [""; 0]);
        assert!(ways.iter().all(|way| tally.faults(true).contains(way)));
        (0..ways.len()).for_each(|index| tally.ways.add(index, 1).unwrap());
        assert_eq!(tally.ways.never(), [""; 0]);
        let mut sum = Tally::default();
        sum.add(&tally.text()).unwrap();
        assert_eq!(sum.ways.never(), [""; 0]);
        let beyond = format!("way {} 1", ways.len());
        assert_eq!(sum.add(&beyond), Err(beyond.clone()));
    }
}
