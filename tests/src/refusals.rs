//! Which refusal each service and each program can give: those must all come up
//! in a whole run, and no other may.

use std::collections::BTreeMap;
use Service::{Check, FitProgram, Post, Sheet, SheetProgram, StageProgram, WhyProgram};

/// The services, and the programs that print what they reply.
#[derive(Clone, Copy, PartialEq, Eq, PartialOrd, Ord, Debug)]
pub enum Service {
    Check,
    Sheet,
    Post,
    SheetProgram,
    StageProgram,
    FitProgram,
    WhyProgram,
}

pub const SERVICES: [Service; 7] = [
    Check,
    Sheet,
    Post,
    SheetProgram,
    StageProgram,
    FitProgram,
    WhyProgram,
];

/// The programs among them.
pub const PROGRAMS: [Service; 4] = [SheetProgram, StageProgram, FitProgram, WhyProgram];

impl Service {
    pub fn name(self) -> &'static str {
        match self {
            Check => "check",
            Sheet => "sheet",
            Post => "post",
            SheetProgram => "bin/sheet",
            StageProgram => "bin/stage",
            FitProgram => "bin/fit",
            WhyProgram => "bin/why",
        }
    }
}

/// A refusal's number, the services that can give it, and why no other can.
type Line = (u16, &'static [Service], &'static str);

const NO_STAGE: &str =
    "check and bin/why are asked for no stage, bin/sheet and bin/fit print the last one";
const NO_BUFFER: &str = "check and post are lent no buffer, and the programs' is long enough";

/// The refusals, a line for each number.
pub const NUMBERS: &[Line] = &[
    (1, &SERVICES, ""),
    (2, &SERVICES, ""),
    (3, &SERVICES, ""),
    (4, &SERVICES, ""),
    (5, &SERVICES, ""),
    (6, &SERVICES, ""),
    (7, &SERVICES, ""),
    (8, &SERVICES, ""),
    (9, &SERVICES, ""),
    (10, &SERVICES, ""),
    (11, &SERVICES, ""),
    (12, &SERVICES, ""),
    (13, &SERVICES, ""),
    (14, &[], "it is retired: no block can get that far"),
    (15, &[Sheet, Post, StageProgram], NO_STAGE),
    (16, &[Sheet], NO_BUFFER),
    (17, &[Post], "the others are asked for no name"),
    (18, &SERVICES, ""),
    (19, &SERVICES, ""),
    (20, &SERVICES, ""),
];

/// The refusals by an entry of a list, all at one place in the order of trial:
/// no post's name, the post itself, a repeat, not returned.
pub const BY_ENTRY: [u16; 4] = [9, 18, 19, 20];

/// The refusals by the order's rule at a position, which steps 1 to 11 come before.
pub const BY_POSITION: [u16; 2] = [12, 13];

/// Accepted calls are counted as this number.
const ACCEPTED: Line = (0, &SERVICES, "");

/// How often each service gave each number.
#[derive(Default)]
pub struct Replies(BTreeMap<(Service, u16), u64>);

impl Replies {
    /// Count calls that were refused with this number, or accepted.
    pub fn count(&mut self, service: Service, number: Option<u16>, times: u64) {
        let number = number.unwrap_or(ACCEPTED.0);
        *self.0.entry((service, number)).or_insert(0) += times;
    }

    fn of(&self, service: Service, number: u16) -> u64 {
        *self.0.get(&(service, number)).unwrap_or(&0)
    }

    pub fn each(&self) -> impl Iterator<Item = (Service, u16, u64)> + '_ {
        self.0
            .iter()
            .map(|(&(service, number), &times)| (service, number, times))
    }

    /// What came and cannot; of a whole run also what should have come and did not.
    pub fn faults(&self, whole: bool) -> Vec<String> {
        let mut faults = self.impossible();
        if whole {
            faults.extend(self.never(&SERVICES));
        }
        faults
    }

    /// What came and cannot.
    fn impossible(&self) -> Vec<String> {
        let mut faults = Vec::new();
        for (service, number, times) in self.each() {
            let why = match lines().find(|line| line.0 == number) {
                Some((_, from, _)) if from.contains(&service) => continue,
                Some((_, _, why)) => why,
                None => "there is no such refusal",
            };
            let service = service.name();
            faults.push(format!("{service} gave {number} {times} times, but {why}"));
        }
        faults
    }

    /// What can come from one of these and did not.
    pub fn never(&self, services: &[Service]) -> Vec<String> {
        let mut faults = Vec::new();
        for (number, from, _) in lines() {
            let can = services.iter().filter(|service| from.contains(service));
            let never = can.filter(|&&service| self.of(service, number) == 0);
            faults.extend(never.map(|service| format!("{} never gave {number}", service.name())));
        }
        faults
    }

    pub fn print(&self) {
        let heads = SERVICES.map(|service| format!("{:>11}", service.name()));
        println!("replies by number (0: accepted)\n     {}", heads.concat());
        for (number, from, why) in lines() {
            let count = |service: Service| match (self.of(service, number), from.contains(&service))
            {
                (0, false) => format!("{:>11}", "-"),
                (times, _) => format!("{times:>11}"),
            };
            let line = format!("  {number:2}:{}   {why}", SERVICES.map(count).concat());
            println!("{}", line.trim_end());
        }
    }
}

/// What can come: that a call is accepted, and the refusals.
fn lines() -> impl Iterator<Item = Line> {
    [ACCEPTED].into_iter().chain(NUMBERS.iter().copied())
}

#[cfg(test)]
mod tests {
    use super::*;

    fn all_that_can_come() -> Replies {
        let mut replies = Replies::default();
        for (number, from, _) in lines() {
            from.iter()
                .for_each(|&service| replies.count(service, Some(number), 1));
        }
        replies
    }

    #[test]
    fn numbers_ascend_and_those_that_cannot_come_have_a_reason() {
        assert!(NUMBERS.windows(2).all(|pair| pair[0].0 < pair[1].0));
        for (number, from, why) in NUMBERS {
            assert_eq!(from.len() < SERVICES.len(), !why.is_empty(), "{number}");
        }
    }

    #[test]
    fn what_should_come_must_and_what_cannot_must_not() {
        assert_eq!(all_that_can_come().faults(true), [""; 0]);
        let mut replies = all_that_can_come();
        replies.0.remove(&(Sheet, 13));
        assert_eq!(replies.faults(true), ["sheet never gave 13"]);
        assert_eq!(replies.faults(false), [""; 0]);
        for (service, number) in [
            (Check, 14),
            (Check, 16),
            (Sheet, 17),
            (Sheet, 21),
            (Post, 99),
            (SheetProgram, 15),
            (StageProgram, 16),
            (FitProgram, 14),
            (FitProgram, 15),
            (FitProgram, 17),
            (WhyProgram, 14),
            (WhyProgram, 15),
            (WhyProgram, 17),
            (WhyProgram, 21),
        ] {
            let mut replies = all_that_can_come();
            replies.count(service, Some(number), 2);
            assert_eq!(replies.faults(false).len(), 1, "{number}");
        }
    }

    #[test]
    fn a_part_can_ask_for_all_that_comes_from_its_services() {
        let mut replies = all_that_can_come();
        replies.0.remove(&(Check, 2));
        replies.0.remove(&(StageProgram, 15));
        assert_eq!(replies.never(&PROGRAMS), ["bin/stage never gave 15"]);
        for number in BY_ENTRY {
            let mut replies = all_that_can_come();
            replies.0.remove(&(WhyProgram, number));
            replies.0.remove(&(FitProgram, number));
            let never = ["fit", "why"].map(|name| format!("bin/{name} never gave {number}"));
            assert_eq!(replies.never(&PROGRAMS), never);
            assert_eq!(replies.faults(true), never);
        }
        assert_eq!(replies.never(&[SheetProgram]), [""; 0]);
    }
}
