//! The parts of the test program.

mod lists;
mod printed;
mod right;
mod turns;
mod wrong;

use crate::cases;
use crate::rng::Rng;
use crate::tally::Tally;
use crate::trial::Trial;
use std::time::Instant;

/// A part: its name on the command line, what it is, and what it does.
pub struct Part {
    pub name: &'static str,
    pub about: &'static str,
    body: fn(&mut Trial),
}

macro_rules! parts {
    ($($name:literal, $about:literal: $body:expr;)*) => {
        &[$(Part { name: $name, about: $about, body: $body }),*]
    };
}

/// All parts. The longest come first, so that two processes end at about the same time.
pub const PARTS: &[Part] = parts![
    "cases", "the cases E1 to E17 of docs/RULES.md": |trial| cases::run(&mut trial.tester);
    "programs", "what the programs sheet, stage, fit and why print": printed::programs;
    "large", "random boards up to the most posts there can be": right::large_boards;
    "turns", "lists that begin with any entry, and where runs lie in them": turns::turned_lists;
    "small", "every board with every order up to 8 posts": right::every_small_board;
    "orders", "every order of every board up to 7 posts": right::every_order_of_small_boards;
    "middling", "random boards up to 60 posts, every stage": right::middling_boards;
    "damage", "damaged blocks": wrong::damaged_blocks;
    "lists", "lists damaged on purpose, on boards of every kind": lists::damaged_lists;
    "bytes", "every byte of T and D changed to every value": wrong::every_byte_changed;
    "pieces", "boards in pieces": wrong::boards_in_pieces;
    "chance", "bytes by chance": wrong::chance_bytes;
    "long", "long blocks and long buffers": wrong::long_slices;
    "stack", "in threads with a small stack": right::small_stacks;
];

impl Part {
    /// Trial this part. Its generator is its own, so that it does the same alone
    /// as among the others.
    pub fn run(&self, seed: u64) -> Tally {
        let start = Instant::now();
        let mut trial = Trial::new(Rng::named(seed, self.name));
        (self.body)(&mut trial);
        let tally = trial.tester.tally;
        let against = match tally.orders() {
            0 => String::new(),
            orders => format!(" {orders} orders against co1 to co3,"),
        };
        let (name, about, calls) = (self.name, self.about, tally.calls);
        let seconds = start.elapsed().as_secs_f64();
        println!("{name}: {about}: {calls} calls,{against} {seconds:.1} s");
        tally
    }
}
