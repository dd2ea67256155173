//! What the programs `sheet`, `stage`, `fit` and `why` print.

mod numbers;

use crate::board::{d, mend_sum, t, Board};
use crate::boards::{self, random, turned_by, with_v1_at, Kind, HABITS, KINDS};
use crate::cases;
use crate::damage::{self, Plan};
use crate::layout::{self, MOST, N_AT, VERSION_AT};
use crate::programs::{Call, Programs};
use crate::refusals::PROGRAMS;
use crate::text;
use crate::trial::Trial;
use numbers::{no_numbers, numbers};
use std::process::exit;

const AUTUMN: &[u8] = include_bytes!("../../../boards/autumn.pgb");
const FORTY: &[u8] = include_bytes!("../../../boards/forty.pgb");

/// A part's comparisons, with the programs.
struct Printing<'a> {
    programs: Programs,
    trial: &'a mut Trial,
}

pub fn programs(trial: &mut Trial) {
    let programs = Programs::found().unwrap_or_else(|message| {
        println!("outside: {message}");
        exit(1)
    });
    println!("  {programs}");
    let mut printing = Printing { programs, trial };
    printing.last_stages();
    printing.turned();
    printing.in_pieces();
    printing.cut_short();
    printing.too_long();
    printing.each_refusal();
    printing.words();
    printing.degrees();
    printing.damaged();
    printing.stages();
    printing.no_numbers();
    printing.nothing_left_out();
}

impl Printing<'_> {
    /// The programs that are asked for no stage.
    fn whole(&mut self, block: &[u8]) {
        for call in [Call::Sheet, Call::Fit(None), Call::Why(None)] {
            self.programs.compare(&mut self.trial.tester, call, block);
        }
    }

    fn stage(&mut self, word: impl AsRef<[u8]>, block: &[u8]) {
        let call = Call::Stage(Some(word.as_ref()));
        self.programs.compare(&mut self.trial.tester, call, block);
    }

    fn random(&mut self, kind: Kind, n: usize) -> Vec<u8> {
        random(kind, n, &mut self.trial.rng).block()
    }

    /// The boards that have names, some of sizes where numbers get a digit or a
    /// byte more, and the largest of each kind, at two more stages by lot.
    fn last_stages(&mut self) {
        for block in [&t().block(), &d().block(), AUTUMN, FORTY] {
            self.whole(block);
        }
        for n in [6, 9, 10, 11, 99, 100, 101, 255, 256, 257, MOST - 1] {
            let kind = self.trial.rng.pick(&KINDS);
            let block = self.random(kind, n);
            self.whole(&block);
        }
        for kind in KINDS {
            let block = self.random(kind, MOST);
            self.whole(&block);
            for _ in 0..2 {
                let stage = self.trial.rng.between(3, MOST - 1);
                self.stage(stage.to_string(), &block);
            }
        }
        for habit in HABITS {
            let block = boards::constructed(MOST, habit, &mut self.trial.rng).block();
            self.whole(&block);
        }
    }

    /// Lists that begin elsewhere, with v1 at each place of D's last one.
    fn turned(&mut self) {
        let (d, forty) = (d(), text::board(FORTY));
        let mut boards: Vec<Board> = (0..3).map(|place| with_v1_at(&d, place)).collect();
        boards.extend((1..4).map(|by| turned_by(&d, by)));
        boards.extend((1..4).map(|by| turned_by(&forty, by)));
        boards.iter().for_each(|board| self.whole(&board.block()));
    }

    /// The input comes in pieces, so that it has to be read many times.
    fn in_pieces(&mut self) {
        let large = self.random(Kind::Flipped, MOST);
        let long = vec![0; 3 * large.len()];
        let d = d().block();
        let inputs: [(&[u8], usize); 5] = [
            (&d, 1),
            (&d[..40], 1),
            (FORTY, 99),
            (&large, 999),
            (&long, 4096),
        ];
        for (block, piece) in inputs {
            let stage = Call::Stage(Some(b"4"));
            for call in [Call::Sheet, stage, Call::Fit(None), Call::Why(None)] {
                let tester = &mut self.trial.tester;
                self.programs.compare_in_pieces(tester, call, block, piece);
            }
        }
    }

    fn cut_short(&mut self) {
        for length in [0, 1, 3, 5, 6, 7, 8, 31, 32] {
            self.whole(&t().block()[..length]);
        }
        let large = self.random(Kind::Stacked, MOST);
        for block in [&d().block(), FORTY, &large] {
            let by_lot = self.trial.rng.between(layout::HEADER, block.len() - 3);
            for length in [by_lot, block.len() - 2, block.len() - 1] {
                self.whole(&block[..length]);
                self.stage("3", &block[..length]);
            }
        }
    }

    /// Bytes too many, also so many that the length looks right in 16 bits, and
    /// longer than what a pipe holds.
    fn too_long(&mut self) {
        let large = self.random(Kind::Flipped, MOST);
        for block in [&t().block(), FORTY, &large] {
            for more in [1, 2, 16, 1 << 16, 100_000] {
                let mut longer = block.to_vec();
                longer.resize_with(block.len() + more, || self.trial.rng.draw() as u8);
                self.whole(&longer);
                if more == 1 << 16 {
                    mend_sum(&mut longer);
                    self.whole(&longer);
                }
            }
        }
        let mut longest = large.clone();
        longest.resize(1 << 20, 0);
        self.whole(&longest);
        self.stage("3", &longest);
        self.stage("x", &longest);
        for (at, number) in [(0, 0), (VERSION_AT, 2), (N_AT, 1001), (N_AT, 65535)] {
            layout::put(&mut longest, at, number);
            self.whole(&longest[..100_000]);
            layout::put(&mut longest, at, layout::get(&large, at));
        }
        // one post too many, and otherwise a right block
        let block = self.random(Kind::Flipped, MOST + 1);
        self.whole(&block);
        self.stage("3", &block);
    }

    fn each_refusal(&mut self) {
        for (_, block) in damage::one_for_each() {
            self.whole(&block);
            self.stage("3", &block);
            self.stage("2", &block);
        }
        for block in cases::bad_lists() {
            self.whole(block);
            self.stage("5", block);
        }
    }

    /// `fit` and `why` look at no word.
    fn words(&mut self) {
        for word in ["", "3", "2", "x", "13", "--help"] {
            for block in [&d().block(), AUTUMN, b""] {
                let word = Some(word.as_bytes());
                for call in [Call::Fit(word), Call::Why(word)] {
                    self.programs.compare(&mut self.trial.tester, call, block);
                }
            }
        }
    }

    /// A degree out of range and a total that is wrong have words of their own, on
    /// boards where places and totals get more digits.
    fn degrees(&mut self) {
        for n in [5, 10, 100, MOST] {
            let right = self.random(Kind::Flipped, n);
            let degree = |name: usize| layout::get(&right, layout::degree_at(n, name));
            let few = (0..n)
                .min_by_key(|&name| degree(name))
                .expect("n is above 0");
            let any = self.trial.rng.below(n);
            let out_of_range = [0, 1, n as u16, 65535].map(|degree| (any, degree));
            for (name, degree) in out_of_range.into_iter().chain([(few, degree(few) + 1)]) {
                let mut block = right.clone();
                layout::put(&mut block, layout::degree_at(n, name), degree);
                mend_sum(&mut block);
                self.whole(&block);
            }
        }
    }

    fn damaged(&mut self) {
        let boards = [
            d(),
            random(Kind::Flipped, 12, &mut self.trial.rng),
            random(Kind::Hubs, 23, &mut self.trial.rng),
            text::board(FORTY),
            random(Kind::Nested, MOST, &mut self.trial.rng),
        ];
        for (i, kind) in damage::KINDS.iter().enumerate() {
            let board: &Board = &boards[i % boards.len()];
            let [damaged, mended] = damage::both(kind, board, &mut self.trial.rng);
            self.whole(&mended);
            if i % 7 == 0 {
                self.whole(&damaged);
            }
        }
        let bad =
            |(i, plan): (usize, Plan)| plan.made(&boards[i % boards.len()], &mut self.trial.rng);
        let bad: Vec<_> = Plan::all()
            .into_iter()
            .enumerate()
            .filter_map(bad)
            .collect();
        for (board, _) in bad {
            self.whole(&board.block());
        }
    }

    fn stages(&mut self) {
        let large = self.random(Kind::Flipped, MOST);
        for block in [&t().block(), &d().block(), FORTY, &large] {
            for word in numbers(layout::get(block, N_AT).into()) {
                self.stage(word, block);
            }
        }
        for word in ["0", "3", "5", "6", "18446744073709551619"] {
            self.stage(word, AUTUMN);
            self.stage(word, b"");
        }
    }

    fn no_numbers(&mut self) {
        for word in no_numbers() {
            self.stage(word, &d().block());
        }
        let missing = Call::Stage(None);
        for block in [&d().block(), AUTUMN, FORTY, b""] {
            let tester = &mut self.trial.tester;
            self.programs.compare(tester, missing, block);
            self.stage("x", block);
        }
    }

    /// Every refusal that a program can give must have come from it.
    fn nothing_left_out(&self) {
        let never = self.trial.tester.tally.replies.never(&PROGRAMS);
        if !never.is_empty() {
            println!("outside: {}", never.join(", "));
            exit(1);
        }
    }
}
