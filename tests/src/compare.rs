//! Calls that go to the C library and to the paper's implementation, and end
//! the program at the first difference.

use crate::board::Board;
use crate::contours::{self, Condition};
use crate::fits::{Fits, Place};
use crate::refusals::{Service, BY_POSITION};
use crate::reply::{post_reply, readable, word, PostReply, Record, Refusal, Standing};
use crate::tally::Tally;
use crate::{ffi, geometry, paper, runs, text};
use std::fmt::Display;
use std::process::exit;

/// Entries around the lent buffer that nobody may touch.
const MARGIN: usize = 16;

/// Compares, and counts what was compared.
#[derive(Default)]
pub struct Tester {
    pub tally: Tally,
}

impl Tester {
    pub fn check(&mut self, block: &[u8]) -> Result<u16, Refusal> {
        let expected = paper::check(block);
        let got = ffi::check(block);
        self.count(Service::Check, expected.err());
        if got != word(expected) {
            differs("check", block, readable(got), readable(word(expected)));
        }
        expected
    }

    /// A sheet with a buffer of `room` entries, marked entries in and around
    /// it: what was written, if it was accepted.
    pub fn sheet(&mut self, block: &[u8], stage: usize, room: usize) -> Result<Vec<u16>, Refusal> {
        let mut expected: Vec<u16> = (0..room + 2 * MARGIN).map(marked).collect();
        let mut got = expected.clone();
        let lent = MARGIN..MARGIN + room;
        let expected_reply = paper::sheet(block, stage, &mut expected[lent.clone()]);
        let got_reply = ffi::sheet(block, stage, &mut got[lent.clone()]);
        self.count(Service::Sheet, expected_reply.err());
        let call = || format!("sheet, stage {stage}, room {room}");
        if got_reply != word(expected_reply) {
            let expected = readable(word(expected_reply));
            differs(&call(), block, readable(got_reply), expected);
        }
        if let Some(i) = (0..got.len()).find(|&i| got[i] != expected[i]) {
            let entry = format!("{}, buffer entry {}", call(), i as i64 - MARGIN as i64);
            differs(&entry, block, got[i], expected[i]);
        }
        expected_reply.map(|count| got[lent][..usize::from(count)].to_vec())
    }

    pub fn post(&mut self, block: &[u8], stage: usize, name: usize) -> Result<Record, Refusal> {
        let expected = paper::post(block, stage, name);
        self.told(block, stage, name, expected);
        expected
    }

    /// The unit's reply to post, which is to be this.
    fn told(
        &mut self,
        block: &[u8],
        stage: usize,
        name: usize,
        expected: Result<Record, Refusal>,
    ) -> PostReply {
        let got = ffi::post(block, stage, name);
        self.count(Service::Post, expected.err());
        if got != post_reply(expected) {
            let call = format!("post, stage {stage}, name {name}");
            differs(&call, block, got, post_reply(expected));
        }
        got
    }

    /// Count a call that was accepted or refused.
    pub fn count(&mut self, service: Service, refusal: Option<Refusal>) {
        let number = refusal.map(|refusal| refusal.number);
        self.tally.calls += 1;
        self.tally.replies.count(service, number, 1);
    }

    /// The sheet of a stage that a right board has.
    fn right_sheet(&mut self, block: &[u8], stage: usize) -> Vec<u16> {
        let sheet = self.sheet(block, stage, 2 * stage);
        sheet
            .unwrap_or_else(|_| fails(&format!("stage {stage} of a right board is refused"), block))
    }

    /// Test the ends that the records of these posts of an accepted board tell at these
    /// stages, which ascend, on the sheets: where the runs lie in their lists.
    pub fn fits(&mut self, board: &Board, stages: &[usize], names: &[u16]) -> Vec<Place> {
        let block = board.block();
        let mut fits = Fits::new(board);
        let mut places = Vec::new();
        for &stage in stages {
            let sheet = self.right_sheet(&block, stage);
            let records = paper::records(&block, stage).expect("it has a sheet");
            for &name in names {
                let record = records[usize::from(name)];
                let got = self.told(&block, stage, name.into(), Ok(record));
                match fits.tell(&sheet, name, got.fit()) {
                    Ok(place) => places.extend(place),
                    Err(fault) => {
                        let what = format!("post, stage {stage}, name {name}: {got}: {fault}");
                        fails(&what, &block);
                    }
                }
                self.tally.ends += 1;
            }
        }
        places.iter().for_each(|place| self.tally.ways.count(place));
        places
    }

    /// Test the third demand and the turn of every inner triangle on the sheets
    /// of a board at these stages, which ascend.
    pub fn geometry(&mut self, board: &Board, stages: &[usize]) {
        let block = board.block();
        let mut before: Option<(usize, Vec<u16>)> = None;
        for &stage in stages {
            let sheet = self.right_sheet(&block, stage);
            self.tally.sheets += 1;
            if let Some(fault) = geometry::stage_fault(board, &sheet) {
                fails(&format!("stage {stage}: {fault}"), &block);
            }
            match geometry::turning_triangles(board, &sheet) {
                Ok(triangles) => self.tally.triangles += triangles as u64,
                Err(fault) => fails(&format!("stage {stage}: {fault}"), &block),
            }
            if let Some((earlier, old)) = before {
                self.tally.pairs_of_stages += 1;
                if let Some(fault) = geometry::moves_fault(&old, &sheet, stage - earlier) {
                    fails(&format!("from stage {earlier} to {stage}: {fault}"), &block);
                }
            }
            before = Some((stage, sheet));
        }
    }
}

/// Chrobak and Nakano's conditions and the rule for each position.
impl Tester {
    /// Compare the reply to a board's block with the conditions: if it isn't
    /// refused by steps 1 to 11, it is accepted exactly if they hold at every
    /// stage.
    pub fn conditions(&mut self, board: &Board, reply: Result<u16, Refusal>) {
        if !passes_step_11(reply) {
            return;
        }
        let broken = contours::first_broken(board);
        match (reply, broken) {
            (Ok(_), None) => self.tally.kept += 1,
            (Err(_), Some((_, Condition::Co1))) => self.tally.co1 += 1,
            (Err(_), Some((_, Condition::Co2))) => self.tally.co2 += 1,
            (Err(_), Some((_, Condition::Co3))) => self.tally.co3 += 1,
            _ => fails(
                &format!("co1 to co3: first broken {broken:?}, but the reply is {reply:?}"),
                &board.block(),
            ),
        }
    }

    /// The conditions must hold at these stages of an accepted board.
    pub fn conditions_at(&mut self, board: &Board, stages: &[usize]) {
        for &stage in stages {
            if let Some(broken) = contours::broken_at(board, stage) {
                let what = format!("stage {stage} of a right board: {broken:?} is broken");
                fails(&what, &board.block());
            }
        }
        self.tally.kept_at_some_stages += 1;
    }

    /// Compare the exterior face of every stage of an accepted board with the
    /// contour that the records of its posts tell.
    pub fn contours(&mut self, board: &Board) {
        let block = board.block();
        for stage in 3..=board.posts() {
            let contour = contours::contour(board, stage);
            for name in 0..board.posts() {
                let told = match self.post(&block, stage, name).map(|record| record.standing) {
                    Ok(Standing::OnContour { left, right }) => Some((left, right)),
                    _ => None,
                };
                let walked = neighbours_along(&contour, name as u16);
                if told != walked {
                    let what = format!("the contour of stage {stage} at post {name}");
                    let sides = format!("the record tells {told:?}, the face {walked:?}");
                    fails(&format!("{what}: {sides}"), &block);
                }
            }
            self.tally.contours += 1;
        }
    }

    /// Hold the reply to the block of a connected board against the rule that one
    /// run is forced, and that two earlier neighbours are what is needed.
    pub fn forced_runs(&mut self, board: &Board, reply: Result<u16, Refusal>) {
        if !passes_step_11(reply) {
            return;
        }
        self.tally.forced += 1;
        let wrong = |what: &str| fails(&format!("{what}: the reply is {reply:?}"), &board.block());
        let posts = runs::by_position(board);
        if !runs::both_ways(&posts) {
            if reply.is_ok() {
                wrong("a post without an earlier or a later neighbour");
            }
            return;
        }
        if let Some(position) = runs::first_not_one_run(&posts) {
            wrong(&format!(
                "one run is forced, but not at position {position}"
            ));
        }
        match runs::first_with_fewer_than_two(&posts) {
            None if reply.is_ok() => self.tally.forced_with_two += 1,
            None => wrong("two earlier neighbours everywhere"),
            Some(position) => {
                let (number, place) = (12, position as u16);
                if reply != Err(Refusal { number, place }) {
                    wrong(&format!("one earlier neighbour at position {position}"));
                }
                self.tally.forced_with_one += 1;
            }
        }
    }
}

/// Whether check accepts or refuses only by the order, at a position from 3 on.
pub fn passes_step_11(reply: Result<u16, Refusal>) -> bool {
    reply.map_or_else(|refusal| BY_POSITION.contains(&refusal.number), |_| true)
}

/// A post's left and right neighbour on a contour, if it is there: at the ends itself.
fn neighbours_along(contour: &[u16], post: u16) -> Option<(u16, u16)> {
    let i = contour.iter().position(|&w| w == post)?;
    let last = contour.len() - 1;
    Some((contour[i.saturating_sub(1)], contour[last.min(i + 1)]))
}

/// What stands in a buffer before a call: a different number in each entry.
fn marked(i: usize) -> u16 {
    (i as u16).wrapping_mul(40503) ^ 0xA5C3
}

fn differs<T: Display>(call: &str, block: &[u8], got: T, expected: T) -> ! {
    fails(
        &format!("{call}: got {got}, the paper says {expected}"),
        block,
    )
}

/// Say what failed on which block, and end the program.
pub fn fails(what: &str, block: &[u8]) -> ! {
    println!("outside: DIFFERENCE in {what}");
    println!("the block as text:\n{}", text::show(block).text);
    let bytes: Vec<String> = block.iter().map(|byte| format!("{byte:02x}")).collect();
    println!("its bytes: {}", bytes.join(" "));
    exit(1);
}
