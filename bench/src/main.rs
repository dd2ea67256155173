//! Speed of check and sheet through the unit's C library, beside other
//! implementations, on the same blocks in one run.

use bench::boost::Boost;
use bench::columns::{measure, Blocks, How, COLUMNS, PASSES};
use bench::table::{Row, Table};
use outside::board::Board;
use outside::boards::{random, Kind};
use outside::ffi;
use outside::layout::MOST;
use outside::rng::Rng;

const SEED: u64 = 1990;

/// Posts of all boards of a kind and size together: there are more of the small
/// ones, so that no processor learns them by heart.
const POSTS: usize = 16 * MOST;

const SIZES: [usize; 3] = [MOST / 4, MOST / 2, MOST];

const KINDS: [(&str, Kind); 4] = [
    ("random", Kind::Flipped),
    ("hubs", Kind::Hubs),
    ("two poles", Kind::TwoPoles),
    ("nested", Kind::Nested),
];

fn main() {
    let boost = Boost::find();
    let boost = boost.as_ref();
    explain(boost);
    let mut rng = Rng::new(SEED);
    let mut check = Table::new("check");
    let mut sheet = Table::new("sheet of the last stage");
    for (kind, make) in KINDS {
        for posts in SIZES {
            let made = (0..POSTS / posts).map(|_| random(make, posts, &mut rng));
            let boards: Vec<Board> = made.collect();
            let blocks = Blocks {
                n: posts,
                blocks: boards.iter().map(Board::block).collect(),
            };
            let degree = highest_degree(&boards);
            let row = |times| Row {
                kind,
                posts,
                degree,
                times,
            };
            check.add(row(measure(|column| column.check, &blocks, boost)));
            sheet.add(row(measure(|column| column.sheet, &blocks, boost)));
        }
    }
    check.print();
    sheet.print();
}

fn explain(boost: Option<&Boost>) {
    println!("unit: {}", ffi::ANSWERED_BY);
    println!(
        "figures: microseconds a call; the best of {PASSES} passes over all boards of a line \
         (or as many as is said),\n  {POSTS} posts in all, divided by the number of boards"
    );
    println!("degree: the most neighbours of a post on any of these boards");
    println!(
        "buffers: one sheet buffer of 2n entries for all, not cleared between calls; \
         linear and paper\n  allocate and clear their working arrays, of n posts, in each call"
    );
    for column in &COLUMNS {
        match (column.sheet, boost) {
            (How::ByBoost, None) => println!(
                "{}: its graph headers are not installed, so it has no column",
                column.name
            ),
            _ if column.passes == PASSES => println!("{}: {}", column.name, column.about),
            _ => println!(
                "{}: {} (best of {} passes)",
                column.name, column.about, column.passes
            ),
        }
    }
}

fn highest_degree(boards: &[Board]) -> usize {
    let rings = boards.iter().flat_map(|board| &board.rings);
    rings.map(Vec::len).max().unwrap_or(0)
}
