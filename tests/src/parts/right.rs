//! Boards that must be accepted, every order of the small ones, and the stack
//! that the longest ones need.

use crate::boards::{self, every_board, permute, random, Kind, KINDS};
use crate::ffi;
use crate::layout::MOST;
use crate::reply::word;
use crate::trial::{every_stage, sample_of_stages, Trial, MIDDLING};

pub fn every_small_board(trial: &mut Trial) {
    for n in 3..=8 {
        let disguises = if n == 8 { 1 } else { 3 };
        let mut count = 0;
        every_board(n, &mut |board| {
            count += 1;
            for _ in 0..disguises {
                let board = boards::disguised(board, &mut trial.rng);
                let block = trial.accepted(&board);
                trial.everything(&block, n);
                trial.tester.geometry(&board, &every_stage(n));
                trial.tester.contours(&board);
                trial.fits(&board);
            }
        });
        println!("  {n} posts: {count} boards with orders, each under {disguises} names");
    }
}

pub fn every_order_of_small_boards(trial: &mut Trial) {
    for n in 3..=7 {
        every_board(n, &mut |board| {
            let mut board = boards::disguised(board, &mut trial.rng);
            board.order.sort_unstable();
            permute(&mut board, 0, &mut |board| {
                let reply = trial.tester.check(&board.block());
                trial.tester.conditions(board, reply);
                trial.tester.forced_runs(board, reply);
            });
        });
    }
    let tally = &trial.tester.tally;
    println!(
        "  of {} orders that pass steps 1 to 11 {} have an earlier and a later neighbour \
         everywhere and one run,",
        tally.forced,
        tally.forced_with_two + tally.forced_with_one
    );
    println!(
        "  {} with two earlier ones everywhere, accepted, {} with one somewhere, refused by 12",
        tally.forced_with_two, tally.forced_with_one
    );
    assert!(
        tally.forced_with_one > 0,
        "one earlier neighbour never came up"
    );
}

pub fn middling_boards(trial: &mut Trial) {
    for kind in KINDS {
        for n in (5..20).chain([25, 33, 47, MIDDLING]) {
            let board = random(kind, n, &mut trial.rng);
            let block = trial.accepted(&board);
            trial.tester.geometry(&board, &every_stage(n));
            trial.tester.conditions(&board, Ok(n as u16));
            trial.fits(&board);
            if n < 20 {
                trial.everything(&block, n);
                trial.tester.contours(&board);
            } else {
                trial.something(&block, n, 50);
            }
        }
    }
}

pub fn large_boards(trial: &mut Trial) {
    for kind in KINDS {
        for n in [100, 250, 256, MOST / 2, MOST - 1, MOST] {
            let board = random(kind, n, &mut trial.rng);
            let block = trial.accepted(&board);
            trial.something(&block, n, 30);
            trial.fits(&board);
            trial.tester.geometry(&board, &sample_of_stages(n));
            if n <= MOST / 2 {
                trial.tester.conditions_at(&board, &sample_of_stages(n));
            }
        }
    }
    for habit in boards::HABITS {
        let board = boards::constructed(MOST, habit, &mut trial.rng);
        let block = trial.accepted(&board);
        trial.something(&block, MOST, 30);
        trial.fits(&board);
        trial.tester.geometry(&board, &sample_of_stages(MOST));
    }
    // One post too many, and otherwise a right block.
    let block = random(Kind::Flipped, MOST + 1, &mut trial.rng).block();
    trial.something(&block, MOST + 1, 10);
}

/// The stack that a thread needs for the longest block: the arrays' bytes for
/// each post (docs/PROMISES.md, Memory), and room for the rest of the frames
/// and for the thread's own use.
const FRAMES: usize = 7 * 1024;
const CHECK_STACK: usize = 25 * MOST + FRAMES;
const SHEET_STACK: usize = 37 * MOST + FRAMES;

pub fn small_stacks(trial: &mut Trial) {
    let n = MOST;
    let block = random(Kind::Flipped, n, &mut trial.rng).block();
    let within = |stack: usize, call: fn(&[u8], &mut [u16]) -> u32| {
        let (block, mut buffer) = (block.clone(), vec![0; 2 * n]);
        let thread = std::thread::Builder::new().stack_size(stack);
        let called = thread.spawn(move || call(&block, &mut buffer)).unwrap();
        called.join().unwrap()
    };
    let check = within(CHECK_STACK, |block, _| ffi::check(block));
    assert_eq!(check, word(Ok(n as u16)));
    let sheet = within(SHEET_STACK, |block, buffer| ffi::sheet(block, MOST, buffer));
    assert_eq!(sheet, word(Ok(2 * n as u16)));
    let post = within(SHEET_STACK, |block, _| {
        ffi::post(block, MOST, MOST - 1).reply
    });
    assert_eq!(post, word(Ok(0)));
    trial.tester.tally.calls += 3;
}
