//! Boost's Chrobak-Payne drawing, if the script could build `boost.cpp`.

use std::env;
use std::io::Write;
use std::path::PathBuf;
use std::process::{Command, Stdio};

/// The program that was built from `boost.cpp`.
pub struct Boost(PathBuf);

impl Boost {
    /// The program that BOOST_DRAW names, if there is one.
    pub fn find() -> Option<Self> {
        env::var_os("BOOST_DRAW").map(|path| Boost(path.into()))
    }

    /// Its best time for the last stage of these blocks, in microseconds a
    /// block. Its points must be those of the sheets.
    pub fn draw(
        &self,
        blocks: &[Vec<u8>],
        passes: usize,
        sheets: impl Iterator<Item = u16>,
    ) -> f64 {
        let output = self.run(blocks, passes);
        let mut words = output.split_whitespace();
        let time = words.next().expect("boost: no time");
        let points = words.map(|word| word.parse::<u16>().expect("boost: no number"));
        assert!(points.eq(sheets), "boost draws other points");
        time.parse().expect("boost: no time")
    }

    fn run(&self, blocks: &[Vec<u8>], passes: usize) -> String {
        let mut child = Command::new(&self.0)
            .arg(passes.to_string())
            .stdin(Stdio::piped())
            .stdout(Stdio::piped())
            .spawn()
            .expect("boost: cannot be run");
        let mut input = child.stdin.take().expect("boost: no input");
        for block in blocks {
            input.write_all(block).expect("boost: cannot be written to");
        }
        drop(input);
        let output = child.wait_with_output().expect("boost: no output");
        assert!(output.status.success(), "boost failed");
        String::from_utf8(output.stdout).expect("boost: no text")
    }
}
