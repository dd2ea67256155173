//! The programs `sheet`, `stage`, `fit` and `why`, run as processes with a block as
//! their input: every byte that they print is compared with what the rules say.

mod stand_in;

pub use stand_in::stand_in;

use crate::compare::{fails, Tester};
use crate::fits;
use crate::paper;
use crate::refusals::Service;
use crate::reply::Refusal;
use crate::text;
use std::env;
use std::ffi::{OsStr, OsString};
use std::fmt::{self, Display};
use std::io::{self, ErrorKind, Write};
use std::os::unix::ffi::OsStrExt;
use std::path::PathBuf;
use std::process::{ChildStdin, Command, Output, Stdio};
use std::thread;
use std::time::Duration;

/// A program with its argument.
#[derive(Clone, Copy)]
pub enum Call<'a> {
    Sheet,
    /// With the word that says the stage, or without.
    Stage(Option<&'a [u8]>),
    /// These with a word, at which they do not look, or without.
    Fit(Option<&'a [u8]>),
    Why(Option<&'a [u8]>),
}

/// The names of the programs.
const NAMES: [&str; 4] = ["sheet", "stage", "fit", "why"];

impl Call<'_> {
    fn program(self) -> &'static str {
        match self {
            Call::Sheet => "sheet",
            Call::Stage(_) => "stage",
            Call::Fit(_) => "fit",
            Call::Why(_) => "why",
        }
    }

    fn service(self) -> Service {
        match self {
            Call::Sheet => Service::SheetProgram,
            Call::Stage(_) => Service::StageProgram,
            Call::Fit(_) => Service::FitProgram,
            Call::Why(_) => Service::WhyProgram,
        }
    }

    fn word(&self) -> Option<&[u8]> {
        match self {
            Call::Sheet => None,
            Call::Stage(word) | Call::Fit(word) | Call::Why(word) => *word,
        }
    }

    /// What it is to print of a block, and the reply that this tells; a usage line tells none.
    fn right(self, block: &[u8]) -> (String, Option<Result<(), Refusal>>) {
        let text = match self {
            Call::Why(_) => return (paper::why_text(block), Some(paper::check(block).map(drop))),
            Call::Sheet => paper::sheet_text(block, None),
            Call::Fit(_) => paper::fit_text(block),
            Call::Stage(word) => match word.and_then(paper::number) {
                None => return (paper::usage_text(), None),
                stage => paper::sheet_text(block, stage),
            },
        };
        match text {
            Ok(text) => (text, Some(Ok(()))),
            Err(refusal) => (paper::refused_text(refusal), Some(Err(refusal))),
        }
    }
}

impl Display for Call<'_> {
    fn fmt(&self, f: &mut fmt::Formatter) -> fmt::Result {
        write!(f, "the program {}", self.program())?;
        match (self, self.word()) {
            (Call::Stage(_), None) => write!(f, " without a word"),
            (_, None) => Ok(()),
            (_, Some(word)) => write!(f, " with the word \"{}\"", word.escape_ascii()),
        }
    }
}

/// Where the programs are, and how they are run.
pub enum Programs {
    Built {
        folder: PathBuf,
        emulator: Option<OsString>,
    },
    /// The test program itself answers, so that it can be tried alone.
    StandIn(PathBuf),
}

impl Display for Programs {
    fn fmt(&self, f: &mut fmt::Formatter) -> fmt::Result {
        match self {
            Programs::Built { folder, emulator } => {
                write!(f, "the programs in {}", folder.display())?;
                match emulator {
                    None => Ok(()),
                    Some(emulator) => write!(f, ", run by {}", emulator.to_string_lossy()),
                }
            }
            Programs::StandIn(_) => write!(f, "a stand-in, NOT the programs (PGB_BIN is not set)"),
        }
    }
}

impl Programs {
    /// The programs in the folder that PGB_BIN names, under the emulator that
    /// PGB_EMULATOR names, if it does. The stand-in is taken only where no
    /// folder is named and the C library isn't linked either.
    pub fn found() -> Result<Self, String> {
        let Some(folder) = env::var_os("PGB_BIN").map(PathBuf::from) else {
            if cfg!(feature = "linked") {
                return Err("PGB_BIN does not name the folder of the programs".into());
            }
            let own = env::current_exe().map_err(|error| error.to_string())?;
            return Ok(Programs::StandIn(own));
        };
        for name in NAMES {
            let path = folder.join(name);
            if !path.is_file() {
                let path = path.display();
                let all = NAMES.join(" ");
                return Err(format!(
                    "there is no program {path}: run 'tests/build {all}' first, or set PGB_BIN"
                ));
            }
        }
        let emulator = env::var_os("PGB_EMULATOR").filter(|word| !word.is_empty());
        Ok(Programs::Built { folder, emulator })
    }

    fn command(&self, call: Call) -> Command {
        let mut command = match self {
            Programs::StandIn(own) => {
                let mut command = Command::new(own);
                command.args(["stand-in", call.program()]);
                command
            }
            Programs::Built { folder, emulator } => {
                let program = folder.join(call.program());
                match emulator {
                    None => Command::new(program),
                    Some(emulator) => {
                        let mut command = Command::new(emulator);
                        command.arg(program);
                        command
                    }
                }
            }
        };
        if let Some(word) = call.word() {
            command.arg(OsStr::from_bytes(word));
            // a further word, which no program looks at, beside every second one
            if word.len() % 2 == 0 {
                command.arg("4");
            }
        }
        command
    }

    /// Compare what a program prints of a block with what the rules say.
    pub fn compare(&self, tester: &mut Tester, call: Call, block: &[u8]) {
        self.compare_in_pieces(tester, call, block, usize::MAX);
    }

    /// The same, with the block written in pieces of so many bytes.
    pub fn compare_in_pieces(&self, tester: &mut Tester, call: Call, block: &[u8], piece: usize) {
        let output = match fed(self.command(call), block, piece) {
            Ok(output) => output,
            Err(error) => fails(&format!("{call}: it cannot be run: {error}"), block),
        };
        let (text, reply) = call.right(block);
        tester.tally.runs += 1;
        match reply {
            Some(reply) => tester.count(call.service(), reply.err()),
            None => {
                tester.tally.calls += 1;
                tester.tally.usages += 1;
            }
        }
        let fault = difference(&output.stdout, text.as_bytes());
        let status = output.status;
        let ended = (!status.success()).then(|| "it should end with status 0".to_string());
        let silent = output.stderr.is_empty();
        let spoke = (!silent).then(|| "nothing belongs on standard error".to_string());
        let apart = match (call, reply) {
            (Call::Fit(_), Some(Ok(()))) => test_fits(tester, block, &output.stdout).err(),
            _ => None,
        };
        if let Some(fault) = fault.or(ended).or(spoke).or(apart) {
            let said = output.stderr.escape_ascii();
            let rest = format!("{status}, standard error \"{said}\"");
            fails(&format!("{call}: {fault} ({rest})"), block);
        }
    }
}

/// The ends that are printed of an accepted block, on the points printed beside them.
fn test_fits(tester: &mut Tester, block: &[u8], printed: &[u8]) -> Result<(), String> {
    let printed = String::from_utf8_lossy(printed);
    let lines = fits::test_lines(&text::board(block), &printed)?;
    tester.tally.fits += lines as u64;
    Ok(())
}

/// Run a command; its input is written, so many bytes at a time, while what it
/// prints is read.
fn fed(mut command: Command, input: &[u8], piece: usize) -> io::Result<Output> {
    command.stdin(Stdio::piped());
    command.stdout(Stdio::piped()).stderr(Stdio::piped());
    let mut child = command.spawn()?;
    let pipe = child.stdin.take().expect("it is piped");
    thread::scope(|scope| {
        let feeding = scope.spawn(move || feed(pipe, input, piece));
        let output = child.wait_with_output();
        feeding.join().expect("feeding doesn't panic")?;
        output
    })
}

/// How long input in pieces takes in all: the program begins to read before its end.
const SLOWLY: Duration = Duration::from_millis(200);

/// Write the input and close the pipe. A program may stop reading before its end.
fn feed(mut pipe: ChildStdin, input: &[u8], piece: usize) -> io::Result<()> {
    let parts = input.chunks(piece);
    let pause = SLOWLY / parts.len().max(1) as u32;
    for part in parts {
        match pipe.write_all(part) {
            Err(error) if error.kind() == ErrorKind::BrokenPipe => return Ok(()),
            done => done?,
        }
        if part.len() < input.len() {
            thread::sleep(pause);
        }
    }
    Ok(())
}

/// The first line in which what was printed isn't what it should be. A line's
/// end is part of it.
fn difference(printed: &[u8], right: &[u8]) -> Option<String> {
    let lines = |text| <[u8]>::split_inclusive(text, |&byte| byte == b'\n');
    let (mut printed, mut right) = (lines(printed), lines(right));
    let mut line = 0;
    loop {
        line += 1;
        match (printed.next(), right.next()) {
            (None, None) => return None,
            (one, other) if one == other => {}
            (one, other) => {
                let (one, other) = (shown(one), shown(other));
                return Some(format!("line {line}: got {one}, not {other}"));
            }
        }
    }
}

/// The most bytes of a line that are shown.
const SHOWN: usize = 200;

fn shown(line: Option<&[u8]>) -> String {
    match line {
        None => "nothing".into(),
        Some(line) if line.len() > SHOWN => {
            let (start, rest) = line.split_at(SHOWN);
            format!("\"{}\" and {} bytes", start.escape_ascii(), rest.len())
        }
        Some(line) => format!("\"{}\"", line.escape_ascii()),
    }
}

#[cfg(test)]
mod tests;
