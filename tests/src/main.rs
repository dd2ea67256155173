//! The test program: everything that goes through the unit's C library, and
//! what its programs print, is compared with what the rules say. It ends at
//! the first difference.

use outside::ffi;
use outside::parts::{Part, PARTS};
use outside::programs::stand_in;
use outside::tally::Tally;
use std::path::Path;
use std::process::ExitCode;
use std::{env, fs};

/// The fixed seed, of a run for which none is given.
const SEED: u64 = 1990;

const USAGE: &str = "\
outside                    run all parts
outside PART [SEED]        run one part, or `all`; the seed is a whole number, or `fixed`, as if none is given
outside PART SEED FILE     the same, and write what was counted to a file
outside sum FOLDER         add up what all parts have counted, in files with their names
outside parts              list the parts' names
outside stand-in PROGRAM   answer as the program `sheet`, `stage`, `fit` or `why` should, where there are none to try
";

fn main() -> ExitCode {
    let mut words = env::args_os().skip(1);
    if words.next().is_some_and(|word| word == "stand-in") {
        return ExitCode::from(u8::from(stand_in(words).is_err()));
    }
    let arguments: Vec<String> = env::args().skip(1).collect();
    let words: Vec<&str> = arguments.iter().map(String::as_str).collect();
    let done = match words[..] {
        [] => run("all", None, None),
        ["help" | "-h" | "--help"] => help(),
        ["parts"] => list(),
        ["sum", folder] => sum(Path::new(folder)),
        [part] => run(part, None, None),
        [part, seed] => run(part, Some(seed), None),
        [part, seed, file] => run(part, Some(seed), Some(Path::new(file))),
        _ => Err(vec![USAGE.into()]),
    };
    match done {
        Ok(()) => ExitCode::SUCCESS,
        Err(faults) => {
            faults.iter().for_each(|fault| println!("outside: {fault}"));
            ExitCode::FAILURE
        }
    }
}

/// What went wrong, a line for each.
type Done = Result<(), Vec<String>>;

fn help() -> Done {
    print!("{USAGE}\nThe parts:\n");
    for part in PARTS {
        println!("  {:10} {}", part.name, part.about);
    }
    Ok(())
}

fn list() -> Done {
    PARTS.iter().for_each(|part| println!("{}", part.name));
    Ok(())
}

fn names() -> String {
    let names: Vec<&str> = PARTS.iter().map(|part| part.name).collect();
    names.join(", ")
}

fn run(name: &str, seed: Option<&str>, file: Option<&Path>) -> Done {
    let chosen = |part: &&Part| name == "all" || part.name == name;
    let parts: Vec<&Part> = PARTS.iter().filter(chosen).collect();
    if parts.is_empty() {
        let fault = format!("there is no part `{name}`: there are all, {}", names());
        return Err(vec![fault]);
    }
    let no_seed = |_| vec!["the seed is not a whole number".to_string()];
    let seed = match seed {
        None | Some("fixed") => SEED,
        Some(word) => word.parse().map_err(no_seed)?,
    };
    if file.is_none() {
        println!(
            "outside: answers come from {}, seed {seed}",
            ffi::ANSWERED_BY
        );
    }
    let mut tally = Tally::default();
    for part in parts {
        tally
            .add(&part.run(seed).text())
            .map_err(|line| vec![line])?;
    }
    match file {
        None => tally.report(name == "all"),
        Some(file) => {
            let cannot = |error| vec![format!("{}: {error}", file.display())];
            fs::write(file, tally.text()).map_err(cannot)
        }
    }
}

/// Add up the files of all parts, each of which must be there.
fn sum(folder: &Path) -> Done {
    let mut tally = Tally::default();
    for part in PARTS {
        let file = folder.join(part.name);
        let cannot = |error: &dyn std::fmt::Display| vec![format!("{}: {error}", file.display())];
        let text = fs::read_to_string(&file).map_err(|error| cannot(&error))?;
        tally.add(&text).map_err(|line| cannot(&line))?;
    }
    println!("outside: answers came from {}", ffi::ANSWERED_BY);
    tally.report(true)
}
