//! What each refusal means, in the words of README.md's table, which the program
//! `why` is to print.

use crate::refusals::NUMBERS;
use crate::reply::Refusal;
use std::collections::BTreeMap;
use std::sync::OnceLock;

const README: &str = include_str!("../../README.md");

/// The section with the table, and the table's first two lines.
const SECTION: &str = "## When the lamp is red";
const HEAD: &str = "| No. | What it means |";
const RULE: &str = "|---|---|";

/// The first cell of the row for the total of all degrees.
const TOTAL: &str = "8, place n";

/// In the words this stands for the place.
const PLACE: &str = "PLACE";

/// The rows of the table: a number, and what it means.
#[derive(Debug)]
pub struct Words(BTreeMap<String, String>);

impl Words {
    /// Those of README.md. A table that has not just the rows it should have ends the program.
    pub fn of_readme() -> &'static Words {
        static WORDS: OnceLock<Words> = OnceLock::new();
        let read = || Words::read(README).unwrap_or_else(|fault| panic!("README.md: {fault}"));
        WORDS.get_or_init(read)
    }

    fn read(text: &str) -> Result<Self, String> {
        let section = text.lines().skip_while(|&line| line != SECTION).skip(1);
        let section = section.take_while(|line| !line.starts_with("## "));
        let mut table = section.skip_while(|&line| line != HEAD).skip(1);
        if table.next() != Some(RULE) {
            return Err(format!("there is no table `{HEAD}` in section `{SECTION}`"));
        }
        let mut rows = BTreeMap::new();
        for line in table.take_while(|line| line.starts_with('|')) {
            let Some((number, words)) = row(line) else {
                return Err(format!("this is no row of two cells: {line}"));
            };
            if rows.insert(number.to_string(), words.to_string()).is_some() {
                return Err(format!("a second row for {number}"));
            }
        }
        complete(&rows).map(|()| Words(rows))
    }

    /// What a refusal of a block of n posts means.
    pub fn of(&self, refusal: Refusal, n: u16) -> String {
        let total = refusal.number == 8 && refusal.place == n;
        let number = refusal.number.to_string();
        let words = &self.0[if total { TOTAL } else { &number }];
        words.replace(PLACE, &refusal.place.to_string())
    }
}

/// The two cells of a row.
fn row(line: &str) -> Option<(&str, &str)> {
    let cells = line.strip_prefix("| ")?.strip_suffix(" |")?;
    let (number, words) = cells.split_once(" | ")?;
    let whole = |cell: &str| !cell.is_empty() && cell.trim() == cell && !cell.contains('|');
    (whole(number) && whole(words)).then_some((number, words))
}

/// Each refusal that some service gives has its row, and there is no other.
fn complete(rows: &BTreeMap<String, String>) -> Result<(), String> {
    let given = NUMBERS.iter().filter(|line| !line.1.is_empty());
    let mut numbers: Vec<String> = given.map(|line| line.0.to_string()).collect();
    numbers.push(TOTAL.into());
    if let Some(missing) = numbers.iter().find(|&number| !rows.contains_key(number)) {
        return Err(format!("no row for {missing}"));
    }
    match rows.keys().find(|number| !numbers.contains(number)) {
        Some(other) => Err(format!("a row for {other}, which no service gives")),
        None => Ok(()),
    }
}

#[cfg(test)]
mod tests {
    use super::*;
    use crate::layout::{FEWEST, MOST};

    fn refusal(number: u16, place: u16) -> Refusal {
        Refusal { number, place }
    }

    #[test]
    fn the_words_of_readme() {
        let words = Words::of_readme();
        let run = "at position 3 of the order: the post's wires to posts fitted before it do not \
                   lie side by side; two posts may stand in each other's place";
        assert_eq!(words.of(refusal(13, 3), 5), run);
        let list = "in the list of post 14: a post whose own list does not have post 14; either \
                    of the two lists may be the wrong one";
        assert_eq!(words.of(refusal(20, 14), 40), list);
    }

    /// The limits stand in the words as in every other place.
    #[test]
    fn the_words_tell_the_limits() {
        let limits = format!("the number of posts is below {FEWEST} or above {MOST}");
        assert_eq!(Words::of_readme().of(refusal(4, 0), 0), limits);
    }

    #[test]
    fn the_total_of_all_degrees_has_words_of_its_own() {
        let words = Words::of_readme();
        let one = "the degree of post 4 is below 2, or so high that there are not that many other \
                   posts";
        assert_eq!(words.of(refusal(8, 4), 5), one);
        let all = "the degrees of all 5 posts together are not 6 times 5 less 12";
        assert_eq!(words.of(refusal(8, 5), 5), all);
        // with another number the place may be n too
        assert_eq!(words.of(refusal(7, 5), 5), words.of(refusal(7, 5), 9));
    }

    /// README.md with each line of the table changed in turn.
    fn with_each_line(change: impl Fn(&str) -> String) -> Vec<String> {
        let section = README.find(SECTION).unwrap();
        let table = section + README[section..].find(HEAD).unwrap();
        let end = table + README[table..].find("\n\n").unwrap();
        let lines: Vec<&str> = README[table..end].lines().collect();
        assert_eq!(lines.len(), 2 + 20);
        let changed = lines.iter().map(|&line| {
            let lines = lines.iter().map(|&other| {
                let same = other == line;
                if same {
                    change(line)
                } else {
                    format!("{other}\n")
                }
            });
            let lines: String = lines.collect();
            format!("{}{lines}{}", &README[..table], &README[end + 1..])
        });
        changed.collect()
    }

    #[test]
    fn a_row_that_is_missing_or_malformed_is_found() {
        let unchanged = with_each_line(|line| format!("{line}\n"));
        assert!(unchanged.iter().all(|text| Words::read(text).is_ok()));
        let changes: [fn(&str) -> String; 7] = [
            |_| String::new(),
            |line| format!("{line}\n{line}\n"),
            |line| format!("{line} more |\n"),
            |line| format!("{}\n", &line[1..]),
            |line| format!("{}\n", &line[..line.len() - 1]),
            |line| format!("{}\n", line.replacen("| ", "| 1", 1).replacen("|-", "|", 1)),
            |line| format!("{line}\n| 14 | no post comes after it |\n"),
        ];
        for (i, change) in changes.iter().enumerate() {
            for text in with_each_line(change) {
                assert!(Words::read(&text).is_err(), "change {i}: {text}");
            }
        }
    }

    #[test]
    fn faults_of_the_table_are_told() {
        let told = |text: &str| Words::read(text).unwrap_err();
        assert!(told("").starts_with("there is no table"));
        let start = format!("{SECTION}\n\n{HEAD}\n{RULE}\n");
        assert_eq!(told(&start), "no row for 1");
        assert_eq!(
            told(&format!("{start}| 1 | a |\n| 1 | b |\n")),
            "a second row for 1"
        );
        let elsewhere = README.replace(SECTION, "## When the lamp is blue");
        assert!(told(&elsewhere).starts_with("there is no table"));
        let row = "| 17 | no post has that name |";
        let renamed = README.replace(row, "| 21 | no post has that name |");
        assert_eq!(told(&renamed), "no row for 17");
        let more = README.replace(row, &format!("{row}\n| 21 | none |"));
        assert_eq!(told(&more), "a row for 21, which no service gives");
        let empty = README.replace(row, "| 17 |  |");
        assert_eq!(told(&empty), "this is no row of two cells: | 17 |  |");
    }
}
