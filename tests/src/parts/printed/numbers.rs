//! Words for `stage`: those that say a number, and those that do not.

/// Words that say a number, for a board of n posts: stages that there are and
/// others, some of which look like one in 16, 32 or 64 bits.
pub fn numbers(n: u128) -> Vec<String> {
    let whole = 1 << 64;
    let stages = [
        vec![0, 1, 2, 3, 4, n / 3, n / 2, n - 1, n, n + 1, 1000, 1001],
        vec![65535, 1 << 16, (1 << 16) + 3, (1 << 16) + n, 100_000],
        vec![(1 << 32) + 3, (1 << 32) + n, whole - 1, whole, whole + 3],
        vec![2 * whole + 3, 5 * whole + n, (1 << 96) + 3],
    ];
    let long = ["99999999999999999999", "100000000000000000003"].map(String::from);
    let zeros = ["00", "003", "0000000005"].map(String::from);
    let mut words: Vec<String> = stages.concat().iter().map(u128::to_string).collect();
    words.extend(long.into_iter().chain(zeros));
    // as many characters as there may be
    words.extend([0, 3, n, n + 1].map(|stage| format!("{stage:032}")));
    words.extend(["9".repeat(32), format!("1{:031}", 3)]);
    words.sort();
    words.dedup();
    words
}

/// Words that say none.
pub fn no_numbers() -> Vec<Vec<u8>> {
    let words = [
        "", "x", "3x", "x3", "-3", "+3", "-0", " 3", "3 ", "3\n", "\t3", " ", "/", ":", "3/", ":3",
        "0x3", "3.0", "3,0", "1e1", "3 4", "٣", "३", "３", "3３", "³", "Ⅲ", "--help",
    ];
    let mut words: Vec<Vec<u8>> = words.map(|word| word.as_bytes().to_vec()).to_vec();
    // digits alone, but too many of them
    for characters in [33, 34, 64, 65, 1000] {
        words.push(format!("{:0characters$}", 3).into_bytes());
        words.push(vec![b'9'; characters]);
    }
    // these bytes are no characters, and some are digits but for the highest bit
    words.extend([b"\xFF".to_vec(), b"\xB3".to_vec(), b"3\xB3".to_vec()]);
    words
}

#[cfg(test)]
mod tests {
    use super::*;
    use crate::layout::MOST;
    use crate::paper;

    #[test]
    fn the_words_are_what_they_are_said_to_be() {
        for n in [3, 5, 40, MOST as u128] {
            let says = |word: &String| paper::number(word.as_bytes()).unwrap();
            let stages: Vec<u128> = numbers(n).iter().map(says).collect();
            for stage in [0, 3, n, n + 1, (1 << 64) + 3] {
                assert!(stages.contains(&stage));
            }
        }
        for word in no_numbers() {
            assert_eq!(paper::number(&word), None, "{}", word.escape_ascii());
        }
    }
}
