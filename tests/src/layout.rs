//! Where the numbers of a block stand, for all code here that writes, damages
//! or shows blocks, and the limits of a board. The two implementations,
//! `paper` and `linear`, read blocks by themselves; they share the limits.

/// The fewest and the most posts of a board.
pub const FEWEST: usize = 3;
pub const MOST: usize = 1000;

pub const MARK: [u8; 3] = *b"PGB";
pub const VERSION: u16 = 1;

/// The offsets of the version and of n, and the length of the header.
pub const VERSION_AT: usize = MARK.len();
pub const N_AT: usize = VERSION_AT + 2;
pub const HEADER: usize = N_AT + 2;

/// The offset of the order entry in a position, counted from 0.
pub fn order_at(position: usize) -> usize {
    HEADER + 2 * position
}

/// The offset of a post's degree.
pub fn degree_at(n: usize, name: usize) -> usize {
    order_at(n) + 2 * name
}

/// The offset of an entry, counted from 0 through all lists.
pub fn entry_at(n: usize, entry: usize) -> usize {
    degree_at(n, n) + 2 * entry
}

/// How many entries the lists have in all (n from 3).
pub fn entries(n: usize) -> usize {
    6 * n - 12
}

/// The offset of the sum, which ends the block.
pub fn sum_at(n: usize) -> usize {
    entry_at(n, entries(n))
}

/// The length of a block of n posts.
pub fn length(n: usize) -> usize {
    sum_at(n) + 2
}

/// Whether a board may have so many posts.
pub fn allowed(n: usize) -> bool {
    (FEWEST..=MOST).contains(&n)
}

/// The header of a block of n posts.
pub fn header(n: u16) -> Vec<u8> {
    [&MARK[..], &VERSION.to_be_bytes(), &n.to_be_bytes()].concat()
}

/// The number at an offset, high byte first.
pub fn get(block: &[u8], at: usize) -> u16 {
    u16::from_be_bytes([block[at], block[at + 1]])
}

pub fn put(block: &mut [u8], at: usize, number: u16) {
    block[at..at + 2].copy_from_slice(&number.to_be_bytes());
}

#[cfg(test)]
mod tests {
    use super::*;

    /// By the rules: 16n - 15 bytes, the sum in the last two.
    #[test]
    fn lengths_are_those_of_the_paper() {
        for n in [FEWEST, 5, MOST] {
            assert_eq!(length(n), 16 * n - 15);
        }
        assert_eq!(header(5), b"PGB\0\x01\0\x05");
        assert_eq!(HEADER, header(5).len());
    }
}
