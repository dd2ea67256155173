//! A table of times, with ratios and growth. What is printed follows from the
//! names of the times.

use crate::columns::{Time, RATIOS};

/// The boards of one kind and size.
pub struct Row {
    pub kind: &'static str,
    pub posts: usize,
    /// The highest degree among them.
    pub degree: usize,
    pub times: Vec<Time>,
}

impl Row {
    fn time(&self, name: &str) -> Option<f64> {
        let found = self.times.iter().find(|time| time.0 == name)?;
        Some(found.1)
    }
}

pub struct Table {
    title: &'static str,
    rows: Vec<Row>,
}

impl Table {
    pub fn new(title: &'static str) -> Self {
        let rows = Vec::new();
        Table { title, rows }
    }

    pub fn add(&mut self, row: Row) {
        self.rows.push(row);
    }

    pub fn print(&self) {
        println!("\n{}", self.title);
        print!("{:<10}{:>6}{:>8}", "boards", "n", "degree");
        for (name, _) in self.rows.first().map_or(&[][..], |row| &row.times) {
            print!("{name:>10}");
        }
        for (one, other, _) in RATIOS {
            print!("{:>13}", format!("{one}/{other}"));
        }
        println!();
        for row in &self.rows {
            print_row(row);
        }
        for rows in self.rows.chunk_by(|one, next| one.kind == next.kind) {
            print_growth(&rows[0], &rows[rows.len() - 1]);
        }
    }
}

fn print_row(row: &Row) {
    print!("{:<10}{:>6}{:>8}", row.kind, row.posts, row.degree);
    for (_, time) in &row.times {
        print!("{time:>10.1}");
    }
    for (one, other, digits) in RATIOS {
        if let (Some(one), Some(other)) = (row.time(one), row.time(other)) {
            print!("{:>13.digits$}", one / other);
        }
    }
    println!();
}

/// How many times longer the largest boards of a kind take than the smallest.
fn print_growth(small: &Row, large: &Row) {
    let (kind, from, to) = (small.kind, small.posts, large.posts);
    print!("growth, {kind}, from {from} to {to}:");
    for &(name, time) in &small.times {
        if let Some(longer) = large.time(name) {
            print!("  {name} {:.1}", longer / time);
        }
    }
    println!();
}
