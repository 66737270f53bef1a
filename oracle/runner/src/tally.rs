//! Counts how often each row and each tag was met.

use crate::field::Field;
use crate::node::Row;
use crate::session::Close;

/// What was met in the scripts of one temperament.
#[derive(Clone, Default)]
pub struct Tally {
    pub scripts: u64,
    pub different: u64,
    pub fields: u64,
    /// By number; row 20 counts scripts.
    pub rows: [u64; 26],
    /// By tag, done and refused; the last stands for tags not listed, and the first for fields that are cut.
    pub tags: [[u64; 2]; 17],
    /// Rows 9, 10, 12 and 13 of tags 07 to 09, and the others of tag 07, by tag and row.
    pub insert_rows: [u64; 26],
    pub breaks: u64,
    pub found: u64,
    pub wrong_mappings: u64,
    pub panics: u64,
}

impl Tally {
    pub fn count(&mut self, field: &Field, answer: Result<Close, Row>) {
        self.fields += 1;
        let tag = field.whole.map_or(0, |(tag, _)| usize::from(tag));
        let slot = if tag == 0 && field.whole.is_some() {
            16
        } else {
            tag.min(16)
        };
        self.tags[slot][usize::from(answer.is_err())] += 1;
        match answer {
            Err(Row(row)) => {
                self.rows[usize::from(row)] += 1;
                if tag == 7 {
                    self.insert_rows[usize::from(row)] += 1;
                }
            }
            Ok(Close::Break) => self.breaks += 1,
            Ok(Close::Nothing) if matches!(tag, 0x0C | 0x0D) => self.found += 1,
            Ok(_) => {}
        }
    }

    pub fn add(&mut self, other: &Tally) {
        self.scripts += other.scripts;
        self.different += other.different;
        self.fields += other.fields;
        self.breaks += other.breaks;
        self.found += other.found;
        self.wrong_mappings += other.wrong_mappings;
        self.panics += other.panics;
        for row in 0..26 {
            self.rows[row] += other.rows[row];
            self.insert_rows[row] += other.insert_rows[row];
        }
        for (tag, other) in self.tags.iter_mut().zip(other.tags) {
            tag[0] += other[0];
            tag[1] += other[1];
        }
    }
}

/// Prints a table: a name and its counts in each line.
pub fn print_counts(heads: &[&str], tallies: &[Tally]) {
    let line = |name: String, value: &dyn Fn(&Tally) -> u64| {
        let values: Vec<u64> = tallies.iter().map(value).collect();
        let cells: String = values.iter().map(|value| format!("{value:>10}")).collect();
        println!("{name:<22}{cells}{:>11}", values.iter().sum::<u64>());
    };
    let cells: String = heads.iter().map(|head| format!("{head:>10}")).collect();
    println!("{:<22}{cells}{:>11}", "", "all");
    line("scripts".into(), &|tally| tally.scripts);
    line("fields".into(), &|tally| tally.fields);
    for row in 1..26 {
        line(format!("row {row}"), &|tally| tally.rows[row]);
    }
    for row in [1, 2, 3, 9, 10, 11, 12, 14, 18] {
        line(format!("row {row} of tag 07"), &|tally| {
            tally.insert_rows[row]
        });
    }
    for tag in 1..16 {
        line(format!("tag {tag:02X} done"), &|tally| tally.tags[tag][0]);
        line(format!("tag {tag:02X} refused"), &|tally| {
            tally.tags[tag][1]
        });
    }
    line("tags not listed".into(), &|tally| tally.tags[16][1]);
    line("walks broken off".into(), &|tally| tally.breaks);
    line("names found".into(), &|tally| tally.found);
    line("wrong maps in pliron".into(), &|tally| tally.wrong_mappings);
    line("panics of pliron".into(), &|tally| tally.panics);
}
