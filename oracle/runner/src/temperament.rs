//! The temperaments of scripts, and how one is written from a seed and its number.

use crate::author::Author;
use crate::limits::LIMITS;
use crate::random::Random;
use crate::torn::{damage, leave_out};

#[derive(Clone, Copy, PartialEq, Eq, Debug)]
pub enum Temperament {
    Book,
    Churn,
    Collide,
    Walks,
    Limits,
    Torn,
    Mixed,
}

use Temperament::*;

pub const ALL: [Temperament; 7] = [Book, Churn, Collide, Walks, Limits, Torn, Mixed];

/// How often each tag from 01 on is drawn.
const CHURN: [usize; 15] = [24, 9, 16, 9, 4, 3, 9, 3, 4, 14, 6, 4, 3, 6, 2];
const COLLIDE: [usize; 15] = [7, 2, 8, 3, 5, 1, 42, 8, 5, 3, 2, 14, 7, 3, 2];
const MIXED: [usize; 15] = [14, 6, 12, 8, 5, 4, 12, 5, 5, 5, 4, 6, 5, 8, 4];

impl Temperament {
    /// The temperament of a script, by its number.
    pub fn of(number: u64) -> Self {
        ALL[(number % ALL.len() as u64) as usize]
    }

    /// Writes a script, without some tags.
    pub fn write(self, seed: u64, number: u64, without: &[u8]) -> Vec<u8> {
        let mut random = Random::new(seed, number);
        if self == Torn {
            let inner = [Book, Churn, Collide, Walks, Limits, Mixed][random.below(6)];
            let mut script = inner.write(seed ^ 0x5EED, number, without);
            if random.chance(60) {
                script.truncate(random.between(1, 400));
            }
            damage(&mut random, &mut script);
            leave_out(&mut script, without);
            return script;
        }
        let mut author = Author::new(random);
        match self {
            Book => author.book(),
            Churn => author.drawn(&CHURN, 6),
            Collide => author.colliding(),
            Walks => author.walked_tree(),
            Limits => author.limit((number / ALL.len() as u64) as usize % LIMITS),
            _ => {
                let sloppy = author.random.below(40);
                author.drawn(&MIXED, sloppy);
            }
        }
        leave_out(&mut author.script, without);
        author.script
    }
}

impl Author {
    /// Fields drawn by weight.
    fn drawn(&mut self, weights: &[usize], sloppy: usize) {
        self.sloppy = sloppy;
        for _ in 0..self.random.between(20, 320) {
            let tag = 1 + self.random.weighted(weights) as u8;
            self.about(tag);
        }
    }

    /// Two or three tables, one of them also a symbol, and few names.
    fn colliding(&mut self) {
        self.names.truncate(2);
        let tables = self.random.between(2, 3);
        for table in 0..tables {
            if table == 0 {
                self.make(1, 1, b"")
            } else {
                self.make(3, 1, b"a")
            };
        }
        for kind in [2, 2, 6, 4, 3, 0] {
            let name = if kind & 2 == 0 {
                Vec::new()
            } else {
                self.names[self.random.below(2)].clone()
            };
            self.make(kind, 1, &name);
        }
        let block = self.next_block();
        self.write(2, &[]);
        for op in tables..tables + self.random.below(3) {
            self.link(3, 1, op as u16, block);
        }
        let sloppy = self.random.between(1, 6);
        self.drawn(&COLLIDE, sloppy);
    }
}
