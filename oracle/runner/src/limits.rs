//! Scripts at the limits: full records, full names, numbers past 511, long names, deep and wide trees.

use crate::author::{Author, Part};

/// How many kinds of limits there are.
pub const LIMITS: usize = 10;

impl Author {
    /// A script at one of the limits, then some fields about what there is.
    pub fn limit(&mut self, which: usize) {
        match which {
            0 => self.many_operations(),
            1 => self.many_blocks(false),
            2 => self.many_blocks(true),
            3 => self.many_regions(false),
            4 => self.many_regions(true),
            5 => self.many_names(),
            6 => self.deep(),
            7 => self.wide(),
            8 => self.many_tables(),
            _ => self.long_names(),
        }
        self.sloppy = 5;
        while self.has_room(16) && !self.random.chance(2) {
            let tag = 1 + self
                .random
                .weighted(&[30, 14, 6, 4, 4, 4, 6, 2, 2, 10, 8, 5, 5, 10, 3])
                as u8;
            self.about(tag);
        }
    }

    /// Operations up to number 511 and past it, some of them erased in between.
    fn many_operations(&mut self) {
        let leave = self.random.between(0, 3);
        let erased = self.random.between(0, 40);
        for number in 0..512 - leave {
            let regions = u8::from(number % 16 == 0);
            self.make(0, regions, b"");
            if number % 12 == 5 && number / 12 < erased {
                self.of_one(0x0A, number as u16 - 1);
            }
        }
        for _ in 0..6 {
            self.make(0, 0, b"");
        }
        self.make(1, 1, b"");
        self.make(2, 0, b"9");
    }

    /// Blocks up to 256 at once, or with some erased up to number 511 and past it.
    fn many_blocks(&mut self, numbers: bool) {
        let leave = self.random.between(0, 2) as u16;
        self.make(1, 1, b"");
        for _ in 1..256 - leave {
            self.write(2, &[]);
        }
        for _ in 0..2 {
            self.about(0x02);
            self.make(1, 1, b"");
        }
        if numbers {
            for number in 1..256 - leave {
                self.of_one(0x0B, number);
                self.write(2, &[]);
            }
            for _ in 0..5 {
                self.write(2, &[]);
                self.make(1, 1, b"");
            }
            self.make(8, 1, b"");
        }
    }

    /// Regions up to 256 at once, or with some erased up to number 511 and past it.
    fn many_regions(&mut self, numbers: bool) {
        for _ in 0..64 {
            let regions = if self.random.chance(90) { 4 } else { 3 };
            self.make(0, regions, b"");
        }
        for regions in [4, 3, 2, 1, 1, 1, 0] {
            self.make(0, regions, b"");
            self.make(1, 1, b"");
        }
        if numbers {
            for number in 0..64 {
                self.of_one(0x0A, number);
                self.make(0, 4, b"");
            }
            for regions in [4, 3, 2, 1, 1, 0] {
                self.make(0, regions, b"");
                self.make(1, 1, b"");
            }
        }
    }

    /// Names up to 256 and past them.
    fn many_names(&mut self) {
        let letters = b"abcdefghijklmnopqrstuvwxyzABCDEF_";
        let leave = self.random.between(0, 2);
        let regions = u8::from(self.random.chance(50));
        self.make(1, 1, b"");
        for number in 0..256 - leave {
            let name = [letters[number / 33], letters[number % 33]];
            let op = self.next_op();
            self.make(2, if number < 255 { regions } else { 0 }, &name);
            if number % 8 == 0 {
                self.plain_insert(0, op);
            }
            if number % 16 == 3 && regions == 0 {
                self.of_one(0x0A, op);
            }
        }
        self.names = [b"aa".as_slice(), b"ab", b"zz1", b"new", b"New", b"ba"]
            .map(<[u8]>::to_vec)
            .to_vec();
        self.names_past_the_last();
    }

    /// Makings with names that are held, new, malformed or long, where all names that may be are held.
    fn names_past_the_last(&mut self) {
        for _ in 0..4 {
            let name = self.name();
            self.make(2, 0, &name);
        }
        let long = b"zyxwvutsrqponmlkjihgfedcba9876543";
        for name in [b"z9".as_slice(), b"9z", b"aa", &long[..32], long] {
            self.make(2, 1, name);
            self.make(2, 0, name);
        }
    }

    /// Operations in each other, as deep as there is room.
    fn deep(&mut self) {
        let tables = self.random.chance(50);
        if tables {
            self.make(3, 1, b"a");
        } else {
            self.make(0, 1, b"");
        }
        for level in 0..self.random.between(60, 240) {
            if !self.has_room(40) {
                break;
            }
            self.level(tables, level as u8 & 1);
        }
        for configuration in [0, 0x3F, 0x2A] {
            self.plain_walk(0, configuration);
        }
        let last = self.next_op() - 1;
        self.plain_insert(last, 0);
        self.write(0x0D, &[Part::Number(last), Part::Text(b"a")]);
        if self.random.chance(70) {
            self.of_one(0x0A, 0);
        }
    }

    /// An operation in the one before: a table, or an operation in a block.
    fn level(&mut self, table: bool, how: u8) {
        let (op, region, block) = (self.next_op(), self.next_region(), self.next_block());
        if table {
            self.make(3, 1, b"a");
            self.plain_insert(op - 1, op);
        } else {
            self.write(2, &[]);
            self.link(4, 1, block, region - 1);
            self.make(0, 1, b"");
            self.link(3, how, op, block);
        }
    }

    /// One block with as many operations as there is room for.
    fn wide(&mut self) {
        self.make(0, 1, b"");
        self.write(2, &[]);
        self.link(4, 0, 0, 0);
        for _ in 0..self.random.between(100, 290) {
            let op = self.next_op();
            self.make(0, 0, b"");
            let how = if op == 1 {
                1
            } else {
                self.random.below(4) as u8
            };
            let target = if how < 2 {
                0
            } else {
                self.random.between(1, usize::from(op) - 1) as u16
            };
            self.link(3, how, op, target);
        }
        for configuration in [0, 0x3F, 0x08] {
            self.walk(configuration);
        }
    }

    /// As many tables as there are blocks, with one symbol in each other.
    fn many_tables(&mut self) {
        for table in 0..250u16 {
            self.make(1, 1, b"");
            if table % 4 == 3 {
                let symbol = self.next_op();
                self.make(2, 0, b"a");
                self.plain_insert(symbol - 1, symbol);
            }
            if table % 7 == 6 {
                let before = self.next_op() - 1;
                self.write(0x0C, &[Part::Number(before), Part::Text(b"a")]);
            }
        }
    }

    /// Names of 31 to 34 bytes, right and wrong ones.
    fn long_names(&mut self) {
        self.names.clear();
        for length in [1, 31, 32, 32, 33, 34] {
            for odd in [
                b'a', b'Z', b'_', b'7', b'-', b'@', b'[', b'`', b'{', b'/', b':', 0x80, 0xFF, 0,
            ] {
                let mut name = vec![b'q'; length];
                let at = if self.random.chance(40) {
                    0
                } else {
                    self.random.below(length)
                };
                name[at] = odd;
                self.names.push(name);
            }
        }
        self.make(1, 1, b"");
        for _ in 0..self.random.between(20, 50) {
            let name = self.name();
            let symbol = self.next_op();
            if self.make(2, 0, &name) {
                self.plain_insert(0, symbol);
            }
            self.about(0x0C);
            self.about(0x0D);
        }
    }
}
