//! Scripts that build trees as a compiler does: a table of functions with blocks and operations; and trees to be walked.

use crate::author::{Author, Part};

impl Author {
    /// An operation with regions and blocks, and operations in those, down to a depth; gives its number.
    pub fn tree(&mut self, depth: usize, width: usize) -> u16 {
        let op = self.next_op();
        let regions = if depth == 0 {
            0
        } else {
            self.random.between(1, 2) as u8
        };
        let first = self.next_region();
        if !self.make(0, regions, b"") {
            return op;
        }
        for region in first..first + u16::from(regions) {
            for _ in 0..self.random.between(1, 2) {
                self.blocks_of_tree(region, depth, width);
            }
        }
        op
    }

    /// A block with operations, at the back of a region.
    fn blocks_of_tree(&mut self, region: u16, depth: usize, width: usize) {
        let block = self.next_block();
        if !self.write(2, &[]) || !self.link(4, 1, block, region) {
            return;
        }
        for _ in 0..self.random.below(width + 1) {
            let below = if depth > 1 && self.random.chance(50) {
                depth - 1
            } else {
                0
            };
            let inner = self.tree(below, width);
            self.link(3, 1, inner, block);
        }
        if self.random.chance(50) {
            let last = self.next_op();
            self.make(4, 0, b"");
            self.link(3, 1, last, block);
        }
    }

    /// A function: a symbol with blocks, which goes into a table.
    fn function(&mut self, table: u16, number: usize) {
        let name = self.names[number % self.names.len()].clone();
        let function = self.next_op();
        let region = self.next_region();
        let kind = [2, 2, 2, 3, 6][self.random.below(5)];
        if !self.make(kind, 1, &name) {
            return;
        }
        if kind != 3 {
            for _ in 0..self.random.between(1, 3) {
                self.blocks_of_tree(region, 1, 4);
            }
        }
        let code = [0, 0, 0, 2, 3, 4, 5][self.random.below(7)];
        let beside = match code {
            0 => 0,
            2 | 3 => self
                .body(table)
                .map_or(0, |body| self.session.blocks.of(body)),
            _ => self.op(|s, op| {
                op.deref(s.ctx())
                    .get_parent_op(s.ctx())
                    .is_some_and(|parent| s.ops.of(parent) == table)
            }),
        };
        self.write(
            7,
            &[
                Part::Number(table),
                Part::Number(function),
                Part::Byte(code),
                Part::Number(beside),
            ],
        );
        if kind == 3 && number < 20 {
            self.function(function, number + 20);
        }
    }

    /// A module: a table of functions, looked up, walked, changed, and looked up and walked again.
    pub fn book(&mut self) {
        self.sloppy = 2;
        self.names = [
            "main", "f", "g", "put", "get", "_start", "loop_1", "A", "x", "y2",
        ]
        .iter()
        .map(|name| name.as_bytes().to_vec())
        .collect();
        self.make(1, 1, b"");
        if self.random.chance(50) {
            let last = self.next_op();
            self.make(4, 0, b"");
            self.link(3, 1, last, 0);
        }
        for number in 0..self.random.between(3, 9) {
            self.function(0, number);
        }
        for _ in 0..self.random.between(2, 5) {
            self.ask(4);
            for _ in 0..self.random.between(3, 12) {
                let tag = 1 + self.random.weighted(&[8, 4, 10, 4, 4, 2, 10, 6, 4, 3, 2]) as u8;
                self.about(tag);
            }
        }
        self.ask(8);
        self.plain_walk(0, 0);
    }

    /// Looks names up and walks.
    pub fn ask(&mut self, times: usize) {
        for _ in 0..times {
            let tag = [0x0C, 0x0D, 0x0E, 0x0E, 0x0F][self.random.below(5)];
            self.about(tag);
        }
    }

    /// A tree, walked in every configuration, with Skips and Breaks.
    pub fn walked_tree(&mut self) {
        self.sloppy = 1;
        let depth = self.random.between(2, 4);
        let width = self.random.between(2, 4);
        if self.random.chance(40) {
            self.make(1, 1, b"");
            for name in [b"a", b"b"] {
                let symbol = self.next_op();
                let kind = self.random.between(2, 3) as u8;
                self.make(kind, 1, name);
                self.plain_insert(0, symbol);
            }
            let op = self.tree(depth, width);
            self.link(3, 1, op, 0);
        } else {
            self.tree(depth, width);
        }
        while self.has_room(64 * 13) {
            let start = self.random.below(64);
            for configuration in 0..64 {
                self.walk((start + configuration) as u8 % 64);
            }
            self.about(0x0F);
        }
    }
}
