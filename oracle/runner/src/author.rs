//! Writes the fields of a script one by one, running each over pliron's code, so that the next can speak of what there is.

use pliron::basic_block::BasicBlock;
use pliron::context::Ptr;
use pliron::linked_list::ContainsLinkedList;
use pliron::operation::Operation;
use pliron::region::Region;

use crate::field::{MOST_BYTES, push};
use crate::node::{Node, Numbers, Row};
use crate::random::Random;
use crate::session::{Close, Mode, Session};

/// Names that are no names, or longer than one may be.
const WRONG_NAMES: [&[u8]; 8] = [
    b"9a",
    b"",
    b"a b",
    b"\xc3\xa9",
    b"a\xff",
    b"-",
    b"abcdefghijklmnopqrstuvwxyz0123456",
    b"{bcdefghijklmnopqrstuvwxyz0123456",
];

/// How often a walk answers no node Skip, or Break; of 100.
const NO_ANSWER: usize = 45;

pub struct Author {
    pub random: Random,
    pub script: Vec<u8>,
    pub session: Session,
    /// How often a node is any node rather than a fitting one; of 100.
    pub sloppy: usize,
    /// The names that symbols get.
    pub names: Vec<Vec<u8>>,
}

impl Author {
    pub fn new(random: Random) -> Self {
        let names = [b"a".to_vec(), b"b".to_vec(), b"_c1".to_vec()].to_vec();
        Author {
            random,
            script: Vec::new(),
            session: Session::new(Mode::Quick),
            sloppy: 10,
            names,
        }
    }

    /// Whether there is room for so many bytes more.
    pub fn has_room(&self, bytes: usize) -> bool {
        self.script.len() + bytes <= MOST_BYTES
    }

    /// Writes a field if there is room, and says its answer.
    pub fn field(&mut self, tag: u8, value: &[u8]) -> Option<Result<Close, Row>> {
        if !self.has_room(3 + value.len()) {
            return None;
        }
        push(&mut self.script, tag, value);
        Some(self.session.run(Some((tag, value))))
    }

    /// Writes a field of bytes and node numbers.
    pub fn write(&mut self, tag: u8, parts: &[Part]) -> bool {
        let mut value = Vec::new();
        for part in parts {
            match part {
                Part::Byte(byte) => value.push(*byte),
                Part::Number(number) => value.extend_from_slice(&number.to_be_bytes()),
                Part::Text(text) => value.extend_from_slice(text),
            }
        }
        matches!(self.field(tag, &value), Some(Ok(_)))
    }

    /// The number of an operation that fits, mostly.
    pub fn op(&mut self, fits: impl Fn(&Session, Ptr<Operation>) -> bool) -> u16 {
        let session = &self.session;
        pick(&mut self.random, self.sloppy, &session.ops, |op| {
            op.is_live(session.ctx()) && fits(session, op)
        })
    }

    pub fn block(&mut self, fits: impl Fn(&Session, Ptr<BasicBlock>) -> bool) -> u16 {
        let session = &self.session;
        pick(&mut self.random, self.sloppy, &session.blocks, |block| {
            block.is_live(session.ctx()) && fits(session, block)
        })
    }

    pub fn region(&mut self, fits: impl Fn(&Session, Ptr<Region>) -> bool) -> u16 {
        let session = &self.session;
        pick(&mut self.random, self.sloppy, &session.regions, |region| {
            region.is_live(session.ctx()) && fits(session, region)
        })
    }

    pub fn name(&mut self) -> Vec<u8> {
        if self.random.chance(4) {
            self.random.one_of(&WRONG_NAMES).to_vec()
        } else {
            self.names[self.random.below(self.names.len())].clone()
        }
    }

    /// A field with a tag, from 01 to 0F, about what there is.
    pub fn about(&mut self, tag: u8) -> bool {
        match tag {
            0x01 => self.make_operation(),
            0x02 => self.write(2, &[]),
            0x03 => self.link_operation(),
            0x04 => self.link_block(),
            0x05 => {
                let op = self.op(|s, op| is_linked(s, Node::Operation(op)));
                self.of_one(5, op)
            }
            0x06 => {
                let block = self.block(|s, block| is_linked(s, Node::Block(block)));
                self.of_one(6, block)
            }
            0x07 => self.insert(),
            0x08 | 0x09 => self.remove(tag),
            0x0A => {
                let op = self.op(|_, _| true);
                self.of_one(tag, op)
            }
            0x0B => {
                let block = self.block(|_, _| true);
                self.of_one(tag, block)
            }
            0x0C | 0x0D => self.look_up(tag),
            0x0E => {
                let configuration = if self.random.chance(1) {
                    self.random.byte()
                } else {
                    self.random.below(0x40) as u8
                };
                self.walk(configuration)
            }
            _ => {
                let table = self.op(|s, op| s.is_table(op));
                self.of_one(tag, table)
            }
        }
    }

    fn make_operation(&mut self) -> bool {
        let kind = if self.random.chance(2) {
            self.random.byte()
        } else {
            [0, 0, 0, 1, 2, 2, 3, 3, 4, 6, 7, 5][self.random.below(12)]
        };
        let most = if self.random.chance(3) { 6 } else { 2 };
        let regions = if kind & 1 != 0 && !self.random.chance(2) {
            1
        } else {
            self.random.below(most + 1) as u8
        };
        let name = if (kind & 2 != 0) != self.random.chance(2) {
            self.name()
        } else {
            Vec::new()
        };
        self.make(kind, regions, &name)
    }

    /// Makes an operation.
    pub fn make(&mut self, kind: u8, regions: u8, name: &[u8]) -> bool {
        self.write(
            1,
            &[Part::Byte(kind), Part::Byte(regions), Part::Text(name)],
        )
    }

    fn how(&mut self) -> u8 {
        if self.random.chance(1) {
            self.random.byte()
        } else {
            self.random.below(4) as u8
        }
    }

    fn link_operation(&mut self) -> bool {
        let how = self.how();
        let plain = self.random.chance(80);
        let (op_linked, mark_linked) = (self.random.chance(6), !self.random.chance(6));
        let op = self.op(|s, op| {
            is_linked(s, Node::Operation(op)) == op_linked && !(plain && s.is_symbol(op))
        });
        let target = if how < 2 {
            self.block(|_, _| true)
        } else {
            self.op(|s, op| is_linked(s, Node::Operation(op)) == mark_linked)
        };
        self.link(3, how, op, target)
    }

    fn link_block(&mut self) -> bool {
        let how = self.how();
        let (block_linked, mark_linked) = (self.random.chance(6), !self.random.chance(6));
        let tables = self.random.chance(10);
        let block = self.block(|s, block| is_linked(s, Node::Block(block)) == block_linked);
        let target = if how < 2 {
            self.region(|s, region| tables || !s.is_table(region.deref(s.ctx()).get_parent_op()))
        } else {
            self.block(|s, block| is_linked(s, Node::Block(block)) == mark_linked)
        };
        self.link(4, how, block, target)
    }

    fn insert(&mut self) -> bool {
        let table = self.op(|s, op| s.is_table(op));
        let free = self.random.chance(70);
        let symbol = if self.random.chance(6) {
            table
        } else {
            self.op(|s, op| s.is_symbol(op) && !(free && is_linked(s, Node::Operation(op))))
        };
        let [code, node] = self.point(table);
        let done = self.write(7, &[Part::Number(table), Part::Number(symbol), code, node]);
        if done && self.random.chance(40) {
            self.of_one(0x0F, table);
            self.plain_walk(table, 0);
        }
        done
    }

    /// A point, in a table's body mostly.
    fn point(&mut self, table: u16) -> [Part<'static>; 2] {
        let code = if self.random.chance(1) {
            self.random.byte()
        } else {
            [0, 0, 0, 1, 2, 3, 3, 4, 4, 5, 5][self.random.below(11)]
        };
        let body = if self.random.chance(75) {
            self.body(table)
        } else {
            None
        };
        let node = match code {
            2 | 3 => self.block(|_, block| body.is_none_or(|body| body == block)),
            4 | 5 => self.op(|s, op| {
                body.is_none_or(|body| op.deref(s.ctx()).get_parent_block() == Some(body))
            }),
            _ => self.random.below(3) as u16 * 0x100,
        };
        [Part::Byte(code), Part::Number(node)]
    }

    /// The body of a live table with a number.
    pub fn body(&self, table: u16) -> Option<Ptr<BasicBlock>> {
        let ctx = self.session.ctx();
        let op = self.session.ops.at(table).ok()?;
        if !op.is_live(ctx) || !self.session.is_table(op) {
            return None;
        }
        op.deref(ctx).get_region(0).deref(ctx).get_head()
    }

    /// A walk from an operation, without Skip and Break.
    pub fn plain_walk(&mut self, op: u16, configuration: u8) -> bool {
        let [high, low] = op.to_be_bytes();
        let value = [0, high, low, configuration, 3, 0, 0, 3, 0, 0];
        matches!(self.field(0x0E, &value), Some(Ok(_)))
    }

    /// An insert without a point.
    pub fn plain_insert(&mut self, table: u16, symbol: u16) -> bool {
        let numbers = [Part::Number(table), Part::Number(symbol)];
        let point = [Part::Byte(0), Part::Number(0)];
        self.write(7, &[numbers, point].concat())
    }

    /// Links an operation (tag 03) or a block (04).
    pub fn link(&mut self, tag: u8, how: u8, node: u16, target: u16) -> bool {
        self.write(
            tag,
            &[Part::Byte(how), Part::Number(node), Part::Number(target)],
        )
    }

    /// Erases an operation (tag 0A) or a block (0B), or says another thing of one node.
    pub fn of_one(&mut self, tag: u8, node: u16) -> bool {
        self.write(tag, &[Part::Number(node)])
    }

    fn remove(&mut self, tag: u8) -> bool {
        let symbol = self.op(stands_in_table);
        let exact = self.random.chance(80);
        let parent = self
            .session
            .ops
            .at(symbol)
            .ok()
            .filter(|op| exact && op.is_live(self.session.ctx()));
        let parent = parent.and_then(|op| {
            op.deref(self.session.ctx())
                .get_parent_op(self.session.ctx())
        });
        let table = match parent {
            Some(parent) => self.session.ops.of(parent),
            None => self.op(|s, op| s.is_table(op)),
        };
        self.write(tag, &[Part::Number(table), Part::Number(symbol)])
    }

    fn look_up(&mut self, tag: u8) -> bool {
        let mut op = self.op(|s, op| tag == 0x0D || s.is_table(op));
        let mut name = self.name();
        if self.random.chance(40) {
            // A name that stands somewhere, and there.
            let symbol = self.op(stands_in_table);
            let symbol =
                self.session.ops.at(symbol).ok().filter(|op| {
                    op.is_live(self.session.ctx()) && stands_in_table(&self.session, *op)
                });
            if let Some(symbol) = symbol {
                let ctx = self.session.ctx();
                let parent = symbol.deref(ctx).get_parent_op(ctx).expect("the table");
                op = self
                    .session
                    .ops
                    .of(if tag == 0x0C { parent } else { symbol });
                name = self
                    .session
                    .symbol(symbol)
                    .expect("a symbol")
                    .get_symbol_name(ctx)
                    .as_ref()
                    .as_bytes()
                    .to_vec();
            }
        }
        self.write(tag, &[Part::Number(op), Part::Text(&name)])
    }

    /// A kind of node and a number.
    fn node(&mut self) -> [Part<'static>; 2] {
        let kind = if self.random.chance(1) {
            self.random.byte()
        } else {
            [0, 0, 0, 1, 1, 2][self.random.below(6)]
        };
        let number = match kind {
            0 => self.op(|_, _| true),
            1 => self.block(|_, _| true),
            _ => self.region(|_, _| true),
        };
        [Part::Byte(kind), Part::Number(number)]
    }

    /// A node that a walk answers Skip or Break, or none.
    fn answered(&mut self) -> [Part<'static>; 2] {
        if self.random.chance(NO_ANSWER) {
            [
                Part::Byte(3),
                Part::Number(self.random.below(2) as u16 * 0xFFFF),
            ]
        } else {
            self.node()
        }
    }

    /// A walk in a configuration.
    pub fn walk(&mut self, configuration: u8) -> bool {
        let [kind, root] = self.node();
        let [skip_kind, skip] = self.answered();
        let [break_kind, broken] = if self.random.chance(5) {
            [skip_kind, skip]
        } else {
            self.answered()
        };
        self.write(
            0x0E,
            &[
                kind,
                root,
                Part::Byte(configuration),
                skip_kind,
                skip,
                break_kind,
                broken,
            ],
        )
    }

    /// The number that the next operation, block or region gets.
    pub fn next_op(&self) -> u16 {
        self.session.ops.given() as u16
    }
    pub fn next_block(&self) -> u16 {
        self.session.blocks.given() as u16
    }
    pub fn next_region(&self) -> u16 {
        self.session.regions.given() as u16
    }
}

/// A part of a field's value.
#[derive(Clone, Copy)]
pub enum Part<'a> {
    Byte(u8),
    Number(u16),
    Text(&'a [u8]),
}

pub fn is_linked(session: &Session, node: Node) -> bool {
    node.parent(session.ctx()).is_some()
}

/// Whether a live operation is a symbol that stands in a table.
fn stands_in_table(session: &Session, op: Ptr<Operation>) -> bool {
    session.is_symbol(op)
        && op
            .deref(session.ctx())
            .get_parent_op(session.ctx())
            .is_some_and(|parent| session.is_table(parent))
}

/// A number whose node fits, mostly; the late ones come more often.
fn pick<T>(
    random: &mut Random,
    sloppy: usize,
    numbers: &Numbers<T>,
    fits: impl Fn(Ptr<T>) -> bool,
) -> u16 {
    let given = numbers.given();
    if given == 0 || random.chance(sloppy) {
        return if random.chance(3) {
            [511, 512, 0xFFFF][random.below(3)]
        } else {
            random.below(given + 1) as u16
        };
    }
    for _ in 0..16 {
        let from = if random.chance(40) {
            given.saturating_sub(8)
        } else {
            0
        };
        let number = random.between(from, given - 1) as u16;
        if numbers.at(number).is_ok_and(&fits) {
            return number;
        }
    }
    random.below(given) as u16
}
