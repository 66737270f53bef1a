//! A script's session: pliron's store, its symbol tables, and the numbers of the nodes.

use std::collections::HashSet;
use std::hash::BuildHasherDefault;

use pliron::basic_block::BasicBlock;
use pliron::builtin::op_interfaces::{SymbolOpInterface, SymbolTableInterface};
use pliron::context::{Context, Ptr};
use pliron::dyn_clone::clone_box;
use pliron::identifier::Identifier;
use pliron::linked_list::LinkedList;
use pliron::op::{op_cast, op_impls};
use pliron::operation::Operation;
use pliron::region::Region;
use pliron::symbol_table::SymbolTableCollection;
use pliron::utils::table::FxHasher;

use crate::field::number;
use crate::node::{Node, Numbers, Row, refuse_if};
use crate::quiet::unless_it_panics;

/// How a line closes.
#[derive(Clone, Copy, PartialEq, Eq)]
pub enum Close {
    Nothing,
    None,
    End,
    Break,
}

/// What the driver does beside calling pliron.
#[derive(Clone, Copy, PartialEq, Eq)]
pub enum Mode {
    /// It puts back what a refused insert left, and tests what pliron did.
    Tested,
    /// It puts it back and tests nothing.
    Quick,
    /// It leaves the mapping of a refused insert as pliron does, and goes on where rows 17 to 19 would refuse.
    AsPublished,
}

/// A store with the numbers of its nodes.
pub struct Session {
    pub(crate) ctx: Context,
    pub(crate) tables: SymbolTableCollection,
    pub ops: Numbers<Operation>,
    pub blocks: Numbers<BasicBlock>,
    pub regions: Numbers<Region>,
    pub(crate) names: HashSet<Identifier, BuildHasherDefault<FxHasher>>,
    /// The nodes that the last field made or showed, in order.
    pub(crate) shown: Vec<Node>,
    pub(crate) mode: Mode,
    /// How many refused inserts left pliron's own map with another answer.
    pub wrong_mappings: u64,
    /// How many calls of pliron panicked where the port refuses.
    pub panics: u64,
}

/// Where a node is linked.
pub(crate) enum Spot<T: LinkedList> {
    Front(Ptr<T::ContainerType>),
    Back(Ptr<T::ContainerType>),
    Before(Ptr<T>),
    After(Ptr<T>),
}

impl<T: LinkedList> Spot<T> {
    fn container(&self, ctx: &Context) -> Option<Ptr<T::ContainerType>> {
        match self {
            Spot::Front(container) | Spot::Back(container) => Some(*container),
            Spot::Before(mark) | Spot::After(mark) => mark.deref(ctx).get_container(),
        }
    }

    fn link(&self, node: Ptr<T>, ctx: &Context) {
        match self {
            Spot::Front(container) => node.insert_at_front(*container, ctx),
            Spot::Back(container) => node.insert_at_back(*container, ctx),
            Spot::Before(mark) => node.insert_before(ctx, *mark),
            Spot::After(mark) => node.insert_after(ctx, *mark),
        }
    }
}

impl Session {
    pub fn new(mode: Mode) -> Self {
        Session {
            ctx: Context::new(),
            tables: SymbolTableCollection::new(),
            ops: Numbers::default(),
            blocks: Numbers::default(),
            regions: Numbers::default(),
            names: HashSet::default(),
            shown: Vec::new(),
            mode,
            wrong_mappings: 0,
            panics: 0,
        }
    }

    /// Whether the driver tests what pliron did.
    pub(crate) fn is_tested(&self) -> bool {
        self.mode == Mode::Tested
    }

    pub fn ctx(&self) -> &Context {
        &self.ctx
    }

    /// Runs a field, if it is whole.
    pub fn run(&mut self, whole: Option<(u8, &[u8])>) -> Result<Close, Row> {
        self.shown.clear();
        let (tag, value) = whole.ok_or(Row(21))?;
        match tag {
            0x01 => self.make_operation(value)?,
            0x02 => self.make_block(value)?,
            0x03 => self.link_operation(value)?,
            0x04 => self.link_block(value)?,
            0x05 => self.unlink_operation(value)?,
            0x06 => self.unlink_block(value)?,
            0x07 => self.insert_symbol(value)?,
            0x08 => self.remove_symbol(value, false)?,
            0x09 => self.remove_symbol(value, true)?,
            0x0A => self.erase_operation(value)?,
            0x0B => self.erase_block(value)?,
            0x0C => return self.look_up(value, false),
            0x0D => return self.look_up(value, true),
            0x0E => return self.walk(value),
            0x0F => return self.walk_table(value),
            _ => return Err(Row(22)),
        }
        Ok(Close::Nothing)
    }

    /// Row 1 for a handle.
    pub(crate) fn live(&self, node: Node) -> Result<(), Row> {
        refuse_if(!node.is_live(&self.ctx), 1)
    }

    /// The table that a live operation is, else row 2.
    pub(crate) fn table(&self, op: Ptr<Operation>) -> Result<Box<dyn SymbolTableInterface>, Row> {
        let object = Operation::get_op_dyn(op, &self.ctx);
        op_cast::<dyn SymbolTableInterface>(object.as_ref())
            .map(clone_box)
            .ok_or(Row(2))
    }

    /// The symbol that a live operation is, else row 3.
    pub(crate) fn symbol(&self, op: Ptr<Operation>) -> Result<Box<dyn SymbolOpInterface>, Row> {
        let object = Operation::get_op_dyn(op, &self.ctx);
        op_cast::<dyn SymbolOpInterface>(object.as_ref())
            .map(clone_box)
            .ok_or(Row(3))
    }

    pub(crate) fn is_table(&self, op: Ptr<Operation>) -> bool {
        op_impls::<dyn SymbolTableInterface>(Operation::get_op_dyn(op, &self.ctx).as_ref())
    }

    pub(crate) fn is_symbol(&self, op: Ptr<Operation>) -> bool {
        op_impls::<dyn SymbolOpInterface>(Operation::get_op_dyn(op, &self.ctx).as_ref())
    }

    fn is_tables_region(&self, region: Option<Ptr<Region>>) -> bool {
        region.is_some_and(|region| self.is_table(region.deref(&self.ctx).get_parent_op()))
    }

    fn is_tables_body(&self, block: Option<Ptr<BasicBlock>>) -> bool {
        block.is_some_and(|block| self.is_tables_region(block.deref(&self.ctx).get_parent_region()))
    }

    /// Whether a symbol stands directly in a table's body.
    fn goes_through_table(&self, op: Ptr<Operation>) -> bool {
        self.is_symbol(op) && self.is_tables_body(op.deref(&self.ctx).get_parent_block())
    }

    /// A row that the port adds where pliron goes on.
    fn added(&self, row: u8, fits: impl FnOnce() -> bool) -> Result<(), Row> {
        refuse_if(self.mode != Mode::AsPublished && fits(), row)
    }

    /// Says a row that the port adds where pliron panics, and tests that it does.
    pub(crate) fn panics_as(&mut self, row: u8, call: impl FnOnce(&Context)) -> Result<(), Row> {
        if self.is_tested() {
            let answer = unless_it_panics(|| call(&self.ctx));
            assert!(answer.is_none(), "pliron does not panic for row {row}");
            self.panics += 1;
        }
        Err(Row(row))
    }

    fn link_operation(&mut self, value: &[u8]) -> Result<(), Row> {
        refuse_if(value.len() != 5 || value[0] > 3, 23)?;
        let op = self.ops.at(number(value, 1))?;
        let (spot, target) = match value[0] {
            how @ (0 | 1) => {
                let block = self.blocks.at(number(value, 3))?;
                (
                    if how == 0 {
                        Spot::Front(block)
                    } else {
                        Spot::Back(block)
                    },
                    Node::Block(block),
                )
            }
            how => {
                let mark = self.ops.at(number(value, 3))?;
                (
                    if how == 2 {
                        Spot::Before(mark)
                    } else {
                        Spot::After(mark)
                    },
                    Node::Operation(mark),
                )
            }
        };
        self.live(Node::Operation(op))?;
        self.live(target)?;
        let block = spot.container(&self.ctx);
        if op.is_linked(&self.ctx) {
            return self.panics_as(14, |ctx| spot.link(op, ctx));
        }
        if block.is_none() {
            return self.panics_as(15, |ctx| spot.link(op, ctx));
        }
        self.added(18, || target.lies_in(Node::Operation(op), &self.ctx))?;
        self.added(19, || self.is_symbol(op) && self.is_tables_body(block))?;
        spot.link(op, &self.ctx);
        Ok(())
    }

    fn link_block(&mut self, value: &[u8]) -> Result<(), Row> {
        refuse_if(value.len() != 5 || value[0] > 3, 23)?;
        let block = self.blocks.at(number(value, 1))?;
        let (spot, target) = match value[0] {
            how @ (0 | 1) => {
                let region = self.regions.at(number(value, 3))?;
                (
                    if how == 0 {
                        Spot::Front(region)
                    } else {
                        Spot::Back(region)
                    },
                    Node::Region(region),
                )
            }
            how => {
                let mark = self.blocks.at(number(value, 3))?;
                (
                    if how == 2 {
                        Spot::Before(mark)
                    } else {
                        Spot::After(mark)
                    },
                    Node::Block(mark),
                )
            }
        };
        self.live(Node::Block(block))?;
        self.live(target)?;
        let region = spot.container(&self.ctx);
        if block.is_linked(&self.ctx) {
            return self.panics_as(14, |ctx| spot.link(block, ctx));
        }
        if region.is_none() {
            return self.panics_as(15, |ctx| spot.link(block, ctx));
        }
        self.added(17, || self.is_tables_region(region))?;
        self.added(18, || target.lies_in(Node::Block(block), &self.ctx))?;
        spot.link(block, &self.ctx);
        Ok(())
    }

    fn unlink_operation(&mut self, value: &[u8]) -> Result<(), Row> {
        refuse_if(value.len() != 2, 23)?;
        let op = self.ops.at(number(value, 0))?;
        self.live(Node::Operation(op))?;
        if !op.is_linked(&self.ctx) {
            return self.panics_as(16, |ctx| op.unlink(ctx));
        }
        self.added(19, || self.goes_through_table(op))?;
        op.unlink(&self.ctx);
        Ok(())
    }

    fn unlink_block(&mut self, value: &[u8]) -> Result<(), Row> {
        refuse_if(value.len() != 2, 23)?;
        let block = self.blocks.at(number(value, 0))?;
        self.live(Node::Block(block))?;
        if !block.is_linked(&self.ctx) {
            return self.panics_as(16, |ctx| block.unlink(ctx));
        }
        let region = block.deref(&self.ctx).get_parent_region();
        self.added(17, || self.is_tables_region(region))?;
        block.unlink(&self.ctx);
        Ok(())
    }

    fn erase_operation(&mut self, value: &[u8]) -> Result<(), Row> {
        refuse_if(value.len() != 2, 23)?;
        let op = self.ops.at(number(value, 0))?;
        self.live(Node::Operation(op))?;
        self.added(19, || self.goes_through_table(op))?;
        self.erasing(Node::Operation(op), |session| {
            Operation::erase(op, &mut session.ctx)
        });
        Ok(())
    }

    fn erase_block(&mut self, value: &[u8]) -> Result<(), Row> {
        refuse_if(value.len() != 2, 23)?;
        let block = self.blocks.at(number(value, 0))?;
        self.live(Node::Block(block))?;
        let region = block.deref(&self.ctx).get_parent_region();
        self.added(17, || self.is_tables_region(region))?;
        self.erasing(Node::Block(block), |session| {
            BasicBlock::erase(block, &mut session.ctx)
        });
        Ok(())
    }

    /// Erases, and tests that just the node and all that lies below it ended.
    pub(crate) fn erasing(&mut self, root: Node, erase: impl FnOnce(&mut Self)) {
        if !self.is_tested() {
            return erase(self);
        }
        let below = self.all_below(root);
        let mut live = self.ctx.live();
        for node in &below {
            live[match node {
                Node::Operation(_) => 0,
                Node::Block(_) => 1,
                Node::Region(_) => 2,
            }] -= 1;
        }
        erase(self);
        assert!(
            below.iter().all(|node| !node.is_live(&self.ctx)),
            "a node below the erased one is live"
        );
        assert!(self.ctx.live() == live, "other nodes ended too");
    }
}
