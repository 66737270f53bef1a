//! Stand-in: where an operation is inserted, and the inserter that does it, with the meaning of docs/RULES.md.

use core::marker::PhantomData;

use crate::{
    basic_block::BasicBlock,
    context::{Context, Ptr},
    operation::Operation,
};

/// A point among operations.
#[derive(Clone, Copy)]
pub enum OpInsertionPoint {
    Unset,
    AtBlockStart(Ptr<BasicBlock>),
    AtBlockEnd(Ptr<BasicBlock>),
    AfterOperation(Ptr<Operation>),
    BeforeOperation(Ptr<Operation>),
}

impl OpInsertionPoint {
    /// The block of the point, or none where it is Unset or beside an operation in no block.
    pub fn get_insertion_block(&self, ctx: &Context) -> Option<Ptr<BasicBlock>> {
        match self {
            Self::Unset => None,
            Self::AtBlockStart(block) | Self::AtBlockEnd(block) => Some(*block),
            Self::AfterOperation(op) | Self::BeforeOperation(op) => {
                op.deref(ctx).get_parent_block()
            }
        }
    }
}

pub trait Inserter {
    fn insert_operation(&mut self, ctx: &Context, operation: Ptr<Operation>);
}

pub struct IRInserter<L> {
    point: OpInsertionPoint,
    listener: PhantomData<L>,
}

impl<L> IRInserter<L> {
    pub fn new(point: OpInsertionPoint) -> Self {
        IRInserter {
            point,
            listener: PhantomData,
        }
    }
}

impl<L> Inserter for IRInserter<L> {
    fn insert_operation(&mut self, ctx: &Context, operation: Ptr<Operation>) {
        match self.point {
            OpInsertionPoint::Unset => panic!("an insertion point that is not set"),
            OpInsertionPoint::AtBlockStart(block) => operation.insert_at_front(block, ctx),
            OpInsertionPoint::AtBlockEnd(block) => operation.insert_at_back(block, ctx),
            OpInsertionPoint::AfterOperation(mark) => operation.insert_after(ctx, mark),
            OpInsertionPoint::BeforeOperation(mark) => operation.insert_before(ctx, mark),
        }
        self.point = OpInsertionPoint::AfterOperation(operation);
    }
}
