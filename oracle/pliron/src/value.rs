//! Stand-in: values and their uses, of which there are none here, so that the published erase code meets no operand, result,
//! argument or successor.

use alloc::{string::String, vec::Vec};
use core::marker::PhantomData;

use crate::{
    alloc,
    basic_block::BasicBlock,
    common_traits::Named,
    context::{Context, Ptr},
    operation::Operation,
    r#type::TypeHandle,
};

/// A value.
#[derive(Clone, Copy)]
pub enum Value {}

impl Value {
    pub fn is_used(&self, _ctx: &Context) -> bool {
        match *self {}
    }
}

impl Named for Value {
    fn unique_name(&self, _ctx: &Context) -> String {
        match *self {}
    }
}

/// A use of a definition by an operation.
pub struct Use<T> {
    pub(crate) user_op: Ptr<Operation>,
    pub(crate) _dummy: PhantomData<T>,
}

/// The uses of a definition: none.
pub struct DefNode<T>(PhantomData<T>);

impl<T> DefNode<T> {
    pub(crate) fn new() -> Self {
        DefNode(PhantomData)
    }
    pub(crate) fn is_used(&self) -> bool {
        false
    }
    pub(crate) fn uses(&self) -> impl Iterator<Item = Use<T>> + '_ {
        core::iter::empty()
    }
}

/// An operand of an operation: there is none.
pub(crate) struct Operand<T>(core::convert::Infallible, PhantomData<T>);

impl<T> Operand<T> {
    pub(crate) fn new(_ctx: &Context, _def: T, _user_op: Ptr<Operation>) -> Operand<T> {
        unreachable!("operands and successors stay outside")
    }
    pub(crate) fn drop_use(&self, _ctx: &Context, _op: Ptr<Operation>) {
        match self.0 {}
    }
}

/// A result of an operation: there is none.
pub(crate) struct OpResult {
    pub(crate) def: DefNode<Value>,
    ty: TypeHandle,
}

impl OpResult {
    pub(crate) fn new(_ctx: &Context, ty: TypeHandle) -> OpResult {
        OpResult {
            def: DefNode::new(),
            ty,
        }
    }
    pub(crate) fn as_value(&self, _op: Ptr<Operation>) -> Value {
        match self.ty {}
    }
}

/// An argument of a block: there is none.
pub(crate) struct BlockArgument {
    pub(crate) ty: TypeHandle,
}

impl BlockArgument {
    pub(crate) fn new(_ctx: &Context, ty: TypeHandle) -> Self {
        Self { ty }
    }
    pub(crate) fn as_value(&self, _block: Ptr<BasicBlock>) -> Value {
        match self.ty {}
    }
}

impl Ptr<BasicBlock> {
    /// Whether an operation names this block as where it goes on: none does.
    pub fn has_pred(&self, _ctx: &Context) -> bool {
        false
    }
    pub fn preds(&self, _ctx: &Context) -> Vec<Ptr<BasicBlock>> {
        Vec::new()
    }
}
