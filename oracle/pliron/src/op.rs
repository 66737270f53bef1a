//! Stand-in: operations by their kinds. A kind is a sum of 1 for a table, 2 for a symbol and 4 for a terminator, so there are eight
//! types of operation, and an operation is cast to an interface if its kind has the property.

use alloc::boxed::Box;
use core::any::TypeId;

use crate::{
    alloc,
    builtin::op_interfaces::{
        IsTerminatorInterface, OneRegionInterface, SingleBlockRegionInterface, SymbolOpInterface,
        SymbolTableInterface,
    },
    context::{Context, Ptr},
    location::Location,
    operation::Operation,
};

pub trait Op {
    fn get_operation(&self) -> Ptr<Operation>;
    fn loc(&self, ctx: &Context) -> Location {
        *self.get_operation().deref(ctx).loc()
    }
    fn as_table(&self) -> Option<&(dyn SymbolTableInterface + 'static)>;
    fn as_symbol(&self) -> Option<&(dyn SymbolOpInterface + 'static)>;
    fn as_terminator(&self) -> Option<&(dyn IsTerminatorInterface + 'static)>;
}

pub type OpObj = Box<dyn Op>;

/// How an operation's object is made from its handle, and its type.
pub type ConcreteOpInfo = (fn(Ptr<Operation>) -> OpObj, TypeId);

/// An operation of a kind.
pub struct OfKind<const KIND: u8>(Ptr<Operation>);

impl<const KIND: u8> Op for OfKind<KIND> {
    fn get_operation(&self) -> Ptr<Operation> {
        self.0
    }
    fn as_table(&self) -> Option<&(dyn SymbolTableInterface + 'static)> {
        if KIND & 1 != 0 { Some(self) } else { None }
    }
    fn as_symbol(&self) -> Option<&(dyn SymbolOpInterface + 'static)> {
        if KIND & 2 != 0 { Some(self) } else { None }
    }
    fn as_terminator(&self) -> Option<&(dyn IsTerminatorInterface + 'static)> {
        if KIND & 4 != 0 { Some(self) } else { None }
    }
}

impl<const KIND: u8> OneRegionInterface for OfKind<KIND> {}
impl<const KIND: u8> SingleBlockRegionInterface for OfKind<KIND> {}
impl<const KIND: u8> IsTerminatorInterface for OfKind<KIND> {}
impl<const KIND: u8> SymbolTableInterface for OfKind<KIND> {
    fn boxed_table(&self) -> Box<dyn SymbolTableInterface> {
        Box::new(OfKind::<KIND>(self.0))
    }
}
impl<const KIND: u8> SymbolOpInterface for OfKind<KIND> {
    fn boxed_symbol(&self) -> Box<dyn SymbolOpInterface> {
        Box::new(OfKind::<KIND>(self.0))
    }
}

/// The type of operation for a kind, from 0 to 7.
pub fn concrete_op_info(kind: u8) -> ConcreteOpInfo {
    fn info<const KIND: u8>() -> ConcreteOpInfo {
        (
            |ptr| Box::new(OfKind::<KIND>(ptr)),
            TypeId::of::<OfKind<KIND>>(),
        )
    }
    [
        info::<0>, info::<1>, info::<2>, info::<3>, info::<4>, info::<5>, info::<6>, info::<7>,
    ][usize::from(kind)]()
}

/// An interface that an operation may be cast to.
pub trait Interface {
    fn of(op: &dyn Op) -> Option<&Self>;
}

impl Interface for dyn SymbolTableInterface {
    fn of(op: &dyn Op) -> Option<&Self> {
        op.as_table()
    }
}
impl Interface for dyn SymbolOpInterface {
    fn of(op: &dyn Op) -> Option<&Self> {
        op.as_symbol()
    }
}
impl Interface for dyn IsTerminatorInterface {
    fn of(op: &dyn Op) -> Option<&Self> {
        op.as_terminator()
    }
}

pub fn op_cast<T: ?Sized + Interface>(op: &dyn Op) -> Option<&T> {
    T::of(op)
}

pub fn op_impls<T: ?Sized + Interface>(op: &dyn Op) -> bool {
    T::of(op).is_some()
}
