//! Stand-in for the crate dyn_clone: a copy of an interface's object in a box of its own.

use alloc::boxed::Box;

use crate::{
    alloc,
    builtin::op_interfaces::{SymbolOpInterface, SymbolTableInterface},
};

pub trait DynClone {
    fn boxed(&self) -> Box<Self>;
}

impl DynClone for dyn SymbolOpInterface {
    fn boxed(&self) -> Box<Self> {
        self.boxed_symbol()
    }
}

impl DynClone for dyn SymbolTableInterface {
    fn boxed(&self) -> Box<Self> {
        self.boxed_table()
    }
}

pub fn clone_box<T: ?Sized + DynClone>(object: &T) -> Box<T> {
    object.boxed()
}
