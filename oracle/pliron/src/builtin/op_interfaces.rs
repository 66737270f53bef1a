//! Stand-in: the interfaces that symbol tables ask for, as plain traits. The bodies of `get_body` and `get_region` are the published ones.

use alloc::boxed::Box;

use crate::{
    alloc,
    basic_block::BasicBlock,
    context::{Context, Ptr},
    identifier::Identifier,
    linked_list::ContainsLinkedList,
    op::Op,
    region::Region,
};

/// An [Op] implementing this interface is a block terminator.
pub trait IsTerminatorInterface: Op {}

pub trait OneRegionInterface: Op {
    // [published: builtin/op_interfaces.rs 947-950]
    /// Get the single region that this [Op] has.
    fn get_region(&self, ctx: &Context) -> Ptr<Region> {
        self.get_operation().deref(ctx).get_region(0)
    }
    // [end]
}

pub trait SingleBlockRegionInterface: Op {
    // [published: builtin/op_interfaces.rs 1006-1014]
    /// Get the single body block in `region_idx`.
    fn get_body(&self, ctx: &Context, region_idx: usize) -> Ptr<BasicBlock> {
        self.get_operation()
            .deref(ctx)
            .get_region(region_idx)
            .deref(ctx)
            .get_head()
            .expect("Expected SingleBlockRegion Op to contain a block")
    }
    // [end]
}

/// A symbol: an operation with a name.
pub trait SymbolOpInterface: Op {
    fn get_symbol_name(&self, ctx: &Context) -> Identifier {
        let operation = self.get_operation().deref(ctx);
        operation.attributes.symbol_name.clone().unwrap()
    }

    fn set_symbol_name(&self, ctx: &mut Context, name: Identifier) {
        self.get_operation().deref_mut(ctx).attributes.symbol_name = Some(name);
    }

    /// The same in a box of its own.
    fn boxed_symbol(&self) -> Box<dyn SymbolOpInterface>;
}

impl Clone for Box<dyn SymbolOpInterface> {
    fn clone(&self) -> Self {
        self.boxed_symbol()
    }
}

/// A table of symbols.
pub trait SymbolTableInterface: SingleBlockRegionInterface + OneRegionInterface {
    /// The same in a box of its own.
    fn boxed_table(&self) -> Box<dyn SymbolTableInterface>;
}

impl Clone for Box<dyn SymbolTableInterface> {
    fn clone(&self) -> Self {
        self.boxed_table()
    }
}
