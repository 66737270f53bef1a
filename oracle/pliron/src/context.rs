//! Stand-in: the store of nodes and the handles into it, with the places and versions of docs/RULES.md.

use core::{
    cell::{Ref, RefCell, RefMut},
    hash::{Hash, Hasher},
    marker::PhantomData,
};

use alloc::{format, string::String, vec::Vec};

use crate::{alloc, basic_block::BasicBlock, operation::Operation, region::Region};

use private::ArenaObj;

/// The store of nodes.
#[derive(Default)]
pub struct Context {
    pub(crate) operations: Arena<Operation>,
    pub(crate) basic_blocks: Arena<BasicBlock>,
    pub(crate) regions: Arena<Region>,
}

impl Context {
    pub fn new() -> Self {
        Self::default()
    }
    /// How many operations, blocks and regions are live.
    pub fn live(&self) -> [usize; 3] {
        [
            self.operations.live,
            self.basic_blocks.live,
            self.regions.live,
        ]
    }
}

/// A place: its version, and its record while it is live.
struct Slot<T> {
    version: u32,
    record: Option<RefCell<T>>,
}

/// The places of one kind of node.
pub struct Arena<T> {
    slots: Vec<Slot<T>>,
    free: Vec<u32>,
    live: usize,
}

impl<T> Default for Arena<T> {
    fn default() -> Self {
        Arena {
            slots: Vec::new(),
            free: Vec::new(),
            live: 0,
        }
    }
}

impl<T> Arena<T> {
    fn record(&self, place: u32, version: u32) -> Option<&RefCell<T>> {
        let slot = self.slots.get(place as usize)?;
        slot.record.as_ref().filter(|_| slot.version == version)
    }

    /// Takes the place that was freed last, or else the lowest never used.
    fn insert(&mut self, f: impl FnOnce(Ptr<T>) -> T) -> Ptr<T> {
        let place = self.free.pop().unwrap_or_else(|| {
            self.slots.push(Slot {
                version: 1,
                record: None,
            });
            (self.slots.len() - 1) as u32
        });
        let slot = &mut self.slots[place as usize];
        let ptr = Ptr {
            place,
            version: slot.version,
            _dummy: PhantomData,
        };
        slot.record = Some(RefCell::new(f(ptr)));
        self.live += 1;
        ptr
    }

    /// Frees a place and raises its version; a place freed at the last version stays out of use.
    fn remove(&mut self, ptr: Ptr<T>) {
        self.record(ptr.place, ptr.version)
            .expect("freeing a handle that is dead");
        let slot = &mut self.slots[ptr.place as usize];
        slot.record = None;
        self.live -= 1;
        if slot.version < u32::MAX {
            slot.version += 1;
            self.free.push(ptr.place);
        }
    }
}

pub(crate) mod private {
    use super::{Arena, Context, Ptr};

    /// What has records in an [Arena].
    pub trait ArenaObj: Sized {
        fn get_arena(ctx: &Context) -> &Arena<Self>;
        fn get_arena_mut(ctx: &mut Context) -> &mut Arena<Self>;
        fn get_self_ptr(&self, ctx: &Context) -> Ptr<Self>;
        /// Frees what the record of a handle contains.
        fn dealloc_sub_objects(ptr: Ptr<Self>, ctx: &mut Context);
        fn alloc<F: FnOnce(Ptr<Self>) -> Self>(ctx: &mut Context, f: F) -> Ptr<Self> {
            Self::get_arena_mut(ctx).insert(f)
        }
        /// Frees a record after all that it contains.
        fn dealloc(ptr: Ptr<Self>, ctx: &mut Context) {
            Self::dealloc_sub_objects(ptr, ctx);
            Self::get_arena_mut(ctx).remove(ptr);
        }
    }
}

/// A handle: a place and a version.
pub struct Ptr<T> {
    place: u32,
    version: u32,
    _dummy: PhantomData<fn() -> T>,
}

impl<T> Clone for Ptr<T> {
    fn clone(&self) -> Self {
        *self
    }
}
impl<T> Copy for Ptr<T> {}
impl<T> PartialEq for Ptr<T> {
    fn eq(&self, other: &Self) -> bool {
        self.place == other.place && self.version == other.version
    }
}
impl<T> Eq for Ptr<T> {}
impl<T> Hash for Ptr<T> {
    fn hash<H: Hasher>(&self, state: &mut H) {
        state.write_u64(u64::from(self.place) << 32 | u64::from(self.version));
    }
}

impl<T> Ptr<T> {
    pub fn place(&self) -> usize {
        self.place as usize
    }
    pub fn version(&self) -> u32 {
        self.version
    }
    pub(crate) fn make_name(&self, base: &str) -> String {
        format!("{base}_{}v{}", self.place, self.version)
    }
}

impl<T: ArenaObj> Ptr<T> {
    pub fn is_live(&self, ctx: &Context) -> bool {
        T::get_arena(ctx).record(self.place, self.version).is_some()
    }
    pub fn deref<'a>(&self, ctx: &'a Context) -> Ref<'a, T> {
        T::get_arena(ctx)
            .record(self.place, self.version)
            .expect("a handle that is dead")
            .borrow()
    }
    pub fn deref_mut<'a>(&self, ctx: &'a Context) -> RefMut<'a, T> {
        T::get_arena(ctx)
            .record(self.place, self.version)
            .expect("a handle that is dead")
            .borrow_mut()
    }
}
