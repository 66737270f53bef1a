//! Nodes, their parents by pliron's own links, and the numbers that a script gives them.

use pliron::basic_block::BasicBlock;
use pliron::context::{Context, Ptr};
use pliron::graph::walkers::IRNode;
use pliron::operation::Operation;
use pliron::region::Region;

/// The number of the row that refuses a field.
#[derive(Clone, Copy, PartialEq, Eq, Debug)]
pub struct Row(pub u8);

/// Refuses by a row that fits.
pub fn refuse_if(fits: bool, row: u8) -> Result<(), Row> {
    if fits { Err(Row(row)) } else { Ok(()) }
}

/// A node of any kind.
#[derive(Clone, Copy, PartialEq, Eq)]
pub enum Node {
    Operation(Ptr<Operation>),
    Block(Ptr<BasicBlock>),
    Region(Ptr<Region>),
}

impl From<&IRNode> for Node {
    fn from(node: &IRNode) -> Self {
        match node {
            IRNode::Operation(op) => Node::Operation(*op),
            IRNode::BasicBlock(block) => Node::Block(*block),
            IRNode::Region(region) => Node::Region(*region),
        }
    }
}

impl Node {
    pub fn is_live(&self, ctx: &Context) -> bool {
        match self {
            Node::Operation(op) => op.is_live(ctx),
            Node::Block(block) => block.is_live(ctx),
            Node::Region(region) => region.is_live(ctx),
        }
    }

    /// The node among whose children a live node stands.
    pub fn parent(&self, ctx: &Context) -> Option<Node> {
        match self {
            Node::Operation(op) => op.deref(ctx).get_parent_block().map(Node::Block),
            Node::Block(block) => block.deref(ctx).get_parent_region().map(Node::Region),
            Node::Region(region) => Some(Node::Operation(region.deref(ctx).get_parent_op())),
        }
    }

    /// Whether it is the other node, or stands in it at any depth.
    pub fn lies_in(&self, other: Node, ctx: &Context) -> bool {
        let mut at = Some(*self);
        while let Some(node) = at {
            if node == other {
                return true;
            }
            at = node.parent(ctx);
        }
        false
    }
}

/// The numbers given to nodes of one kind.
pub struct Numbers<T> {
    handles: Vec<Ptr<T>>,
    by_place: Vec<u16>,
}

/// The most numbers for nodes of one kind.
const MOST_NUMBERS: usize = 512;

impl<T> Default for Numbers<T> {
    fn default() -> Self {
        Numbers {
            handles: Vec::with_capacity(MOST_NUMBERS),
            by_place: Vec::with_capacity(MOST_NUMBERS),
        }
    }
}

impl<T> Numbers<T> {
    /// Gives the next number to a node that was made just now.
    pub fn give(&mut self, ptr: Ptr<T>) {
        if self.by_place.len() <= ptr.place() {
            self.by_place.resize(ptr.place() + 1, u16::MAX);
        }
        self.by_place[ptr.place()] = self.handles.len() as u16;
        self.handles.push(ptr);
    }

    /// The node with a number, else row 24.
    pub fn at(&self, number: u16) -> Result<Ptr<T>, Row> {
        self.handles
            .get(usize::from(number))
            .copied()
            .ok_or(Row(24))
    }

    /// The number of a node; that of a live one by its place, in one step.
    pub fn of(&self, ptr: Ptr<T>) -> u16 {
        let number = self.by_place[ptr.place()];
        if self.handles[usize::from(number)] == ptr {
            return number;
        }
        let dead = self.handles.iter().position(|handle| *handle == ptr);
        dead.expect("a node with a number") as u16
    }

    pub fn given(&self) -> usize {
        self.handles.len()
    }

    /// Whether so many more would be numbered past the last.
    pub fn lacks(&self, more: usize) -> bool {
        self.handles.len() + more > MOST_NUMBERS
    }
}
