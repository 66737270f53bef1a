//! Walks, by pliron's own walkers.

use pliron::context::{Context, Ptr};
use pliron::graph::walkers::interruptible::{
    self, WalkResult, walk_advance, walk_break, walk_skip,
};
use pliron::graph::walkers::{
    Direction, IRNode, Order, WALKCONFIG_POSTORDER_FORWARD, WalkConfig, uninterruptible,
};
use pliron::operation::Operation;
use pliron::symbol_table::walk_symbol_table;

use crate::field::number;
use crate::node::{Node, Row, refuse_if};
use crate::session::{Close, Session};

/// The code of a kind of node that means no node.
const NO_NODE: u8 = 3;

/// The nodes shown, and those that are answered Skip and Break.
struct Trail {
    shown: Vec<Node>,
    skip: Option<Node>,
    broken: Option<Node>,
}

/// Notes a node and answers it; Break wins.
fn visit(trail: &mut Trail, node: IRNode) -> WalkResult<()> {
    let node = Node::from(&node);
    trail.shown.push(node);
    if trail.broken == Some(node) {
        walk_break(())
    } else if trail.skip == Some(node) {
        walk_skip()
    } else {
        walk_advance()
    }
}

/// The configuration that a byte means.
fn configuration(byte: u8) -> WalkConfig {
    let pair = |bits: u8| {
        let order = if bits & 1 == 0 {
            Order::PreOrder
        } else {
            Order::PostOrder
        };
        (
            order,
            if bits & 2 == 0 {
                Direction::Forward
            } else {
                Direction::Reverse
            },
        )
    };
    WalkConfig {
        regions_in_op: pair(byte),
        ops_in_block: pair(byte >> 2),
        blocks_in_region: pair(byte >> 4),
    }
}

impl Session {
    /// The node with a kind and a number.
    fn node(&self, kind: u8, number: u16) -> Result<Node, Row> {
        Ok(match kind {
            0 => Node::Operation(self.ops.at(number)?),
            1 => Node::Block(self.blocks.at(number)?),
            _ => Node::Region(self.regions.at(number)?),
        })
    }

    pub(crate) fn walk(&mut self, value: &[u8]) -> Result<Close, Row> {
        refuse_if(
            value.len() != 10
                || value[0] > 2
                || value[3] > 0x3F
                || value[4] > NO_NODE
                || value[7] > NO_NODE,
            23,
        )?;
        let root = self.node(value[0], number(value, 1))?;
        let answered = |at: usize| match value[at] {
            NO_NODE => Ok(None),
            kind => self.node(kind, number(value, at + 1)).map(Some),
        };
        let (skip, broken) = (answered(4)?, answered(7)?);
        self.live(root)?;
        let mut trail = Trail {
            shown: std::mem::take(&mut self.shown),
            skip,
            broken,
        };
        let config = configuration(value[3]);
        let answer = walk_from(&self.ctx, &mut trail, &config, root);
        if self.is_tested() {
            self.walk_otherwise(&trail, &config, root, answer.is_break());
        }
        self.shown = trail.shown;
        Ok(if answer.is_break() {
            Close::Break
        } else {
            Close::End
        })
    }

    /// Tests that pliron's other walkers show the same nodes: those that may write, and those that go on whatever is answered.
    fn walk_otherwise(&mut self, trail: &Trail, config: &WalkConfig, root: Node, was_broken: bool) {
        let mut again = Trail {
            shown: Vec::new(),
            ..*trail
        };
        let answer = walk_mutably_from(&mut self.ctx, &mut again, config, root);
        assert!(
            again.shown == trail.shown && answer.is_break() == was_broken,
            "a writing walk differs"
        );
        if trail.skip.is_none() && trail.broken.is_none() {
            let mut all = Vec::new();
            walk_whole_from(&self.ctx, &mut all, config, root);
            assert!(all == trail.shown, "a walk without answers differs");
            all.clear();
            walk_whole_mutably_from(&mut self.ctx, &mut all, config, root);
            assert!(all == trail.shown, "a writing walk without answers differs");
        }
    }

    /// The node and all that lies below it.
    pub(crate) fn all_below(&self, root: Node) -> Vec<Node> {
        let mut all = Vec::new();
        walk_whole_from(&self.ctx, &mut all, &WALKCONFIG_POSTORDER_FORWARD, root);
        all
    }

    pub(crate) fn walk_table(&mut self, value: &[u8]) -> Result<Close, Row> {
        refuse_if(value.len() != 2, 23)?;
        let op = self.ops.at(number(value, 0))?;
        self.live(Node::Operation(op))?;
        let table = self.table(op)?;
        fn note(_ctx: &Context, shown: &mut Vec<Node>, op: Ptr<Operation>) -> WalkResult<()> {
            shown.push(Node::Operation(op));
            walk_advance()
        }
        walk_symbol_table(table, &self.ctx, &mut self.shown, note);
        Ok(Close::End)
    }
}

fn walk_from(ctx: &Context, trail: &mut Trail, config: &WalkConfig, root: Node) -> WalkResult<()> {
    use interruptible::immutable::{walk_block, walk_op, walk_region};
    let callback = |_: &Context, trail: &mut Trail, node: IRNode| visit(trail, node);
    match root {
        Node::Operation(op) => walk_op(ctx, trail, config, op, callback),
        Node::Block(block) => walk_block(ctx, trail, config, block, callback),
        Node::Region(region) => walk_region(ctx, trail, config, region, callback),
    }
}

fn walk_mutably_from(
    ctx: &mut Context,
    trail: &mut Trail,
    config: &WalkConfig,
    root: Node,
) -> WalkResult<()> {
    use interruptible::mutable::{walk_block, walk_op, walk_region};
    let callback = |_: &mut Context, trail: &mut Trail, node: IRNode| visit(trail, node);
    match root {
        Node::Operation(op) => walk_op(ctx, trail, config, op, callback),
        Node::Block(block) => walk_block(ctx, trail, config, block, callback),
        Node::Region(region) => walk_region(ctx, trail, config, region, callback),
    }
}

fn walk_whole_from(ctx: &Context, all: &mut Vec<Node>, config: &WalkConfig, root: Node) {
    use uninterruptible::immutable::{walk_block, walk_op, walk_region};
    let callback = |_: &Context, all: &mut Vec<Node>, node: IRNode| all.push(Node::from(&node));
    match root {
        Node::Operation(op) => walk_op(ctx, all, config, op, callback),
        Node::Block(block) => walk_block(ctx, all, config, block, callback),
        Node::Region(region) => walk_region(ctx, all, config, region, callback),
    }
}

fn walk_whole_mutably_from(
    ctx: &mut Context,
    all: &mut Vec<Node>,
    config: &WalkConfig,
    root: Node,
) {
    use uninterruptible::mutable::{walk_block, walk_op, walk_region};
    let callback = |_: &mut Context, all: &mut Vec<Node>, node: IRNode| all.push(Node::from(&node));
    match root {
        Node::Operation(op) => walk_op(ctx, all, config, op, callback),
        Node::Block(block) => walk_block(ctx, all, config, block, callback),
        Node::Region(region) => walk_region(ctx, all, config, region, callback),
    }
}
