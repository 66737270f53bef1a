//! Making operations and blocks.

use pliron::basic_block::BasicBlock;
use pliron::identifier::Identifier;
use pliron::op::concrete_op_info;
use pliron::operation::Operation;

use crate::node::{Node, Row, refuse_if};
use crate::session::Session;
use crate::tables::row_of;

/// The most bytes of a name.
const MOST_NAME: usize = 32;

/// The most names held.
const MOST_NAMES: usize = 256;

/// The most operations, blocks and regions live at once.
const MOST_LIVE: [usize; 3] = [512, 256, 256];

/// The name that some bytes are, by rows 5 and 6; the latter is pliron's own answer. Bytes that are no text stand for a text
/// with a character that is not ASCII.
pub(crate) fn name_of(bytes: &[u8]) -> Result<Identifier, Row> {
    refuse_if(bytes.len() > MOST_NAME, 5)?;
    Identifier::try_new(String::from_utf8_lossy(bytes).into_owned()).map_err(|error| row_of(&error))
}

impl Session {
    pub(crate) fn make_operation(&mut self, value: &[u8]) -> Result<(), Row> {
        let [kind, regions, bytes @ ..] = value else {
            return Err(Row(23));
        };
        let (is_table, is_symbol) = (kind & 1 != 0, kind & 2 != 0);
        let right = *kind <= 7
            && *regions <= 4
            && (!is_table || *regions == 1)
            && is_symbol != bytes.is_empty();
        let wanted = [1, usize::from(is_table), usize::from(*regions)];
        let numbered =
            self.ops.lacks(1) || self.blocks.lacks(wanted[1]) || self.regions.lacks(wanted[2]);
        refuse_if(right && numbered, 25)?;
        refuse_if(!right, 4)?;
        let name = if is_symbol {
            Some(name_of(bytes)?)
        } else {
            None
        };
        let is_new = name.as_ref().is_some_and(|name| !self.names.contains(name));
        refuse_if(is_new && self.names.len() == MOST_NAMES, 7)?;
        self.refuse_if_full(wanted)?;
        self.give_operation(*kind, usize::from(*regions), name)
    }

    /// Makes an operation with its regions and its body, with numbers.
    fn give_operation(
        &mut self,
        kind: u8,
        regions: usize,
        name: Option<Identifier>,
    ) -> Result<(), Row> {
        let info = concrete_op_info(kind);
        let op = Operation::new(&mut self.ctx, info, vec![], vec![], vec![], regions);
        if let Some(name) = name {
            let symbol = self.symbol(op)?;
            symbol.set_symbol_name(&mut self.ctx, name.clone());
            self.names.insert(name);
        }
        self.ops.give(op);
        self.shown.push(Node::Operation(op));
        let regions: Vec<_> = op.deref(&self.ctx).regions().collect();
        for region in &regions {
            self.regions.give(*region);
            self.shown.push(Node::Region(*region));
        }
        if self.is_table(op) {
            let body = self.give_block();
            body.insert_at_back(regions[0], &self.ctx);
        }
        Ok(())
    }

    pub(crate) fn make_block(&mut self, value: &[u8]) -> Result<(), Row> {
        refuse_if(!value.is_empty(), 23)?;
        refuse_if(self.blocks.lacks(1), 25)?;
        self.refuse_if_full([0, 1, 0])?;
        self.give_block();
        Ok(())
    }

    /// Makes a block with a number.
    fn give_block(&mut self) -> pliron::context::Ptr<BasicBlock> {
        let block = BasicBlock::new(&mut self.ctx, None, vec![]);
        self.blocks.give(block);
        self.shown.push(Node::Block(block));
        block
    }

    /// Row 8 for so many operations, blocks and regions.
    fn refuse_if_full(&self, wanted: [usize; 3]) -> Result<(), Row> {
        let live = self.ctx.live();
        refuse_if(
            (0..3).any(|kind| live[kind] + wanted[kind] > MOST_LIVE[kind]),
            8,
        )
    }
}
