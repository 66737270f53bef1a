//! Symbol tables, by pliron's own. Its insert maps the name first, and leaves the new mapping where it then refuses or panics: the driver
//! puts the old one back by building the table from its body anew, and tests that each name held leads where it did before.

use pliron::builtin::op_interfaces::{SymbolOpInterface, SymbolTableInterface};
use pliron::context::Ptr;
use pliron::irbuild::inserter::OpInsertionPoint;
use pliron::linked_list::{ContainsLinkedList, LinkedList};
use pliron::operation::Operation;
use pliron::result::Error;
use pliron::symbol_table::{SymbolTable, SymbolTableErr};

use crate::field::number;
use crate::making::name_of;
use crate::node::{Node, Row, refuse_if};
use crate::quiet::unless_it_panics;
use crate::session::{Close, Mode, Session};

/// The row that an error of pliron is.
pub(crate) fn row_of(error: &Error) -> Row {
    if let Some(inner) = error.err.downcast_ref::<Error>() {
        return row_of(inner);
    }
    match error.err.downcast_ref::<SymbolTableErr>() {
        Some(SymbolTableErr::SymbolRedefined(_)) => Row(9),
        Some(SymbolTableErr::SymbolOpAlreadyInAnotherTable(_)) => Row(10),
        Some(SymbolTableErr::InsertionPointNotInSameTable) => Row(12),
        Some(SymbolTableErr::SymbolOpNotInTableOp) => Row(13),
        None if error.err.to_string().starts_with("Malformed identifier ") => Row(6),
        _ => panic!("an error of pliron that has no row: {error}"),
    }
}

/// What the driver compares before and after a refused insert: where each name held leads, the operations of the body, and the symbol's
/// links.
#[derive(PartialEq)]
struct Standing {
    names: Vec<Option<u16>>,
    body: Vec<u16>,
    links: [Option<u16>; 3],
}

impl Session {
    /// The point with a code, beside or in a node with a number.
    fn point(&self, code: u8, node: u16) -> Result<(Option<OpInsertionPoint>, Option<Node>), Row> {
        Ok(match code {
            0 => (None, None),
            1 => (Some(OpInsertionPoint::Unset), None),
            2 | 3 => {
                let block = self.blocks.at(node)?;
                let point = if code == 2 {
                    OpInsertionPoint::AtBlockStart
                } else {
                    OpInsertionPoint::AtBlockEnd
                };
                (Some(point(block)), Some(Node::Block(block)))
            }
            _ => {
                let mark = self.ops.at(node)?;
                let point = if code == 4 {
                    OpInsertionPoint::AfterOperation
                } else {
                    OpInsertionPoint::BeforeOperation
                };
                (Some(point(mark)), Some(Node::Operation(mark)))
            }
        })
    }

    pub(crate) fn insert_symbol(&mut self, value: &[u8]) -> Result<(), Row> {
        refuse_if(value.len() != 7 || value[4] > 5, 23)?;
        let op = self.ops.at(number(value, 0))?;
        let symbol_op = self.ops.at(number(value, 2))?;
        let (point, beside) = self.point(value[4], number(value, 5))?;
        self.live(Node::Operation(op))?;
        self.live(Node::Operation(symbol_op))?;
        beside.map_or(Ok(()), |node| self.live(node))?;
        let table = self.table(op)?;
        let symbol = self.symbol(symbol_op)?;
        let before = self
            .is_tested()
            .then(|| self.standing(table.as_ref(), symbol_op));
        let Some(before) = before else {
            return self.insert_by_pliron(table, symbol, point);
        };
        let answer = self.insert_by_pliron(table.clone(), symbol, point);
        if answer.is_err() {
            let after = self.standing(table.as_ref(), symbol_op);
            assert!(before == after, "a refused insert was not undone");
        }
        answer
    }

    /// Calls pliron, and says the upper row among its own and those that the port adds. It panics for rows 11 and 14, and links a symbol
    /// into itself for row 18, which is undone.
    fn insert_by_pliron(
        &mut self,
        table: Box<dyn SymbolTableInterface>,
        symbol: Box<dyn SymbolOpInterface>,
        point: Option<OpInsertionPoint>,
    ) -> Result<(), Row> {
        let op = symbol.get_operation();
        let invalid = point.is_some_and(|point| point.get_insertion_block(&self.ctx).is_none());
        let linked = op.is_linked(&self.ctx);
        let inside = self.mode != Mode::AsPublished
            && Node::Operation(table.get_operation()).lies_in(Node::Operation(op), &self.ctx);
        let before = self.mapping(&table, &symbol);
        let table_op = table.get_operation();
        let again = inside.then(|| symbol.clone());
        let ctx = &self.ctx;
        let mapped = self.tables.get_symbol_table(ctx, table);
        let answer = unless_it_panics(|| mapped.insert(ctx, symbol, point));
        let row = match answer {
            Some(Ok(())) => {
                if self.mode == Mode::AsPublished {
                    return Ok(());
                }
                assert!(!invalid && !linked, "an insert for row 11 or 14");
                let Some(symbol) = again else {
                    return Ok(());
                };
                mapped.remove(ctx, symbol).expect("taken out again");
                return Err(Row(18));
            }
            Some(Err(error)) => row_of(&error),
            None => {
                assert!(invalid || linked, "a panic for neither row 11 nor 14");
                self.panics += 1;
                Row(if invalid { 11 } else { 14 })
            }
        };
        if self.is_tested() && self.mapping(&self.table(table_op)?, &self.symbol(op)?) != before {
            self.wrong_mappings += 1;
        }
        if self.mode != Mode::AsPublished {
            self.put_mappings_back(self.table(table_op)?);
        }
        Err(row)
    }

    /// Builds a table from its body anew.
    fn put_mappings_back(&mut self, table: Box<dyn SymbolTableInterface>) {
        let rebuilt = SymbolTable::new(&self.ctx, table.clone());
        *self.tables.get_symbol_table(&self.ctx, table) = rebuilt;
    }

    /// Where a symbol's name leads in a table.
    fn mapping(
        &mut self,
        table: &Box<dyn SymbolTableInterface>,
        symbol: &Box<dyn SymbolOpInterface>,
    ) -> Option<Ptr<Operation>> {
        if !self.is_tested() {
            return None;
        }
        let name = symbol.get_symbol_name(&self.ctx);
        let found = self
            .tables
            .lookup_symbol_in_table(&self.ctx, table.clone(), &name);
        found.map(|symbol| symbol.get_operation())
    }

    /// What a refused insert may not change.
    fn standing(&mut self, table: &dyn SymbolTableInterface, op: Ptr<Operation>) -> Standing {
        let mapped = self.tables.get_symbol_table(&self.ctx, table.boxed_table());
        let found = |name| {
            mapped
                .lookup(name)
                .map(|symbol| self.ops.of(symbol.get_operation()))
        };
        let mut names: Vec<_> = self.names.iter().collect();
        names.sort();
        let node = op.deref(&self.ctx);
        Standing {
            names: names.into_iter().map(found).collect(),
            body: table
                .get_body(&self.ctx, 0)
                .deref(&self.ctx)
                .iter(&self.ctx)
                .map(|op| self.ops.of(op))
                .collect(),
            links: [
                node.get_prev().map(|op| self.ops.of(op)),
                node.get_next().map(|op| self.ops.of(op)),
                node.get_container().map(|block| self.blocks.of(block)),
            ],
        }
    }

    /// Removes a symbol from a table, and erases it too if told so.
    pub(crate) fn remove_symbol(&mut self, value: &[u8], erase: bool) -> Result<(), Row> {
        refuse_if(value.len() != 4, 23)?;
        let op = self.ops.at(number(value, 0))?;
        let symbol_op = self.ops.at(number(value, 2))?;
        self.live(Node::Operation(op))?;
        self.live(Node::Operation(symbol_op))?;
        let table = self.table(op)?;
        let symbol = self.symbol(symbol_op)?;
        if !erase {
            let mapped = self.tables.get_symbol_table(&self.ctx, table);
            return mapped
                .remove(&self.ctx, symbol)
                .map_err(|error| row_of(&error));
        }
        let inside = Node::Operation(symbol_op).lies_in(Node::Operation(op), &self.ctx);
        let mut answer = Ok(());
        let erase = |session: &mut Session| {
            let mapped = session.tables.get_symbol_table(&session.ctx, table);
            answer = mapped
                .erase(&mut session.ctx, symbol)
                .map_err(|error| row_of(&error));
        };
        // What is refused ends nothing, so only what stands in the table is tested to end.
        if inside && symbol_op.deref(&self.ctx).get_parent_op(&self.ctx) == Some(op) {
            self.erasing(Node::Operation(symbol_op), erase);
        } else {
            erase(self);
        }
        answer
    }

    /// Looks a name up in a table, or in the nearest one from an operation.
    pub(crate) fn look_up(&mut self, value: &[u8], nearest: bool) -> Result<Close, Row> {
        refuse_if(value.len() < 2, 23)?;
        let op = self.ops.at(number(value, 0))?;
        self.live(Node::Operation(op))?;
        let found = if nearest {
            let name = name_of(&value[2..])?;
            self.tables
                .lookup_symbol_in_nearest_table(&self.ctx, op, &name)
        } else {
            let table = self.table(op)?;
            let name = name_of(&value[2..])?;
            self.tables.lookup_symbol_in_table(&self.ctx, table, &name)
        };
        match found {
            Some(symbol) => {
                self.shown.push(Node::Operation(symbol.get_operation()));
                Ok(Close::Nothing)
            }
            None => Ok(Close::None),
        }
    }
}
