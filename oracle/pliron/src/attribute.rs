//! Stand-in: the one attribute that is left, a symbol's name.

use crate::identifier::Identifier;

/// A dictionary of attributes.
#[derive(Default)]
pub struct AttributeDict {
    pub(crate) symbol_name: Option<Identifier>,
}
