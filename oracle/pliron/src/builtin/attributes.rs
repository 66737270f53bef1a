//! Stand-in: an attribute that is a text.

use alloc::string::String;

use crate::alloc;

pub struct StringAttr(String);

impl From<StringAttr> for String {
    fn from(value: StringAttr) -> Self {
        value.0
    }
}
