//! Stand-in: names that are made up for messages.

use alloc::string::String;

use crate::{alloc, context::Context};

pub trait Named {
    fn unique_name(&self, ctx: &Context) -> String;
}
