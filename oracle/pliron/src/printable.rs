//! Stand-in: printing, for messages alone.

use crate::context::Context;

pub trait Printable {
    fn disp(&self, ctx: &Context) -> impl core::fmt::Display;
}

#[macro_export]
macro_rules! impl_printable_for_display {
    ($name:ty) => {
        impl $crate::printable::Printable for $name {
            fn disp(&self, _ctx: &$crate::context::Context) -> impl core::fmt::Display {
                self
            }
        }
    };
}
