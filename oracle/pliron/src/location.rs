//! Stand-in: places in a text that is compiled. All are unknown here.

#[derive(Clone, Copy, Debug)]
pub enum Location {
    Unknown,
}

impl From<&Location> for Location {
    fn from(value: &Location) -> Self {
        *value
    }
}

impl core::fmt::Display for Location {
    fn fmt(&self, f: &mut core::fmt::Formatter<'_>) -> core::fmt::Result {
        f.write_str("?")
    }
}

crate::impl_printable_for_display!(Location);
