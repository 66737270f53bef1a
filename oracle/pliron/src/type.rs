//! Stand-in: types of values, of which there are none here.

#[derive(Clone, Copy)]
pub enum TypeHandle {}
