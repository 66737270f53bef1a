pub mod table;
pub mod vec_exns;
