pub mod inserter;
pub mod listener;
