pub mod attributes;
pub mod op_interfaces;
