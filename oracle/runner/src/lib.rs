//! Runs scripts over pliron's own code, writes scripts, and compares lines.

pub mod author;
pub mod books;
pub mod field;
pub mod hexadecimal;
pub mod limits;
pub mod line;
pub mod making;
pub mod node;
pub mod quiet;
pub mod random;
pub mod session;
pub mod show;
pub mod tables;
pub mod tally;
pub mod temperament;
pub mod torn;
pub mod walking;
