//! The library held against other judges of the same tables: against the checker for what it answers, and against the
//! checker and a plain version of its own algorithm for how long it takes.

pub mod answers;
pub mod design;
pub mod plain;
pub mod rows;
