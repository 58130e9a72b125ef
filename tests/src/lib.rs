//! What the comparison programs and the benchmark share: the proved library behind safe calls,
//! random numbers, random plans and damaged files.

pub mod archive;
pub mod arguments;
pub mod damage;
pub mod lent;
pub mod plans;
pub mod random;
