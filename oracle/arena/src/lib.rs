//! The port's arena on guarded tables beside document 01 and the original, calls at random, and damaged tables: what drives the program `arena`, and
//! what the programs `reading` and `edits` take from it.
pub mod beside;
pub mod boundary;
pub mod call;
pub mod check;
pub mod damage;
pub mod edit;
pub mod lent;
pub mod original;
pub mod run;
pub mod sequence;
pub mod tally;
