//! What the drivers share: random numbers, the kinds, random and drawn frames, runs by the plain rule, memory with edges, counts.

pub mod drawn;
pub mod frames;
pub mod kinds;
pub mod lent;
pub mod plain;
pub mod random;
pub mod tally;
