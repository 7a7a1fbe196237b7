//! The Rust: label.rs, common.rs and pool.rs, which rust.sh puts beside this file unedited. The two names below reach what is private.
#![allow(dead_code, private_bounds, unused_imports)]

pub mod ndimage {
    pub mod common;
    pub mod label;
}
pub mod pool;

pub use ndimage::label::reach::{Cell, Number, label_core, label_impl};
pub use ndimage::label::reach_par_min::set_par_min;
pub use pool::reach::set_num_threads;
