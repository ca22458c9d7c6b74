//! What is timed, and the clock, for the programs `bench` and `columns`.

pub mod append;
pub mod by_hand;
pub mod large;
pub mod reclassify;
pub mod times;
pub mod whole;
pub mod work;
