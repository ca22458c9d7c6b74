//! Stands for crs.rs, which the published folder does not have. lib.rs declares the module; no
//! published file uses it.
