//! Stands for vector.rs, which the published folder does not have. The fields are those that
//! published files name.

/// Three values, one for each axis.
#[derive(Clone, Copy, Debug, Default, PartialEq)]
#[allow(missing_docs)]
pub struct Vector<T> {
    pub x: T,
    pub y: T,
    pub z: T,
}
