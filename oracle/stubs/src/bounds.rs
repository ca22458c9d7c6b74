//! Stands for bounds.rs, which the published folder does not have. `las::Header` needs the type and
//! its two calls to compile. Nothing that is compared calls them: they stop the program instead of
//! guessing what the missing file does.

use crate::{Point, Result, Transform, Vector, transform::RoundingMode};

/// The smallest and largest coordinates.
#[derive(Clone, Copy, Debug, Default, PartialEq)]
#[allow(missing_docs)]
pub struct Bounds {
    pub min: Vector<f64>,
    pub max: Vector<f64>,
}

impl Bounds {
    /// Not published.
    pub fn grow(&mut self, _: &Point) {
        unimplemented!("bounds.rs is not in the published folder")
    }

    /// Not published.
    pub fn adapt(&self, _: &Vector<Transform>) -> Result<Bounds> {
        unimplemented!("bounds.rs is not in the published folder")
    }
}

// The missing file is what rounds these two ways. Naming them here keeps the build free of a
// warning that nobody does.
const _: [RoundingMode; 2] = [RoundingMode::Floor, RoundingMode::Ceil];
