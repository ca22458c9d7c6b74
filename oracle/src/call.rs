//! One exported function as a question that can be put to both sides.

use crate::{answer::Answer, report::Report};

/// The same question for the Rust and for the port, over the words that the port takes. `rust`
/// takes the words apart, asks las, and puts its answer into document 01's shape. A call with one
/// argument leaves `y` alone.
pub struct Call {
    pub name: &'static str,
    /// The number that stands for the call in the replay list, if it is asked there.
    pub op: Option<u32>,
    pub rust: fn(x: u32, y: u32) -> Answer,
    pub port: fn(x: u32, y: u32) -> Answer,
}

impl Call {
    /// Puts the question for every number below `size`, of which `input` makes the arguments.
    pub fn over(&self, size: u64, input: impl Fn(u64) -> (u32, u32) + Sync) -> Report {
        let (rust, port) = (self.rust, self.port);
        Report::over(self.name, size, |report, stretch| {
            for i in stretch {
                let (x, y) = input(i);
                let rust = rust(x, y);
                report.compare(rust, port(x, y), || format!("({x:#010x}, {y:#010x})"));
                report.by_rule(rust.by_rule());
            }
        })
    }

    /// Puts the question once, for a call that takes nothing.
    pub fn once(&self) -> Report {
        self.over(1, |_| (0, 0))
    }
}

/// Bits without pattern, the same in every run: for what a call must ignore, and for samples.
pub fn noise(i: u64) -> u32 {
    let mixed = (i ^ i >> 31).wrapping_mul(0x9E37_79B9_7F4A_7C15);
    ((mixed ^ mixed >> 29).wrapping_mul(0xBF58_476D_1CE4_E5B9) >> 32) as u32
}
