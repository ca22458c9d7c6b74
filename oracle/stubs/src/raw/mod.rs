//! Stands for raw/mod.rs, which the published folder does not have: the modules under `las::raw`,
//! the two constants that published files import from it, and a window onto what is private to the
//! crate.

pub mod header;
pub mod point;
pub mod vlr;

pub use self::{header::Header, point::Point, vlr::Vlr};

/// The signature of a LAS file, as the comment on `Header::file_signature` gives it.
pub const LASF: [u8; 4] = *b"LASF";

/// Only `header::Builder::into_header` uses this, for version 1.0. Nothing that is compared goes
/// through it.
pub(crate) const POINT_DATA_START_SIGNATURE: [u8; 2] = [0xCC, 0xDD];

/// What the harness must see of the crate's private items. It has no behaviour of its own.
pub mod window {
    use super::point::{Layout, fields};
    use crate::point::Format;

    /// The record length that `Layout::for_format` adds up, which does not wrap as `Format::len`
    /// does.
    pub fn record_len(format: &Format) -> usize {
        Layout::for_format(format).record_len
    }

    /// Start and length of each field that `fields` lists, at its place in `Field`.
    pub fn field_spans(format: &Format) -> [Option<[usize; 2]>; 13] {
        let (mut spans, mut at) = ([None; 13], 0);
        for field in fields(format) {
            let size = field.size(format);
            spans[field as usize] = Some([at, size]);
            at += size;
        }
        spans
    }
}
