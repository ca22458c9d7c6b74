//! Stands for writer.rs, which the published folder does not have. lib.rs exports the two names; no
//! published file uses more than the names.

use crate::{Header, point::Format};

/// Named by lib.rs.
#[derive(Debug)]
pub struct Writer;

/// Named by lib.rs.
#[derive(Debug)]
pub struct WriterOptions;

// The missing file is what calls these. Naming them here keeps the build free of a warning that
// nobody does.
const _: fn(&mut Header) -> &mut Format = Header::point_format_mut;
const _: fn(&mut Header, u64) = Header::set_start_of_first_evlr;
