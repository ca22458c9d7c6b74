//! Stands for reader.rs, which the published folder does not have. lib.rs exports the two names; no
//! published file uses more than the names.

use crate::PointData;

/// Named by lib.rs.
#[derive(Debug)]
pub struct Reader;

/// Named by lib.rs.
#[derive(Debug)]
pub struct ReaderOptions;

// The missing file is what calls this. Naming it here keeps the build free of a warning that nobody
// does.
const _: fn(&mut PointData) -> &mut Vec<u8> = PointData::take_bytes_mut;
