//! The port: what its static library exports, as the crate `inscjarol-sys` in rust/sys declares it.

use crate::answer::Answer;

pub use inscjarol_sys::*;

/// Lends a row to a call and gives back what it holds then. The row starts out with words that no
/// answer has, so a word left unwritten is a difference.
pub fn row(call: impl FnOnce(&mut Row)) -> Answer {
    let mut row = [u64::MAX; 3];
    call(&mut row);
    let [number, value, record] = row;
    Answer {
        number,
        value,
        record,
    }
}

/// The same for a start and a length.
pub fn span(call: impl FnOnce(&mut Span)) -> Span {
    let mut span = [u64::MAX; 2];
    call(&mut span);
    span
}
