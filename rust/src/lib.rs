//! LAS files, the format of lidar point clouds, checked, read, converted and rewritten by a library in which every function
//! is machine-proved. This crate is the library's face for Rust: it adds names, types and iterators, and no rules of its
//! own.
//!
//! A [`File`] is bytes that were found to be a LAS file by the standard's rules; [`Mapped`] has those of a file on the disk,
//! whatever its size. Everything that is asked of it then has an
//! answer: its [`Header`], its [`Part`]s, its [`Vlr`]s and its [`Point`]s. What cannot be answered is a [`Refusal`], with a
//! number and a sentence.
//!
//! ```
//! # fn made() -> Result<Vec<u8>, inscjarol::Refusal> {
//! #     let mut header = inscjarol::Header::new(inscjarol::Version { major: 1, minor: 2 })?;
//! #     header.number_of_point_records = 2;
//! #     header.x_scale_factor = 0.01;
//! #     let mut bytes = header.to_vec(&[])?;
//! #     for x in [150, 250] {
//! #         let point = inscjarol::Point { x, ..inscjarol::Point::default() };
//! #         bytes.extend(point.to_vec(inscjarol::Format::default())?);
//! #     }
//! #     Ok(bytes)
//! # }
//! # fn main() -> Result<(), inscjarol::Refusal> {
//! # let bytes = made()?;
//! // The bytes of a file, as std::fs::read gives them, or as `Mapped` shows them without reading.
//! let file = inscjarol::File::check(&bytes)?;
//! let header = file.header();
//! println!("LAS {}, point format {}", header.version, header.point_data_record_format);
//!
//! let mut highest = i32::MIN;
//! for point in file.points() {
//!     highest = highest.max(point.z);
//! }
//! println!("{} points, the highest at {}", file.points().len(), header.z(highest));
//!
//! for part in file.parts() {
//!     println!("{} {} {}", part.kind, part.start, part.len);
//! }
//!
//! // Written anew from what was read, the file has the same bytes.
//! assert_eq!(file.rewritten()?, bytes);
//! # Ok(())
//! # }
//! ```
//!
//! A run of point records is made old, or new, by [`Run`], which also says beforehand whether that can be; a file's points are
//! one ([`File::run`]):
//!
//! ```
//! use inscjarol::{Flags, Format, Point, Run, ScanAngle};
//!
//! # fn main() -> Result<(), inscjarol::Refusal> {
//! // Ground (class 2) flagged as overlap: the old formats say overlap by class 12 alone.
//! let point = Point {
//!     flags: Flags::ThreeByte(0x11, 0x08, 2),
//!     scan_angle: ScanAngle::Scaled(0),
//!     ..Point::default()
//! };
//! let records = point.to_vec(Format::new(6)?)?;
//! let run = Run { format: 6, extra_bytes: 0, count: 1, records: &records };
//! let refusal = run.ask_old().unwrap_err();
//! assert_eq!((refusal.number(), refusal.value(), refusal.record()), (19, 2, 1));
//! # Ok(())
//! # }
//! ```
//!
//! A viewer wants one field of many points, or their places or their colours, and takes [`columns`]: [`File::column`] fills a buffer
//! that is lent, and nothing else is read.
//!
//! What the extra bytes of the points hold, as a reflectance, is found by its name: [`File::attributes`], and the module [`attributes`].
//! A file that is accepted may be wrong all the same, in its counts, its texts and its points' return numbers: [`File::findings`] has each
//! place, with a sentence.
//!
//! A whole file of LAS 1.2 becomes one of LAS 1.4, for clients who move to newer software, by [`File::to_new`], and comes back by
//! [`File::to_old`].
//!
//! Which grid the points are in is said by coordinate keys: [`File::keys`], and the module [`keys`].
//! Many files come to one [`Sheet`]: their points by class and by return number, and the smallest and largest of their stored numbers.
//!
//! A scanner makes a file of LAS 1.2 by [`NewFile`], opens it as a [`Writer`], and appends sweep after sweep: an [`Append`] can be
//! cut short by a brownout anywhere, and repeated without harm. The class of a single point of any file is corrected in place by
//! [`Reclassify`], in memory or, by the same [`Writer`], on the disk.
//!
//! What is proved, and what is trusted, is in `docs/TRUST.md` of the repository: the rules, layouts and conversions are
//! proved; this crate, which turns the library's numbers into types, and `inscjarol-sys` under it, which declares the
//! library's calls by hand, are tested.

// But for the memory map.
#![deny(unsafe_code, unsafe_op_in_unsafe_fn)]
#![deny(missing_docs, rustdoc::broken_intra_doc_links)]
#![cfg_attr(
    not(test),
    deny(
        clippy::unwrap_used,
        clippy::expect_used,
        clippy::panic,
        clippy::unreachable,
        clippy::indexing_slicing
    )
)]

mod angle;
mod append;
pub mod attributes;
pub mod columns;
mod convert;
mod error;
mod file;
mod findings;
mod flags;
mod format;
mod header;
pub mod keys;
mod map;
mod new;
mod point;
mod reclassify;
mod refusal;
mod sheet;
mod sys;
mod text;
mod vlr;
mod writer;

pub use angle::ScanAngle;
pub use append::{Append, Appended, Offer, Sector, Step, Sweep};
pub use attributes::{Attribute, Attributes, DataType, Descriptor, Value};
pub use columns::{Column, Stretch};
pub use convert::Run;
pub use error::Error;
pub use file::{allowance_for, Checked, File, Part, PartKind, Parts, Points, Vlrs};
pub use findings::{Finding, Findings, Rule};
pub use flags::{Flags, ScanDirection};
pub use format::Format;
pub use header::{Bounds, Evlrs, Header, LargeFile, Version};
pub use keys::{Key, Keys};
pub use map::Mapped;
pub use new::NewFile;
pub use point::{Color, Point, Waveform};
pub use reclassify::{Change, Reclassify};
pub use refusal::{Kind, Refusal};
pub use sheet::{Sheet, StoredBounds};
pub use text::text;
pub use vlr::Vlr;
pub use writer::Writer;
