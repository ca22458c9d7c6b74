//! Puts the same questions to the published Rust and to the port, and counts where they differ.
//!
//! A module for each subject holds its calls and says over which inputs they are compared. A new
//! subject adds a module beside these, and a line to main.rs.

/// What could be wrong in a port, and the list of it all.
macro_rules! errors {
    ($($error:ident,)*) => {
        /// What could be wrong in a port.
        #[derive(Clone, Copy, Debug, PartialEq, Eq)]
        pub enum Error {
            $($error,)*
        }
        use Error::*;

        /// Every error that can be put in.
        pub const ERRORS: &[Error] = &[$($error,)*];
    };
}

pub mod angle;
pub mod answer;
pub mod append;
pub mod append_model;
pub mod append_wrong;
pub mod attribute;
pub mod attribute_files;
pub mod attribute_model;
pub mod attribute_wrong;
pub mod call;
pub mod capi;
pub mod column;
pub mod column_model;
pub mod column_wrong;
pub mod convert;
pub mod convert_model;
pub mod convert_plain;
pub mod convert_wrong;
pub mod file;
pub mod file_model;
pub mod file_wrong;
pub mod files;
pub mod findings;
pub mod findings_model;
pub mod findings_wrong;
pub mod flags;
pub mod format;
pub mod header;
pub mod keys;
pub mod keys_files;
pub mod keys_model;
pub mod keys_wrong;
pub mod listings;
pub mod migrate;
pub mod migrate_model;
pub mod migrate_wrong;
pub mod nir;
pub mod nir_wrong;
pub mod point;
pub mod reclassify;
pub mod reclassify_model;
pub mod reclassify_wrong;
pub mod records;
pub mod replay;
pub mod replay_append;
pub mod replay_attribute;
pub mod replay_column;
pub mod replay_findings;
pub mod replay_frame;
pub mod replay_keys;
pub mod replay_migrate;
pub mod replay_reclassify;
pub mod replay_records;
pub mod replay_sheet;
pub mod report;
pub mod sheet;
pub mod sheet_model;
pub mod sheet_wrong;
pub mod sparse;
pub mod strict;
pub mod vlr;
