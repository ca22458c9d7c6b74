//! Stands for gps_time_type.rs, which the published folder does not have. `las::Header` and its
//! builder need the type to compile. Nothing that is compared calls these functions: they stop the
//! program instead of guessing what the missing file does.

/// How the GPS times of a file count.
#[derive(Clone, Copy, Debug, Default, PartialEq)]
#[allow(missing_docs)]
pub enum GpsTimeType {
    #[default]
    Week,
    Standard,
}

impl GpsTimeType {
    /// Not published.
    pub fn is_standard(&self) -> bool {
        unimplemented!("gps_time_type.rs is not in the published folder")
    }
}

impl From<u16> for GpsTimeType {
    fn from(_: u16) -> GpsTimeType {
        unimplemented!("gps_time_type.rs is not in the published folder")
    }
}

impl From<GpsTimeType> for u16 {
    fn from(_: GpsTimeType) -> u16 {
        unimplemented!("gps_time_type.rs is not in the published folder")
    }
}
