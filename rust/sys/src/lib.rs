//! The calls of the proved library, each declared once and made safe: a function here has the name, the arguments and the
//! rows of the one in `include/inscjarol.h`, but that it takes a slice where C takes a pointer and a length, and a header's
//! or a VLR's numbers and texts as one. The crate `inscjarol` makes types and results of them, and the harnesses of the
//! repository compare and time them; neither hands them on.
//!
//! These declarations repeat the library's source by hand; `rust/tests/declarations.rs` holds them against it. Every call is
//! total and proved so: for all numbers and all bytes that it is lent it ends, reads and writes nothing outside of them, and
//! writes its row whole. So all that Rust has to see to is that what it lends is there: references are, and a slice's
//! pointer goes with the slice's own length. A bool that comes back is declared as the byte that carries it.

#![deny(missing_docs)]

/// Number, value and record number; number 0 says that it worked.
pub type Row = [u64; 3];

/// A point, as the library lists it.
pub type PointNumbers = [u64; 24];

/// A cursor over the parts of a file, as the library keeps it.
pub type Cursor = [u64; 10];

/// A walker's place: the format's word, where the next record is, how many are left, the count, and number, value and
/// record number where the file was refused.
pub type Place = [u64; 7];

/// Where some of the lent bytes start, and how many there are.
pub type Span = [u64; 2];

/// Records that are to be added to a file: where they go, their bytes, and the header's counts with them, of all points and of
/// returns 1 to 5.
pub type Sweep = [u64; 8];

/// The bits of max x, min x, max y, min y, max z and min z.
pub type BoundsNumbers = [u64; 6];

/// An attribute: its data type, the bytes of a value, where the first point's value is, the bytes from one point's value to the next
/// one's, and the count of points.
pub type AttributeNumbers = [u64; 5];

/// A place among the attributes of a file: where the next descriptor is, how many are left, where the first point's next value is, the
/// bytes from one point's value to the next one's, and the count of points.
pub type AttributesPlace = [u64; 5];
/// A site sheet, as the library keeps it: files, points, whether it has bounds and the six of them, the points of each class, and those of
/// each return number.
pub type SheetNumbers = [u64; 281];

/// A header, as the library lists it: its numbers and its texts.
#[derive(Clone, Copy, Debug, PartialEq, Eq)]
pub struct HeaderNumbers {
    /// The 51 numbers.
    pub numbers: [u64; 51],
    /// The GUID's bytes.
    pub guid: [u8; 16],
    /// The system identifier.
    pub system_identifier: [u8; 32],
    /// The generating software.
    pub generating_software: [u8; 32],
}

/// The head of a VLR or EVLR, as the library lists it.
#[derive(Clone, Copy, Debug, PartialEq, Eq)]
pub struct VlrHead {
    /// The reserved number, the record id and the stated length.
    pub numbers: [u64; 3],
    /// The user id.
    pub user_id: [u8; 16],
    /// The description.
    pub description: [u8; 32],
}

/// A descriptor of extra bytes, as the library lists it.
#[derive(Clone, Copy, Debug, PartialEq, Eq, Hash)]
pub struct DescriptorNumbers {
    /// The reserved number, the data type, the options, the unused number, and the bits of no data, min, max, scale and offset.
    pub numbers: [u64; 9],
    /// The name.
    pub name: [u8; 32],
    /// The five fields of 16 bytes that are deprecated.
    pub deprecated: [u8; 80],
    /// The description.
    pub description: [u8; 32],
}

/// Declares calls that take numbers and references, and makes them safe.
macro_rules! total {
    ($($(#[$says:meta])* fn $name:ident($($lent:ident: $of:ty),*) $(-> $answer:ty)?;)*) => {
        mod total {
            use super::{PointNumbers, Row, Sweep};

            extern "C" {
                $(pub(super) fn $name($($lent: $of),*) $(-> $answer)?;)*
            }
        }

        $(
            $(#[$says])*
            #[inline]
            pub fn $name($($lent: $of),*) $(-> $answer)? {
                // SAFETY: a total call, whose only pointers are references.
                unsafe { total::$name($($lent),*) }
            }
        )*
    };
}

total! {
    /// The format with a code.
    fn las_format_new(code: u8, row: &mut Row);
    /// The format made extended.
    fn las_format_extend(format: u32) -> u32;
    /// The bytes of a record.
    fn las_format_len(format: u32, row: &mut Row);
    /// The format's code.
    fn las_format_to_u8(format: u32, row: &mut Row);
    /// The default format.
    fn las_format_default() -> u32;
    /// Start and length of each of the thirteen fields of a record.
    fn las_layout(format: u32, numbers: &mut [u64; 26]);

    /// Two-byte flags.
    fn las_flags_two_bytes(a: u8, b: u8) -> u32;
    /// Three-byte flags.
    fn las_flags_three_bytes(a: u8, b: u8, c: u8) -> u32;
    /// The return number.
    fn las_flags_return_number(flags: u32) -> u8;
    /// The number of returns.
    fn las_flags_number_of_returns(flags: u32) -> u8;
    /// 1 from left to right.
    fn las_flags_scan_direction(flags: u32) -> u8;
    /// Whether the point is synthetic.
    fn las_flags_is_synthetic(flags: u32) -> u8;
    /// Whether the point is a key point.
    fn las_flags_is_key_point(flags: u32) -> u8;
    /// Whether the point is withheld.
    fn las_flags_is_withheld(flags: u32) -> u8;
    /// Whether the point is overlap.
    fn las_flags_is_overlap(flags: u32) -> u8;
    /// The scanner channel.
    fn las_flags_scanner_channel(flags: u32) -> u8;
    /// Whether the point is at the edge of a flight line.
    fn las_flags_is_edge_of_flight_line(flags: u32) -> u8;
    /// The class.
    fn las_flags_class(flags: u32) -> u8;
    /// The flags as two bytes.
    fn las_flags_to_two_bytes(flags: u32, row: &mut Row);
    /// The flags as three bytes.
    fn las_flags_to_three_bytes(flags: u32) -> u32;
    /// The flags with class 1 for class 12.
    fn las_flags_clear_overlap_class(flags: u32) -> u32;
    /// Whether the Rust crate las has them equal.
    fn las_flags_eq(flags: u32, other: u32) -> u8;
    /// The default flags.
    fn las_flags_default() -> u32;

    /// The angle of a rank.
    fn las_angle_rank(rank: i8) -> u32;
    /// The angle of a scaled number.
    fn las_angle_scaled(scaled: i16) -> u32;
    /// The nearest whole degree of a scaled number.
    fn las_angle_nearest_rank(scaled: i16) -> i16;
    /// The angle as a rank.
    fn las_angle_to_rank(angle: u32) -> i8;
    /// The angle as a scaled number.
    fn las_angle_to_scaled(angle: u32) -> i16;
    /// The angle in degrees.
    fn las_angle_to_degrees(angle: u32) -> f32;
    /// The scaled angle of degrees.
    fn las_angle_from_degrees(degrees: f32) -> u32;
    /// Whether the Rust crate las has them equal.
    fn las_angle_eq(angle: u32, other: u32) -> u8;
    /// The default angle.
    fn las_angle_default() -> u32;

    /// The default point.
    fn las_point_default(numbers: &mut PointNumbers);
    /// Whether the point goes into an old format with every field the same, or the first that does not.
    fn las_strict_check(numbers: &PointNumbers, row: &mut Row);
    /// Makes an old point new.
    fn las_strict_upgraded(numbers: &mut PointNumbers);

    /// The bytes of a VLR's or EVLR's head.
    fn las_vlr_head_size(extended: bool) -> u64;
    /// The bytes of a version's header without padding.
    fn las_header_size(major: u8, minor: u8, row: &mut Row);

    /// How many stores a sweep takes.
    fn las_append_stores(sweep: &Sweep) -> u64;

    /// The bytes of a value of a data type.
    fn las_descriptor_size(data_type: u8, options: u8) -> u64;
}

// A slice crosses as its pointer and its length: that the two belong together is what the functions below see to, each over
// the declaration that it calls.
mod lent {
    use super::{
        AttributeNumbers, AttributesPlace, BoundsNumbers, Cursor, Place, PointNumbers, Row,
        SheetNumbers, Span, Sweep,
    };

    extern "C" {
        pub(super) fn las_point_read(
            s: *const u8,
            len: usize,
            format: u32,
            row: &mut Row,
            numbers: &mut PointNumbers,
        );
        pub(super) fn las_point_extra(s: *const u8, len: usize, format: u32, part: &mut Span);
        pub(super) fn las_point_write(
            numbers: &PointNumbers,
            extra: *const u8,
            extra_len: usize,
            format: u32,
            dst: *mut u8,
            dst_len: usize,
            row: &mut Row,
        );

        pub(super) fn las_vlr_read(
            s: *const u8,
            len: usize,
            extended: bool,
            row: &mut Row,
            numbers: &mut [u64; 3],
            user_id: &mut [u8; 16],
            description: &mut [u8; 32],
        );
        pub(super) fn las_vlr_data(s: *const u8, len: usize, extended: bool, part: &mut Span);
        pub(super) fn las_vlr_write(
            extended: bool,
            numbers: &[u64; 3],
            user_id: &[u8; 16],
            description: &[u8; 32],
            data: *const u8,
            data_len: usize,
            dst: *mut u8,
            dst_len: usize,
            row: &mut Row,
        );
        pub(super) fn las_vlr_measure(s: *const u8, len: usize, extended: bool, row: &mut Row);
        pub(super) fn las_vlr_stated(s: *const u8, len: usize, extended: bool, row: &mut Row);
        pub(super) fn las_vlr_default(
            numbers: &mut [u64; 3],
            user_id: &mut [u8; 16],
            description: &mut [u8; 32],
        );

        pub(super) fn las_header_read(
            s: *const u8,
            len: usize,
            row: &mut Row,
            numbers: &mut [u64; 51],
            guid: &mut [u8; 16],
            system: &mut [u8; 32],
            software: &mut [u8; 32],
        );
        pub(super) fn las_header_padding(s: *const u8, len: usize, part: &mut Span);
        pub(super) fn las_header_points(s: *const u8, len: usize, row: &mut Row);
        pub(super) fn las_header_end_of_points(s: *const u8, len: usize, row: &mut Row);
        pub(super) fn las_header_point_format(s: *const u8, len: usize, row: &mut Row);
        pub(super) fn las_header_default(
            numbers: &mut [u64; 51],
            guid: &mut [u8; 16],
            system: &mut [u8; 32],
            software: &mut [u8; 32],
        );
        pub(super) fn las_header_write(
            numbers: &[u64; 51],
            guid: &[u8; 16],
            system: &[u8; 32],
            software: &[u8; 32],
            padding: *const u8,
            padding_len: usize,
            dst: *mut u8,
            dst_len: usize,
            row: &mut Row,
        );

        pub(super) fn las_file_check(
            file: *const u8,
            len: usize,
            allowance: u64,
            row: &mut [u64; 4],
        );
        pub(super) fn las_file_parts(
            file: *const u8,
            len: usize,
            allowance: u64,
            table: *mut u64,
            table_len: usize,
            row: &mut Row,
        );
        pub(super) fn las_cursor_start(
            file: *const u8,
            len: usize,
            allowance: u64,
            cursor: &mut Cursor,
            row: &mut Row,
        );
        pub(super) fn las_cursor_next(
            file: *const u8,
            len: usize,
            cursor: &mut Cursor,
            part: &mut [u64; 3],
        ) -> u8;
        pub(super) fn las_file_walker(
            file: *const u8,
            len: usize,
            allowance: u64,
            place: &mut Place,
        );
        pub(super) fn las_file_next(
            file: *const u8,
            len: usize,
            place: &mut Place,
            row: &mut Row,
            numbers: &mut PointNumbers,
        );
        pub(super) fn las_file_record(file: *const u8, len: usize, place: &Place, part: &mut Span);
        pub(super) fn las_file_rewrite(
            file: *const u8,
            len: usize,
            allowance: u64,
            dst: *mut u8,
            dst_len: usize,
            row: &mut Row,
        );
        pub(super) fn las_file_ask_old(file: *const u8, len: usize, allowance: u64, row: &mut Row);
        pub(super) fn las_file_ask_new(file: *const u8, len: usize, allowance: u64, row: &mut Row);
        pub(super) fn las_file_to_old(
            file: *const u8,
            len: usize,
            allowance: u64,
            dst: *mut u8,
            dst_len: usize,
            row: &mut Row,
        );
        pub(super) fn las_file_to_new(
            file: *const u8,
            len: usize,
            allowance: u64,
            dst: *mut u8,
            dst_len: usize,
            row: &mut Row,
        );

        pub(super) fn las_sheet_add(
            file: *const u8,
            len: usize,
            allowance: u64,
            sheet: &mut SheetNumbers,
            row: &mut Row,
        );

        pub(super) fn las_append(
            file: *mut u8,
            len: usize,
            allowance: u64,
            records: *const u8,
            records_len: usize,
            n: u64,
            bounds: &BoundsNumbers,
            believed: u64,
            row: &mut Row,
        );
        pub(super) fn las_append_begin(
            file: *const u8,
            len: usize,
            allowance: u64,
            records: *const u8,
            records_len: usize,
            n: u64,
            believed: u64,
            sweep: &mut Sweep,
            row: &mut Row,
        );
        pub(super) fn las_append_store(
            file: *mut u8,
            len: usize,
            sweep: &Sweep,
            records: *const u8,
            records_len: usize,
            bounds: &BoundsNumbers,
            k: u64,
            sector: &mut Span,
            row: &mut Row,
        );
        pub(super) fn las_reclassify(
            file: *mut u8,
            len: usize,
            allowance: u64,
            point: u64,
            class: u8,
            row: &mut Row,
        );
        pub(super) fn las_reclassify_ask(
            file: *const u8,
            len: usize,
            allowance: u64,
            point: u64,
            class: u8,
            change: &mut [u64; 2],
            row: &mut Row,
        );

        pub(super) fn las_keys(
            file: *const u8,
            len: usize,
            allowance: u64,
            keys: &mut [u64; 5],
            row: &mut Row,
        );
        pub(super) fn las_keys_at(
            file: *const u8,
            len: usize,
            keys: &[u64; 5],
            k: u16,
            key: &mut [u64; 5],
        ) -> u8;
        pub(super) fn las_keys_find(
            file: *const u8,
            len: usize,
            keys: &[u64; 5],
            wanted: u16,
            key: &mut [u64; 5],
        ) -> u8;
        pub(super) fn las_key(
            file: *const u8,
            len: usize,
            allowance: u64,
            wanted: u16,
            key: &mut [u64; 5],
            row: &mut Row,
        );
        pub(super) fn las_keys_write(
            keys: *const u16,
            keys_len: usize,
            dst: *mut u8,
            dst_len: usize,
            row: &mut Row,
        );

        pub(super) fn las_convert_ask_old(
            src: *const u8,
            src_len: usize,
            format: u8,
            extra: u16,
            count: u64,
            row: &mut Row,
        );
        pub(super) fn las_convert_ask_new(
            src: *const u8,
            src_len: usize,
            format: u8,
            extra: u16,
            count: u64,
            row: &mut Row,
        );
        pub(super) fn las_convert_to_old(
            src: *const u8,
            src_len: usize,
            format: u8,
            extra: u16,
            count: u64,
            dst: *mut u8,
            dst_len: usize,
            row: &mut Row,
        );
        pub(super) fn las_convert_to_new(
            src: *const u8,
            src_len: usize,
            format: u8,
            extra: u16,
            count: u64,
            dst: *mut u8,
            dst_len: usize,
            row: &mut Row,
        );
        pub(super) fn las_columns_xyz(
            file: *const u8,
            len: usize,
            allowance: u64,
            first: u64,
            count: u64,
            xs: *mut i32,
            xs_len: usize,
            ys: *mut i32,
            ys_len: usize,
            zs: *mut i32,
            zs_len: usize,
            row: &mut Row,
        );

        pub(super) fn las_vlr_first(
            file: *const u8,
            len: usize,
            allowance: u64,
            user: *const u8,
            user_len: usize,
            record_id: u16,
            part: &mut Span,
            row: &mut Row,
        );
        pub(super) fn las_attributes(
            file: *const u8,
            len: usize,
            allowance: u64,
            place: &mut AttributesPlace,
            row: &mut Row,
        );
        pub(super) fn las_attributes_next(
            file: *const u8,
            len: usize,
            place: &mut AttributesPlace,
            attribute: &mut AttributeNumbers,
            part: &mut Span,
        ) -> u8;
        pub(super) fn las_attribute_find(
            file: *const u8,
            len: usize,
            allowance: u64,
            name: *const u8,
            name_len: usize,
            attribute: &mut AttributeNumbers,
            row: &mut Row,
        );
        pub(super) fn las_attribute_value(
            file: *const u8,
            len: usize,
            attribute: &AttributeNumbers,
            point: u64,
            part: &mut Span,
            row: &mut Row,
        );
        pub(super) fn las_attribute_column(
            file: *const u8,
            len: usize,
            attribute: &AttributeNumbers,
            first: u64,
            count: u64,
            dst: *mut u64,
            dst_len: usize,
            row: &mut Row,
        );
        pub(super) fn las_descriptor_read(
            s: *const u8,
            len: usize,
            row: &mut Row,
            numbers: &mut [u64; 9],
            name: &mut [u8; 32],
            deprecated: &mut [u8; 80],
            description: &mut [u8; 32],
        );
        pub(super) fn las_descriptor_write(
            numbers: &[u64; 9],
            name: &[u8; 32],
            deprecated: &[u8; 80],
            description: &[u8; 32],
            dst: *mut u8,
            dst_len: usize,
            row: &mut Row,
        );
        pub(super) fn las_findings(
            file: *const u8,
            len: usize,
            allowance: u64,
            out: *mut u64,
            out_len: usize,
            row: &mut Row,
        );
    }
}

// Calls on one record.

/// The point at the front of the slice.
#[inline]
pub fn las_point_read(s: &[u8], format: u32, row: &mut Row, numbers: &mut PointNumbers) {
    // SAFETY: pointer and length are those of one borrowed slice.
    unsafe { lent::las_point_read(s.as_ptr(), s.len(), format, row, numbers) }
}

/// Where its extra bytes are.
#[inline]
pub fn las_point_extra(s: &[u8], format: u32, part: &mut Span) {
    // SAFETY: pointer and length are those of one borrowed slice.
    unsafe { lent::las_point_extra(s.as_ptr(), s.len(), format, part) }
}

/// Writes a point and its extra bytes.
#[inline]
pub fn las_point_write(
    numbers: &PointNumbers,
    extra: &[u8],
    format: u32,
    dst: &mut [u8],
    row: &mut Row,
) {
    let (from, from_len) = (extra.as_ptr(), extra.len());
    let (to, to_len) = (dst.as_mut_ptr(), dst.len());
    // SAFETY: both pointers go with the lengths of their borrowed slices, of which the one written to is borrowed alone.
    unsafe { lent::las_point_write(numbers, from, from_len, format, to, to_len, row) }
}

/// The head of the VLR, or extended the EVLR, at the front of the slice.
#[inline]
pub fn las_vlr_read(s: &[u8], extended: bool, row: &mut Row, head: &mut VlrHead) {
    let VlrHead {
        numbers,
        user_id,
        description,
    } = head;
    // SAFETY: pointer and length are those of one borrowed slice.
    unsafe {
        lent::las_vlr_read(
            s.as_ptr(),
            s.len(),
            extended,
            row,
            numbers,
            user_id,
            description,
        )
    }
}

/// Where its data is.
#[inline]
pub fn las_vlr_data(s: &[u8], extended: bool, part: &mut Span) {
    // SAFETY: pointer and length are those of one borrowed slice.
    unsafe { lent::las_vlr_data(s.as_ptr(), s.len(), extended, part) }
}

/// Writes a VLR, or extended an EVLR, and its data.
#[inline]
pub fn las_vlr_write(extended: bool, head: &VlrHead, data: &[u8], dst: &mut [u8], row: &mut Row) {
    // SAFETY: both pointers go with the lengths of their borrowed slices, of which the one written to is borrowed alone.
    unsafe {
        lent::las_vlr_write(
            extended,
            &head.numbers,
            &head.user_id,
            &head.description,
            data.as_ptr(),
            data.len(),
            dst.as_mut_ptr(),
            dst.len(),
            row,
        )
    }
}

/// How many bytes it takes, head and data.
#[inline]
pub fn las_vlr_measure(s: &[u8], extended: bool, row: &mut Row) {
    // SAFETY: pointer and length are those of one borrowed slice.
    unsafe { lent::las_vlr_measure(s.as_ptr(), s.len(), extended, row) }
}

/// The length that its head states.
#[inline]
pub fn las_vlr_stated(s: &[u8], extended: bool, row: &mut Row) {
    // SAFETY: pointer and length are those of one borrowed slice.
    unsafe { lent::las_vlr_stated(s.as_ptr(), s.len(), extended, row) }
}

/// The default VLR.
#[inline]
pub fn las_vlr_default(head: &mut VlrHead) {
    let VlrHead {
        numbers,
        user_id,
        description,
    } = head;
    // SAFETY: a total call, whose only pointers are references.
    unsafe { lent::las_vlr_default(numbers, user_id, description) }
}

/// The header at the front of the slice.
#[inline]
pub fn las_header_read(s: &[u8], row: &mut Row, header: &mut HeaderNumbers) {
    let HeaderNumbers {
        numbers,
        guid,
        system_identifier: system,
        generating_software: software,
    } = header;
    // SAFETY: pointer and length are those of one borrowed slice.
    unsafe { lent::las_header_read(s.as_ptr(), s.len(), row, numbers, guid, system, software) }
}

/// Where its padding is.
#[inline]
pub fn las_header_padding(s: &[u8], part: &mut Span) {
    // SAFETY: pointer and length are those of one borrowed slice.
    unsafe { lent::las_header_padding(s.as_ptr(), s.len(), part) }
}

/// How many points it counts.
#[inline]
pub fn las_header_points(s: &[u8], row: &mut Row) {
    // SAFETY: pointer and length are those of one borrowed slice.
    unsafe { lent::las_header_points(s.as_ptr(), s.len(), row) }
}

/// The first byte after its points.
#[inline]
pub fn las_header_end_of_points(s: &[u8], row: &mut Row) {
    // SAFETY: pointer and length are those of one borrowed slice.
    unsafe { lent::las_header_end_of_points(s.as_ptr(), s.len(), row) }
}

/// The format of its points.
#[inline]
pub fn las_header_point_format(s: &[u8], row: &mut Row) {
    // SAFETY: pointer and length are those of one borrowed slice.
    unsafe { lent::las_header_point_format(s.as_ptr(), s.len(), row) }
}

/// The default header.
#[inline]
pub fn las_header_default(header: &mut HeaderNumbers) {
    let HeaderNumbers {
        numbers,
        guid,
        system_identifier,
        generating_software,
    } = header;
    // SAFETY: a total call, whose only pointers are references.
    unsafe { lent::las_header_default(numbers, guid, system_identifier, generating_software) }
}

/// Writes a header and its padding.
#[inline]
pub fn las_header_write(header: &HeaderNumbers, padding: &[u8], dst: &mut [u8], row: &mut Row) {
    // SAFETY: both pointers go with the lengths of their borrowed slices, of which the one written to is borrowed alone.
    unsafe {
        lent::las_header_write(
            &header.numbers,
            &header.guid,
            &header.system_identifier,
            &header.generating_software,
            padding.as_ptr(),
            padding.len(),
            dst.as_mut_ptr(),
            dst.len(),
            row,
        )
    }
}

// Calls on whole files.

/// The file check; the row's fourth number is that of the records found whole.
#[inline]
pub fn las_file_check(file: &[u8], allowance: u64, row: &mut [u64; 4]) {
    // SAFETY: pointer and length are those of one borrowed slice.
    unsafe { lent::las_file_check(file.as_ptr(), file.len(), allowance, row) }
}

/// The parts; each takes three numbers of the table: kind, start and length.
#[inline]
pub fn las_file_parts(file: &[u8], allowance: u64, table: &mut [u64], row: &mut Row) {
    let (to, to_len) = (table.as_mut_ptr(), table.len());
    // SAFETY: both pointers go with the lengths of their borrowed slices, of which the one written to is borrowed alone.
    unsafe { lent::las_file_parts(file.as_ptr(), file.len(), allowance, to, to_len, row) }
}

/// The cursor at the first part.
#[inline]
pub fn las_cursor_start(file: &[u8], allowance: u64, cursor: &mut Cursor, row: &mut Row) {
    // SAFETY: pointer and length are those of one borrowed slice.
    unsafe { lent::las_cursor_start(file.as_ptr(), file.len(), allowance, cursor, row) }
}

/// Whether there is a part at the cursor: then its kind, start and length, and the cursor moves on.
#[inline]
pub fn las_cursor_next(file: &[u8], cursor: &mut Cursor, part: &mut [u64; 3]) -> u8 {
    // SAFETY: pointer and length are those of one borrowed slice.
    unsafe { lent::las_cursor_next(file.as_ptr(), file.len(), cursor, part) }
}

/// The place before the first point.
#[inline]
pub fn las_file_walker(file: &[u8], allowance: u64, place: &mut Place) {
    // SAFETY: pointer and length are those of one borrowed slice.
    unsafe { lent::las_file_walker(file.as_ptr(), file.len(), allowance, place) }
}

/// The next point, and the place after it.
#[inline]
pub fn las_file_next(file: &[u8], place: &mut Place, row: &mut Row, numbers: &mut PointNumbers) {
    // SAFETY: pointer and length are those of one borrowed slice.
    unsafe { lent::las_file_next(file.as_ptr(), file.len(), place, row, numbers) }
}

/// Where the next point's record is.
#[inline]
pub fn las_file_record(file: &[u8], place: &Place, part: &mut Span) {
    // SAFETY: pointer and length are those of one borrowed slice.
    unsafe { lent::las_file_record(file.as_ptr(), file.len(), place, part) }
}

/// Writes the file anew.
#[inline]
pub fn las_file_rewrite(file: &[u8], allowance: u64, dst: &mut [u8], row: &mut Row) {
    let (to, to_len) = (dst.as_mut_ptr(), dst.len());
    // SAFETY: both pointers go with the lengths of their borrowed slices, of which the one written to is borrowed alone.
    unsafe { lent::las_file_rewrite(file.as_ptr(), file.len(), allowance, to, to_len, row) }
}

/// Whether a whole file of 1.4 can be made one of 1.2; the value is the bytes that it has then.
#[inline]
pub fn las_file_ask_old(file: &[u8], allowance: u64, row: &mut Row) {
    // SAFETY: pointer and length are those of one borrowed slice.
    unsafe { lent::las_file_ask_old(file.as_ptr(), file.len(), allowance, row) }
}

/// Whether a whole file of 1.2 can be made one of 1.4; the value is the bytes that it has then.
#[inline]
pub fn las_file_ask_new(file: &[u8], allowance: u64, row: &mut Row) {
    // SAFETY: pointer and length are those of one borrowed slice.
    unsafe { lent::las_file_ask_new(file.as_ptr(), file.len(), allowance, row) }
}

/// Makes a whole file of 1.4 one of 1.2.
#[inline]
pub fn las_file_to_old(file: &[u8], allowance: u64, dst: &mut [u8], row: &mut Row) {
    let (to, to_len) = (dst.as_mut_ptr(), dst.len());
    // SAFETY: both pointers go with the lengths of their borrowed slices, of which the one written to is borrowed alone.
    unsafe { lent::las_file_to_old(file.as_ptr(), file.len(), allowance, to, to_len, row) }
}

/// Makes a whole file of 1.2 one of 1.4.
#[inline]
pub fn las_file_to_new(file: &[u8], allowance: u64, dst: &mut [u8], row: &mut Row) {
    let (to, to_len) = (dst.as_mut_ptr(), dst.len());
    // SAFETY: both pointers go with the lengths of their borrowed slices, of which the one written to is borrowed alone.
    unsafe { lent::las_file_to_new(file.as_ptr(), file.len(), allowance, to, to_len, row) }
}

/// Declares calls that fill columns, and makes them safe.
macro_rules! columns {
    ($($(#[$says:meta])* fn $name:ident(
        file: *const u8, len: usize, allowance: u64, first: u64, count: u64, dst: *mut $entry:ty, dst_len: usize, row: &mut Row
    );)*) => {
        mod columns {
            use super::Row;

            extern "C" {
                $(pub(super) fn $name(
                    file: *const u8, len: usize, allowance: u64, first: u64, count: u64, dst: *mut $entry, dst_len: usize, row: &mut Row
                );)*
            }
        }

        $(
            $(#[$says])*
            #[inline]
            pub fn $name(file: &[u8], allowance: u64, first: u64, count: u64, dst: &mut [$entry], row: &mut Row) {
                let (from, len) = (file.as_ptr(), file.len());
                let (to, to_len) = (dst.as_mut_ptr(), dst.len());
                // SAFETY: both pointers go with the lengths of their borrowed slices, of which the one written to is borrowed alone.
                unsafe { columns::$name(from, len, allowance, first, count, to, to_len, row) }
            }
        )*
    };
}

columns! {
    /// X of so many points from the first on, counted from 1.
    fn las_column_x(
        file: *const u8, len: usize, allowance: u64, first: u64, count: u64, dst: *mut i32, dst_len: usize, row: &mut Row
    );
    /// Y of them.
    fn las_column_y(
        file: *const u8, len: usize, allowance: u64, first: u64, count: u64, dst: *mut i32, dst_len: usize, row: &mut Row
    );
    /// Z of them.
    fn las_column_z(
        file: *const u8, len: usize, allowance: u64, first: u64, count: u64, dst: *mut i32, dst_len: usize, row: &mut Row
    );
    /// The time of them.
    fn las_column_time(
        file: *const u8, len: usize, allowance: u64, first: u64, count: u64, dst: *mut f64, dst_len: usize, row: &mut Row
    );
    /// The time of them by its bits.
    fn las_column_time_bits(
        file: *const u8, len: usize, allowance: u64, first: u64, count: u64, dst: *mut u64, dst_len: usize, row: &mut Row
    );
    /// Red of them.
    fn las_column_red(
        file: *const u8, len: usize, allowance: u64, first: u64, count: u64, dst: *mut u16, dst_len: usize, row: &mut Row
    );
    /// Green of them.
    fn las_column_green(
        file: *const u8, len: usize, allowance: u64, first: u64, count: u64, dst: *mut u16, dst_len: usize, row: &mut Row
    );
    /// Blue of them.
    fn las_column_blue(
        file: *const u8, len: usize, allowance: u64, first: u64, count: u64, dst: *mut u16, dst_len: usize, row: &mut Row
    );
    /// Near infrared of them.
    fn las_column_nir(
        file: *const u8, len: usize, allowance: u64, first: u64, count: u64, dst: *mut u16, dst_len: usize, row: &mut Row
    );
}

/// X, Y and Z of so many points from the first on, counted from 1, in one pass.
#[inline]
pub fn las_columns_xyz(
    file: &[u8],
    allowance: u64,
    stretch: (u64, u64),
    to: (&mut [i32], &mut [i32], &mut [i32]),
    row: &mut Row,
) {
    let ((first, count), (xs, ys, zs)) = (stretch, to);
    let (from, len) = (file.as_ptr(), file.len());
    let (x, x_len) = (xs.as_mut_ptr(), xs.len());
    let (y, y_len) = (ys.as_mut_ptr(), ys.len());
    let (z, z_len) = (zs.as_mut_ptr(), zs.len());
    // SAFETY: all pointers go with the lengths of their borrowed slices, of which each that is written to is borrowed alone.
    unsafe {
        lent::las_columns_xyz(
            from, len, allowance, first, count, x, x_len, y, y_len, z, z_len, row,
        )
    }
}

/// Where the data of the first VLR with this user id and record id is: then the value is 1, and else 0.
#[inline]
pub fn las_vlr_first(
    file: &[u8],
    allowance: u64,
    user: &[u8],
    record_id: u16,
    part: &mut Span,
    row: &mut Row,
) {
    let (from, len) = (file.as_ptr(), file.len());
    let (by, by_len) = (user.as_ptr(), user.len());
    // SAFETY: both pointers go with the lengths of their borrowed slices.
    unsafe { lent::las_vlr_first(from, len, allowance, by, by_len, record_id, part, row) }
}

// Calls on attributes, which are values in the extra bytes of every point; and on their descriptors.

/// The place before the first attribute; the value is how many there are.
#[inline]
pub fn las_attributes(file: &[u8], allowance: u64, place: &mut AttributesPlace, row: &mut Row) {
    // SAFETY: pointer and length are those of one borrowed slice.
    unsafe { lent::las_attributes(file.as_ptr(), file.len(), allowance, place, row) }
}

/// Whether there is an attribute at the place: then it and where its descriptor is, and the place moves on.
#[inline]
pub fn las_attributes_next(
    file: &[u8],
    place: &mut AttributesPlace,
    attribute: &mut AttributeNumbers,
    part: &mut Span,
) -> u8 {
    // SAFETY: pointer and length are those of one borrowed slice.
    unsafe { lent::las_attributes_next(file.as_ptr(), file.len(), place, attribute, part) }
}

/// The attribute with this name.
#[inline]
pub fn las_attribute_find(
    file: &[u8],
    allowance: u64,
    name: &[u8],
    attribute: &mut AttributeNumbers,
    row: &mut Row,
) {
    let (from, len) = (file.as_ptr(), file.len());
    let (by, by_len) = (name.as_ptr(), name.len());
    // SAFETY: both pointers go with the lengths of their borrowed slices.
    unsafe { lent::las_attribute_find(from, len, allowance, by, by_len, attribute, row) }
}

/// Where an attribute's value in a point is, counted from 1; the value of the row is the number that its first eight bytes are.
#[inline]
pub fn las_attribute_value(
    file: &[u8],
    attribute: &AttributeNumbers,
    point: u64,
    part: &mut Span,
    row: &mut Row,
) {
    // SAFETY: pointer and length are those of one borrowed slice.
    unsafe { lent::las_attribute_value(file.as_ptr(), file.len(), attribute, point, part, row) }
}

/// These numbers of so many points from the first on, counted from 1.
#[inline]
pub fn las_attribute_column(
    file: &[u8],
    attribute: &AttributeNumbers,
    stretch: (u64, u64),
    dst: &mut [u64],
    row: &mut Row,
) {
    let (first, count) = stretch;
    let (from, len) = (file.as_ptr(), file.len());
    let (to, to_len) = (dst.as_mut_ptr(), dst.len());
    // SAFETY: both pointers go with the lengths of their borrowed slices, of which the one written to is borrowed alone.
    unsafe { lent::las_attribute_column(from, len, attribute, first, count, to, to_len, row) }
}

/// The descriptor at the front of the slice.
#[inline]
pub fn las_descriptor_read(s: &[u8], row: &mut Row, descriptor: &mut DescriptorNumbers) {
    let DescriptorNumbers {
        numbers,
        name,
        deprecated,
        description,
    } = descriptor;
    let (from, len) = (s.as_ptr(), s.len());
    // SAFETY: pointer and length are those of one borrowed slice.
    unsafe { lent::las_descriptor_read(from, len, row, numbers, name, deprecated, description) }
}

/// Writes a descriptor.
#[inline]
pub fn las_descriptor_write(descriptor: &DescriptorNumbers, dst: &mut [u8], row: &mut Row) {
    let DescriptorNumbers {
        numbers,
        name,
        deprecated,
        description,
    } = descriptor;
    let (to, to_len) = (dst.as_mut_ptr(), dst.len());
    // SAFETY: pointer and length are those of one slice, which is borrowed alone.
    unsafe { lent::las_descriptor_write(numbers, name, deprecated, description, to, to_len, row) }
}

/// Adds a file to a site sheet; a refused one leaves it.
#[inline]
pub fn las_sheet_add(file: &[u8], allowance: u64, sheet: &mut SheetNumbers, row: &mut Row) {
    // SAFETY: pointer and length are those of one borrowed slice.
    unsafe { lent::las_sheet_add(file.as_ptr(), file.len(), allowance, sheet, row) }
}

/// Every finding of the file, four numbers each: its rule, its part, its point and its first byte; the value is how many there are.
#[inline]
pub fn las_findings(file: &[u8], allowance: u64, out: &mut [u64], row: &mut Row) {
    let (to, to_len) = (out.as_mut_ptr(), out.len());
    // SAFETY: both pointers go with the lengths of their borrowed slices, of which the one written to is borrowed alone.
    unsafe { lent::las_findings(file.as_ptr(), file.len(), allowance, to, to_len, row) }
}

// Calls that append records: an offer is the records, how many they are, and how many points are believed to be there.

/// Adds the records to the file, with these bounds; the value is 0 where they are added and 1 where they are already in.
#[inline]
pub fn las_append(
    file: &mut [u8],
    allowance: u64,
    offer: (&[u8], u64, u64),
    bounds: &BoundsNumbers,
    row: &mut Row,
) {
    let (records, n, believed) = offer;
    let (from, from_len) = (records.as_ptr(), records.len());
    let (to, to_len) = (file.as_mut_ptr(), file.len());
    // SAFETY: both pointers go with the lengths of their borrowed slices, of which the one written to is borrowed alone.
    unsafe {
        lent::las_append(
            to, to_len, allowance, from, from_len, n, bounds, believed, row,
        )
    }
}

/// Judges an offer: the value is 0 where the records are to be added, by the sweep, and 1 where they are already in.
#[inline]
pub fn las_append_begin(
    file: &[u8],
    allowance: u64,
    offer: (&[u8], u64, u64),
    sweep: &mut Sweep,
    row: &mut Row,
) {
    let (records, n, believed) = offer;
    let (at, len) = (file.as_ptr(), file.len());
    let (from, from_len) = (records.as_ptr(), records.len());
    // SAFETY: both pointers go with the lengths of their borrowed slices.
    unsafe { lent::las_append_begin(at, len, allowance, from, from_len, n, believed, sweep, row) }
}

/// Makes the k-th store of a sweep in the file, counted from 0, and tells its sector.
#[inline]
pub fn las_append_store(
    file: &mut [u8],
    sweep: &Sweep,
    records: &[u8],
    bounds: &BoundsNumbers,
    k: u64,
    sector: &mut Span,
    row: &mut Row,
) {
    let (from, from_len) = (records.as_ptr(), records.len());
    let (to, to_len) = (file.as_mut_ptr(), file.len());
    // SAFETY: both pointers go with the lengths of their borrowed slices, of which the one written to is borrowed alone.
    unsafe { lent::las_append_store(to, to_len, sweep, from, from_len, bounds, k, sector, row) }
}

// Calls that set the class of a point, counted from 1; the value is the class that it had.

/// Gives the point this class, in the file.
#[inline]
pub fn las_reclassify(file: &mut [u8], allowance: u64, point: u64, class: u8, row: &mut Row) {
    let (to, to_len) = (file.as_mut_ptr(), file.len());
    // SAFETY: pointer and length are those of one slice, which is borrowed alone.
    unsafe { lent::las_reclassify(to, to_len, allowance, point, class, row) }
}

/// The byte that gives the point this class: its place in the file, and what it becomes.
#[inline]
pub fn las_reclassify_ask(
    file: &[u8],
    allowance: u64,
    point: u64,
    class: u8,
    change: &mut [u64; 2],
    row: &mut Row,
) {
    let (at, len) = (file.as_ptr(), file.len());
    // SAFETY: pointer and length are those of one borrowed slice.
    unsafe { lent::las_reclassify_ask(at, len, allowance, point, class, change, row) }
}

// Calls on coordinate keys. Keys of a file are how many there are, where their directory is and how many bytes it has, and where their
// doubles and their text are; a key is the key, its location, its number, and where its doubles or its text is and how many bytes that has.

/// Where the keys of a file are; the value is how many there are.
#[inline]
pub fn las_keys(file: &[u8], allowance: u64, keys: &mut [u64; 5], row: &mut Row) {
    // SAFETY: pointer and length are those of one borrowed slice.
    unsafe { lent::las_keys(file.as_ptr(), file.len(), allowance, keys, row) }
}

/// Whether there is a key with this number, from 0 on: then it.
#[inline]
pub fn las_keys_at(file: &[u8], keys: &[u64; 5], k: u16, key: &mut [u64; 5]) -> u8 {
    // SAFETY: pointer and length are those of one borrowed slice.
    unsafe { lent::las_keys_at(file.as_ptr(), file.len(), keys, k, key) }
}

/// Whether they have this key: then it.
#[inline]
pub fn las_keys_find(file: &[u8], keys: &[u64; 5], wanted: u16, key: &mut [u64; 5]) -> u8 {
    // SAFETY: pointer and length are those of one borrowed slice.
    unsafe { lent::las_keys_find(file.as_ptr(), file.len(), keys, wanted, key) }
}

/// A key of a file.
#[inline]
pub fn las_key(file: &[u8], allowance: u64, wanted: u16, key: &mut [u64; 5], row: &mut Row) {
    // SAFETY: pointer and length are those of one borrowed slice.
    unsafe { lent::las_key(file.as_ptr(), file.len(), allowance, wanted, key, row) }
}

/// Writes a directory of keys, each of four numbers: key, location, count, value or index.
#[inline]
pub fn las_keys_write(keys: &[u16], dst: &mut [u8], row: &mut Row) {
    let (from, from_len) = (keys.as_ptr(), keys.len());
    let (to, to_len) = (dst.as_mut_ptr(), dst.len());
    // SAFETY: both pointers go with the lengths of their borrowed slices, of which the one written to is borrowed alone.
    unsafe { lent::las_keys_write(from, from_len, to, to_len, row) }
}

// Calls on runs of records: a format byte, a count of extra bytes and a count of records.

/// Whether a run can be converted strictly into the old format of its pair; the value is the bytes that it needs.
#[inline]
pub fn las_convert_ask_old(src: &[u8], run: (u8, u16, u64), row: &mut Row) {
    let (format, extra, count) = run;
    // SAFETY: pointer and length are those of one borrowed slice.
    unsafe { lent::las_convert_ask_old(src.as_ptr(), src.len(), format, extra, count, row) }
}

/// Whether a run can be converted into the new format of its pair; the value is the bytes that it needs.
#[inline]
pub fn las_convert_ask_new(src: &[u8], run: (u8, u16, u64), row: &mut Row) {
    let (format, extra, count) = run;
    // SAFETY: pointer and length are those of one borrowed slice.
    unsafe { lent::las_convert_ask_new(src.as_ptr(), src.len(), format, extra, count, row) }
}

/// Converts a run strictly into the old format of its pair.
#[inline]
pub fn las_convert_to_old(src: &[u8], run: (u8, u16, u64), dst: &mut [u8], row: &mut Row) {
    let (format, extra, count) = run;
    let (from, from_len) = (src.as_ptr(), src.len());
    let (to, to_len) = (dst.as_mut_ptr(), dst.len());
    // SAFETY: both pointers go with the lengths of their borrowed slices, of which the one written to is borrowed alone.
    unsafe { lent::las_convert_to_old(from, from_len, format, extra, count, to, to_len, row) }
}

/// Converts a run into the new format of its pair.
#[inline]
pub fn las_convert_to_new(src: &[u8], run: (u8, u16, u64), dst: &mut [u8], row: &mut Row) {
    let (format, extra, count) = run;
    let (from, from_len) = (src.as_ptr(), src.len());
    let (to, to_len) = (dst.as_mut_ptr(), dst.len());
    // SAFETY: both pointers go with the lengths of their borrowed slices, of which the one written to is borrowed alone.
    unsafe { lent::las_convert_to_new(from, from_len, format, extra, count, to, to_len, row) }
}
