//! The proved library's calls, as the crate `inscjarol-sys` declares them: with a result for each row, and bytes for each
//! span.

use crate::refusal::Refusal;
use inscjarol_sys as calls;
pub(crate) use inscjarol_sys::{
    las_column_blue, las_column_green, las_column_nir, las_column_red, las_column_time,
    las_column_time_bits, las_column_x, las_column_y, las_column_z, AttributeNumbers,
    AttributesPlace, BoundsNumbers, Cursor, DescriptorNumbers, HeaderNumbers, Place, PointNumbers,
    SheetNumbers, Sweep, VlrHead,
};

/// A row's answer: its value where the number is 0, else the refusal.
fn answer(row: calls::Row) -> Result<u64, Refusal> {
    match row {
        [0, value, _] => Ok(value),
        [number, value, record] => Err(Refusal::from_row(number, value, record)),
    }
}

/// What a call answers in the row that it is lent.
fn asked(call: impl FnOnce(&mut calls::Row)) -> Result<u64, Refusal> {
    let mut row = [0; 3];
    call(&mut row);
    answer(row)
}

/// The bytes that a call tells of in the span that it is lent.
fn told(bytes: &[u8], call: impl FnOnce(&mut calls::Span)) -> &[u8] {
    let mut part = [0; 2];
    call(&mut part);
    let [start, len] = part;
    part_of(bytes, start, len)
}

/// A place or a count in a slice of this process, which a usize holds on the one kind of machine that the library is for.
pub(crate) fn in_memory(n: u64) -> usize {
    usize::try_from(n).unwrap_or(usize::MAX)
}

/// That part of the bytes; none where it does not lie in them.
pub(crate) fn part_of(bytes: &[u8], start: u64, len: u64) -> &[u8] {
    let start = in_memory(start);
    let end = start.saturating_add(in_memory(len));
    bytes.get(start..end).unwrap_or_default()
}

// Calls on words: numbers in and numbers out.

pub(crate) fn format_new(code: u8) -> Result<u32, Refusal> {
    asked(|row| calls::las_format_new(code, row)).map(|word| word as u32)
}

pub(crate) fn format_extend(format: u32) -> u32 {
    calls::las_format_extend(format)
}

pub(crate) fn format_len(format: u32) -> Result<u16, Refusal> {
    asked(|row| calls::las_format_len(format, row)).map(|len| len as u16)
}

pub(crate) fn format_to_u8(format: u32) -> Result<u8, Refusal> {
    asked(|row| calls::las_format_to_u8(format, row)).map(|code| code as u8)
}

/// Start and length of the extra bytes in a record.
pub(crate) fn layout_extra(format: u32) -> (u64, u64) {
    let mut numbers = [0; 26];
    calls::las_layout(format, &mut numbers);
    let [.., start, len] = numbers;
    (start, len)
}

pub(crate) fn flags_return_number(flags: u32) -> u8 {
    calls::las_flags_return_number(flags)
}

pub(crate) fn flags_number_of_returns(flags: u32) -> u8 {
    calls::las_flags_number_of_returns(flags)
}

/// Whether it is from left to right.
pub(crate) fn flags_scan_direction(flags: u32) -> bool {
    calls::las_flags_scan_direction(flags) == 1
}

pub(crate) fn flags_is_synthetic(flags: u32) -> bool {
    calls::las_flags_is_synthetic(flags) == 1
}

pub(crate) fn flags_is_key_point(flags: u32) -> bool {
    calls::las_flags_is_key_point(flags) == 1
}

pub(crate) fn flags_is_withheld(flags: u32) -> bool {
    calls::las_flags_is_withheld(flags) == 1
}

pub(crate) fn flags_is_overlap(flags: u32) -> bool {
    calls::las_flags_is_overlap(flags) == 1
}

pub(crate) fn flags_scanner_channel(flags: u32) -> u8 {
    calls::las_flags_scanner_channel(flags)
}

pub(crate) fn flags_is_edge_of_flight_line(flags: u32) -> bool {
    calls::las_flags_is_edge_of_flight_line(flags) == 1
}

pub(crate) fn flags_class(flags: u32) -> u8 {
    calls::las_flags_class(flags)
}

pub(crate) fn flags_to_two_bytes(flags: u32) -> Result<[u8; 2], Refusal> {
    asked(|row| calls::las_flags_to_two_bytes(flags, row)).map(|bytes| (bytes as u16).to_le_bytes())
}

pub(crate) fn flags_to_three_bytes(flags: u32) -> u32 {
    calls::las_flags_to_three_bytes(flags)
}

pub(crate) fn flags_clear_overlap_class(flags: u32) -> u32 {
    calls::las_flags_clear_overlap_class(flags)
}

pub(crate) fn flags_eq(flags: u32, other: u32) -> bool {
    calls::las_flags_eq(flags, other) == 1
}

pub(crate) fn angle_to_rank(angle: u32) -> i8 {
    calls::las_angle_to_rank(angle)
}

pub(crate) fn angle_to_scaled(angle: u32) -> i16 {
    calls::las_angle_to_scaled(angle)
}

pub(crate) fn angle_to_degrees(angle: u32) -> f32 {
    calls::las_angle_to_degrees(angle)
}

pub(crate) fn angle_from_degrees(degrees: f32) -> u32 {
    calls::las_angle_from_degrees(degrees)
}

pub(crate) fn angle_eq(angle: u32, other: u32) -> bool {
    calls::las_angle_eq(angle, other) == 1
}

// Calls on one record.

pub(crate) fn point_read(s: &[u8], format: u32) -> Result<PointNumbers, Refusal> {
    let mut numbers = [0; 24];
    asked(|row| calls::las_point_read(s, format, row, &mut numbers)).map(|_| numbers)
}

pub(crate) fn point_extra(s: &[u8], format: u32) -> &[u8] {
    told(s, |part| calls::las_point_extra(s, format, part))
}

pub(crate) fn point_write(
    numbers: &PointNumbers,
    extra: &[u8],
    format: u32,
    dst: &mut [u8],
) -> Result<usize, Refusal> {
    asked(|row| calls::las_point_write(numbers, extra, format, dst, row)).map(in_memory)
}

/// That the point goes into an old format with every field the same, or the first that does not.
pub(crate) fn strict_check(numbers: &PointNumbers) -> Result<(), Refusal> {
    asked(|row| calls::las_strict_check(numbers, row)).map(|_| ())
}

/// Makes an old point new.
pub(crate) fn strict_upgraded(numbers: &mut PointNumbers) {
    calls::las_strict_upgraded(numbers)
}

pub(crate) fn vlr_head_size(extended: bool) -> usize {
    in_memory(calls::las_vlr_head_size(extended))
}

/// The head of the record at the front of the slice.
pub(crate) fn vlr_read(s: &[u8], extended: bool) -> Result<VlrHead, Refusal> {
    let mut head = VlrHead {
        numbers: [0; 3],
        user_id: [0; 16],
        description: [0; 32],
    };
    asked(|row| calls::las_vlr_read(s, extended, row, &mut head)).map(|_| head)
}

pub(crate) fn vlr_data(s: &[u8], extended: bool) -> &[u8] {
    told(s, |part| calls::las_vlr_data(s, extended, part))
}

pub(crate) fn vlr_write(
    extended: bool,
    head: &VlrHead,
    data: &[u8],
    dst: &mut [u8],
) -> Result<usize, Refusal> {
    asked(|row| calls::las_vlr_write(extended, head, data, dst, row)).map(in_memory)
}

/// A header that the library is to fill.
const NO_HEADER: HeaderNumbers = HeaderNumbers {
    numbers: [0; 51],
    guid: [0; 16],
    system_identifier: [0; 32],
    generating_software: [0; 32],
};

/// The header at the front of the slice.
pub(crate) fn header_read(s: &[u8]) -> Result<HeaderNumbers, Refusal> {
    let mut header = NO_HEADER;
    asked(|row| calls::las_header_read(s, row, &mut header)).map(|_| header)
}

/// The default header of the Rust crate las.
pub(crate) fn header_default() -> HeaderNumbers {
    let mut header = NO_HEADER;
    calls::las_header_default(&mut header);
    header
}

/// The size of a version's header without padding.
pub(crate) fn header_size(major: u8, minor: u8) -> Result<u16, Refusal> {
    asked(|row| calls::las_header_size(major, minor, row)).map(|size| size as u16)
}

/// The word of the format of the points, by the header at the front of the slice.
pub(crate) fn header_point_format(s: &[u8]) -> Result<u32, Refusal> {
    asked(|row| calls::las_header_point_format(s, row)).map(|word| word as u32)
}

pub(crate) fn header_padding(s: &[u8]) -> &[u8] {
    told(s, |part| calls::las_header_padding(s, part))
}

pub(crate) fn header_points(s: &[u8]) -> Result<u64, Refusal> {
    asked(|row| calls::las_header_points(s, row))
}

pub(crate) fn header_end_of_points(s: &[u8]) -> Result<u64, Refusal> {
    asked(|row| calls::las_header_end_of_points(s, row))
}

pub(crate) fn header_write(
    header: &HeaderNumbers,
    padding: &[u8],
    dst: &mut [u8],
) -> Result<usize, Refusal> {
    asked(|row| calls::las_header_write(header, padding, dst, row)).map(in_memory)
}

// Calls on whole files.

/// The answer, and the records found whole.
pub(crate) fn file_check(file: &[u8], allowance: u64) -> (Result<(), Refusal>, u64) {
    let mut row = [0; 4];
    calls::las_file_check(file, allowance, &mut row);
    let [number, value, record, found] = row;
    (answer([number, value, record]).map(|_| ()), found)
}

/// The cursor at the first part.
pub(crate) fn cursor_start(file: &[u8], allowance: u64) -> Result<Cursor, Refusal> {
    let mut cursor = [0; 10];
    asked(|row| calls::las_cursor_start(file, allowance, &mut cursor, row)).map(|_| cursor)
}

/// Kind, start and length of the part at the cursor, which moves on; none after the last.
pub(crate) fn cursor_next(file: &[u8], cursor: &mut Cursor) -> Option<[u64; 3]> {
    let mut part = [0; 3];
    let has = calls::las_cursor_next(file, cursor, &mut part);
    (has == 1).then_some(part)
}

/// The bytes of the next record.
pub(crate) fn file_record<'a>(file: &'a [u8], place: &Place) -> &'a [u8] {
    told(file, |part| calls::las_file_record(file, place, part))
}

/// The place before the first point, or the refusal that it holds.
pub(crate) fn file_walker(file: &[u8], allowance: u64) -> Result<Place, Refusal> {
    let mut place = [0; 7];
    calls::las_file_walker(file, allowance, &mut place);
    let [_, _, _, _, number, value, record] = place;
    answer([number, value, record]).map(|_| place)
}

pub(crate) fn file_next(file: &[u8], place: &mut Place) -> Result<PointNumbers, Refusal> {
    let mut numbers = [0; 24];
    asked(|row| calls::las_file_next(file, place, row, &mut numbers)).map(|_| numbers)
}

pub(crate) fn file_rewrite(file: &[u8], allowance: u64, dst: &mut [u8]) -> Result<usize, Refusal> {
    asked(|row| calls::las_file_rewrite(file, allowance, dst, row)).map(in_memory)
}

pub(crate) fn file_ask_old(file: &[u8], allowance: u64) -> Result<usize, Refusal> {
    asked(|row| calls::las_file_ask_old(file, allowance, row)).map(in_memory)
}

pub(crate) fn file_ask_new(file: &[u8], allowance: u64) -> Result<usize, Refusal> {
    asked(|row| calls::las_file_ask_new(file, allowance, row)).map(in_memory)
}

pub(crate) fn file_to_old(file: &[u8], allowance: u64, dst: &mut [u8]) -> Result<usize, Refusal> {
    asked(|row| calls::las_file_to_old(file, allowance, dst, row)).map(in_memory)
}

pub(crate) fn file_to_new(file: &[u8], allowance: u64, dst: &mut [u8]) -> Result<usize, Refusal> {
    asked(|row| calls::las_file_to_new(file, allowance, dst, row)).map(in_memory)
}

/// A call that fills a column of numbers of this type.
pub(crate) type Fill<N> = fn(&[u8], u64, u64, u64, &mut [N], &mut calls::Row);

/// How many entries were filled, of points from the first on.
pub(crate) fn column<N>(
    fill: Fill<N>,
    file: &[u8],
    allowance: u64,
    (first, count): (u64, u64),
    dst: &mut [N],
) -> Result<usize, Refusal> {
    asked(|row| fill(file, allowance, first, count, dst, row)).map(in_memory)
}

/// How many entries of each were filled with X, Y and Z, of points from the first on.
pub(crate) fn columns_xyz(
    file: &[u8],
    allowance: u64,
    stretch: (u64, u64),
    to: (&mut [i32], &mut [i32], &mut [i32]),
) -> Result<usize, Refusal> {
    asked(|row| calls::las_columns_xyz(file, allowance, stretch, to, row)).map(in_memory)
}

/// The data of the first VLR with this user id and record id; none where no VLR has them.
pub(crate) fn vlr_first<'a>(
    file: &'a [u8],
    allowance: u64,
    user: &[u8],
    record_id: u16,
) -> Result<Option<&'a [u8]>, Refusal> {
    let mut part = [0; 2];
    let found =
        asked(|row| calls::las_vlr_first(file, allowance, user, record_id, &mut part, row))?;
    let [start, len] = part;
    Ok((found == 1).then(|| part_of(file, start, len)))
}

// Calls on attributes, and on their descriptors.

/// The place before the first attribute, and how many there are.
pub(crate) fn attributes(file: &[u8], allowance: u64) -> Result<(AttributesPlace, usize), Refusal> {
    let mut place = [0; 5];
    asked(|row| calls::las_attributes(file, allowance, &mut place, row))
        .map(|count| (place, in_memory(count)))
}

/// The attribute at the place, which moves on, and its descriptor's bytes; none after the last.
pub(crate) fn attributes_next<'a>(
    file: &'a [u8],
    place: &mut AttributesPlace,
) -> Option<(AttributeNumbers, &'a [u8])> {
    let (mut attribute, mut part) = ([0; 5], [0; 2]);
    let has = calls::las_attributes_next(file, place, &mut attribute, &mut part);
    let [start, len] = part;
    (has == 1).then(|| (attribute, part_of(file, start, len)))
}

pub(crate) fn attribute_find(
    file: &[u8],
    allowance: u64,
    name: &[u8],
) -> Result<AttributeNumbers, Refusal> {
    let mut attribute = [0; 5];
    asked(|row| calls::las_attribute_find(file, allowance, name, &mut attribute, row))
        .map(|_| attribute)
}

/// The bytes of a value, and the number that the first eight of them are.
pub(crate) fn attribute_value<'a>(
    file: &'a [u8],
    attribute: &AttributeNumbers,
    point: u64,
) -> Result<(&'a [u8], u64), Refusal> {
    let mut part = [0; 2];
    let number = asked(|row| calls::las_attribute_value(file, attribute, point, &mut part, row))?;
    let [start, len] = part;
    Ok((part_of(file, start, len), number))
}

/// How many entries were filled, of points from the first on.
pub(crate) fn attribute_column(
    file: &[u8],
    attribute: &AttributeNumbers,
    stretch: (u64, u64),
    dst: &mut [u64],
) -> Result<usize, Refusal> {
    asked(|row| calls::las_attribute_column(file, attribute, stretch, dst, row)).map(in_memory)
}

/// The descriptor at the front of the slice.
pub(crate) fn descriptor_read(s: &[u8]) -> Result<DescriptorNumbers, Refusal> {
    let mut descriptor = DescriptorNumbers {
        numbers: [0; 9],
        name: [0; 32],
        deprecated: [0; 80],
        description: [0; 32],
    };
    asked(|row| calls::las_descriptor_read(s, row, &mut descriptor)).map(|_| descriptor)
}

pub(crate) fn descriptor_write(
    descriptor: &DescriptorNumbers,
    dst: &mut [u8],
) -> Result<usize, Refusal> {
    asked(|row| calls::las_descriptor_write(descriptor, dst, row)).map(in_memory)
}

/// The bytes of a value of a data type.
pub(crate) fn descriptor_size(data_type: u8, options: u8) -> usize {
    in_memory(calls::las_descriptor_size(data_type, options))
}

/// Adds a file to a site sheet; a refused one leaves it.
pub(crate) fn sheet_add(
    file: &[u8],
    allowance: u64,
    sheet: &mut SheetNumbers,
) -> Result<(), Refusal> {
    asked(|row| calls::las_sheet_add(file, allowance, sheet, row)).map(|_| ())
}

/// How many findings there are. They go to the front of the buffer, four numbers each, where it has room for all of them.
pub(crate) fn findings(file: &[u8], allowance: u64, out: &mut [u64]) -> Result<u64, Refusal> {
    asked(|row| calls::las_findings(file, allowance, out, row))
}

// Calls that append records: an offer is the records, how many they are, and how many points are believed to be there.

/// Whether the records were already in; else they were added.
pub(crate) fn append(
    file: &mut [u8],
    allowance: u64,
    offer: (&[u8], u64, u64),
    bounds: &BoundsNumbers,
) -> Result<bool, Refusal> {
    asked(|row| calls::las_append(file, allowance, offer, bounds, row)).map(|value| value == 1)
}

/// The sweep by which the records are to be added; none where they are already in.
pub(crate) fn append_begin(
    file: &[u8],
    allowance: u64,
    offer: (&[u8], u64, u64),
) -> Result<Option<Sweep>, Refusal> {
    let mut sweep = [0; 8];
    asked(|row| calls::las_append_begin(file, allowance, offer, &mut sweep, row))
        .map(|value| (value == 0).then_some(sweep))
}

pub(crate) fn append_stores(sweep: &Sweep) -> u64 {
    calls::las_append_stores(sweep)
}

/// Start and length of the sector that was stored; none past the last store.
pub(crate) fn append_store(
    file: &mut [u8],
    sweep: &Sweep,
    records: &[u8],
    bounds: &BoundsNumbers,
    k: u64,
) -> Result<Option<(u64, u64)>, Refusal> {
    let mut sector = [0; 2];
    let stored =
        asked(|row| calls::las_append_store(file, sweep, records, bounds, k, &mut sector, row));
    let [start, len] = sector;
    stored.map(|bytes| (bytes > 0).then_some((start, len)))
}

// Calls that set the class of a point, counted from 1.

/// The class that it had.
pub(crate) fn reclassify(
    file: &mut [u8],
    allowance: u64,
    point: u64,
    class: u8,
) -> Result<u8, Refusal> {
    asked(|row| calls::las_reclassify(file, allowance, point, class, row)).map(|was| was as u8)
}

/// The place in the file of the byte that changes, what it becomes, and the class that the point has.
pub(crate) fn reclassify_ask(
    file: &[u8],
    allowance: u64,
    point: u64,
    class: u8,
) -> Result<(u64, u8, u8), Refusal> {
    let mut change = [0; 2];
    let was =
        asked(|row| calls::las_reclassify_ask(file, allowance, point, class, &mut change, row));
    let [at, byte] = change;
    was.map(|was| (at, byte as u8, was as u8))
}

// Calls on coordinate keys, which are five numbers, as is each of them.

/// Where the keys of the file are, and how many there are.
pub(crate) fn keys(file: &[u8], allowance: u64) -> Result<([u64; 5], usize), Refusal> {
    let mut keys = [0; 5];
    asked(|row| calls::las_keys(file, allowance, &mut keys, row))
        .map(|count| (keys, in_memory(count)))
}

/// The key with this number, from 0 on; none past the last.
pub(crate) fn keys_at(file: &[u8], keys: &[u64; 5], k: u16) -> Option<[u64; 5]> {
    let mut key = [0; 5];
    let has = calls::las_keys_at(file, keys, k, &mut key);
    (has == 1).then_some(key)
}

/// This key of these; none where they do not have it.
pub(crate) fn keys_find(file: &[u8], keys: &[u64; 5], wanted: u16) -> Option<[u64; 5]> {
    let mut key = [0; 5];
    let has = calls::las_keys_find(file, keys, wanted, &mut key);
    (has == 1).then_some(key)
}

/// This key of the file.
pub(crate) fn key(file: &[u8], allowance: u64, wanted: u16) -> Result<[u64; 5], Refusal> {
    let mut key = [0; 5];
    asked(|row| calls::las_key(file, allowance, wanted, &mut key, row)).map(|_| key)
}

/// The bytes of the directory that was written, from four numbers a key.
pub(crate) fn keys_write(keys: &[u16], dst: &mut [u8]) -> Result<usize, Refusal> {
    asked(|row| calls::las_keys_write(keys, dst, row)).map(in_memory)
}

// Calls on runs of records: a format byte, a count of extra bytes and a count of records.

pub(crate) fn convert_ask_old(src: &[u8], run: (u8, u16, u64)) -> Result<usize, Refusal> {
    asked(|row| calls::las_convert_ask_old(src, run, row)).map(in_memory)
}

pub(crate) fn convert_ask_new(src: &[u8], run: (u8, u16, u64)) -> Result<usize, Refusal> {
    asked(|row| calls::las_convert_ask_new(src, run, row)).map(in_memory)
}

pub(crate) fn convert_to_old(
    src: &[u8],
    run: (u8, u16, u64),
    dst: &mut [u8],
) -> Result<usize, Refusal> {
    asked(|row| calls::las_convert_to_old(src, run, dst, row)).map(in_memory)
}

pub(crate) fn convert_to_new(
    src: &[u8],
    run: (u8, u16, u64),
    dst: &mut [u8],
) -> Result<usize, Refusal> {
    asked(|row| calls::las_convert_to_new(src, run, dst, row)).map(in_memory)
}
