//! The fields of a point that can be written, each by its name.

use super::{
    decimal::{self, Scaled},
    extra::{self, Extras},
    json, near,
    show::plain,
};
use inscjarol::{Attribute, File, Flags, Format, Point, ScanAngle, ScanDirection, Value as Stored};
use std::collections::HashSet;

/// Where a field's value is in a point.
#[derive(Clone, Copy)]
enum Get {
    /// Along an axis, counted from 0.
    Coordinate(usize, fn(&Point<'_>) -> i32),
    Whole(fn(&Point<'_>) -> Option<i64>),
    Large(fn(&Point<'_>) -> Option<u64>),
    Is(fn(&Point<'_>) -> bool),
    Double(fn(&Point<'_>) -> Option<f64>),
    Single(fn(&Point<'_>) -> Option<f32>),
    Angle,
    /// All extra bytes.
    Bytes,
}

/// Whether a format has a field.
type Has = fn(&Format) -> bool;

const ALWAYS: Has = |_| true;
const EXTENDED: Has = |format| format.is_extended;
const TIME: Has = |format| format.has_gps_time;
const COLOR: Has = |format| format.has_color;
const NIR: Has = |format| format.has_nir;
const WAVEFORM: Has = |format| format.has_waveform;
const EXTRA: Has = |format| format.extra_bytes > 0;

/// A field of the standard: its name, other names that it goes by, what it is, which formats have it, and where it is.
struct Standard(
    &'static str,
    &'static [&'static str],
    &'static str,
    Has,
    Get,
);

/// The standard's fields.
#[rustfmt::skip]
const FIELDS: &[Standard] = &[
    Standard("x", &[], "coordinate", ALWAYS, Get::Coordinate(0, |p| p.x)),
    Standard("y", &[], "coordinate", ALWAYS, Get::Coordinate(1, |p| p.y)),
    Standard("z", &[], "coordinate", ALWAYS, Get::Coordinate(2, |p| p.z)),
    Standard("intensity", &[], "strength of the return", ALWAYS, whole(|p| Some(p.intensity.into()))),
    Standard("return_number", &["return"], "which return of its pulse", ALWAYS, whole(|p| Some(p.flags.return_number().into()))),
    Standard("number_of_returns", &["returns"], "how many returns its pulse had", ALWAYS, whole(|p| Some(p.flags.number_of_returns().into()))),
    Standard("scan_direction", &[], "1 from left to right, 0 from right to left", ALWAYS, whole(|p| Some(i64::from(p.flags.scan_direction() == ScanDirection::LeftToRight)))),
    Standard("edge_of_flight_line", &["edge"], "at the end of a scan", ALWAYS, Get::Is(|p| p.flags.is_edge_of_flight_line())),
    Standard("classification", &["class"], "class", ALWAYS, whole(|p| Some(p.flags.class().into()))),
    Standard("synthetic", &[], "not made by scanning", ALWAYS, Get::Is(|p| p.flags.is_synthetic())),
    Standard("key_point", &[], "a key point of a model", ALWAYS, Get::Is(|p| p.flags.is_key_point())),
    Standard("withheld", &[], "as if deleted", ALWAYS, Get::Is(|p| p.flags.is_withheld())),
    Standard("overlap", &[], "where flight lines overlap", ALWAYS, Get::Is(|p| p.flags.is_overlap())),
    Standard("scanner_channel", &["channel"], "which scanner, in formats 6 to 10", EXTENDED, whole(channel)),
    Standard("scan_angle", &["angle"], "degrees", ALWAYS, Get::Angle),
    Standard("user_data", &[], "what the user keeps there", ALWAYS, whole(|p| Some(p.user_data.into()))),
    Standard("point_source_id", &["source_id"], "where it comes from, as the flight line", ALWAYS, whole(|p| Some(p.point_source_id.into()))),
    Standard("gps_time", &["time"], "seconds", TIME, Get::Double(|p| p.gps_time)),
    Standard("red", &[], "colour", COLOR, whole(|p| Some(p.color?.red.into()))),
    Standard("green", &[], "colour", COLOR, whole(|p| Some(p.color?.green.into()))),
    Standard("blue", &[], "colour", COLOR, whole(|p| Some(p.color?.blue.into()))),
    Standard("nir", &["near_infrared"], "near infrared, of which 0 is a number too", NIR, whole(|p| Some(p.nir?.into()))),
    Standard("wave_index", &[], "which wave packet descriptor", WAVEFORM, whole(|p| Some(p.waveform?.wave_packet_descriptor_index.into()))),
    Standard("wave_offset", &[], "first byte of the wave packet", WAVEFORM, Get::Large(|p| Some(p.waveform?.byte_offset_to_waveform_data))),
    Standard("wave_size", &[], "bytes of the wave packet", WAVEFORM, whole(|p| Some(p.waveform?.waveform_packet_size_in_bytes.into()))),
    Standard("wave_location", &[], "where in the waveform, in picoseconds", WAVEFORM, Get::Single(|p| Some(p.waveform?.return_point_waveform_location))),
    Standard("wave_x_t", &[], "change of x a picosecond", WAVEFORM, Get::Single(|p| Some(p.waveform?.x_t))),
    Standard("wave_y_t", &[], "change of y a picosecond", WAVEFORM, Get::Single(|p| Some(p.waveform?.y_t))),
    Standard("wave_z_t", &[], "change of z a picosecond", WAVEFORM, Get::Single(|p| Some(p.waveform?.z_t))),
    Standard("extra", &[], "all extra bytes, in hexadecimal", EXTRA, Get::Bytes),
];

const fn whole(get: fn(&Point<'_>) -> Option<i64>) -> Get {
    Get::Whole(get)
}

/// The scanner channel, which the flags of old formats do not have.
fn channel(point: &Point<'_>) -> Option<i64> {
    match point.flags {
        Flags::ThreeByte(..) => Some(point.flags.scanner_channel().into()),
        Flags::TwoByte(..) => None,
    }
}

/// The fields that are written where none are chosen, as far as the format has them.
const USUAL: &[&str] = &[
    "x",
    "y",
    "z",
    "intensity",
    "return_number",
    "number_of_returns",
    "classification",
    "gps_time",
    "red",
    "green",
    "blue",
];

/// The names of the standard's fields.
fn names() -> impl Iterator<Item = &'static str> {
    FIELDS.iter().map(|Standard(name, ..)| *name)
}

/// Each field of the standard: its name, its type in JSON, and what it is.
pub(crate) fn documented() -> impl Iterator<Item = (&'static str, &'static str, String)> {
    FIELDS
        .iter()
        .map(|Standard(name, others, words, has, get)| {
            let of = match get {
                Get::Is(_) => "true or false",
                Get::Bytes => "text",
                // A format that has nothing else has what all have.
                Get::Whole(_) | Get::Large(_) | Get::Angle if has(&Format::default()) => "number",
                _ => "number or null",
            };
            let others = match others.join(", ") {
                others if others.is_empty() => others,
                others => format!("; also called {others}"),
            };
            (*name, of, format!("{words}{others}"))
        })
}

/// The same as lines for people.
pub(crate) fn listed() -> String {
    let lines: Vec<String> = documented()
        .map(|(name, _, words)| format!("  {name:<20} {words}"))
        .collect();
    lines.join("\n")
}

/// Which fields are to be written, as it was asked for.
#[derive(Debug, PartialEq, Eq)]
pub(crate) enum Choice {
    Usual,
    All,
    Named(Vec<String>),
}

impl Choice {
    /// The choice of a list of names with commas, or of `all`; none is the usual one.
    pub(crate) fn new(list: Option<&str>) -> Result<Choice, String> {
        let list = match list {
            None => return Ok(Choice::Usual),
            Some("all") => return Ok(Choice::All),
            Some(list) => list,
        };
        let names: Vec<String> = list
            .split(',')
            .map(|name| name.trim().to_string())
            .collect();
        if names.iter().any(String::is_empty) {
            return Err(format!(
                "--fields needs names with commas between, as x,y,z, and '{list}' has an empty one"
            ));
        }
        let mut seen = HashSet::new();
        match names.iter().find(|name| !seen.insert(*name)) {
            Some(name) => Err(twice(name)),
            None => Ok(Choice::Named(names)),
        }
    }
}

fn twice(name: &str) -> String {
    format!("--fields names {name} twice")
}

/// What writes points: the columns that were chosen.
pub(crate) struct Row<'a> {
    columns: Vec<Column<'a>>,
    scratch: Vec<u8>,
}

/// A column: a field and how its values are written.
struct Column<'a> {
    name: String,
    /// What stands before a value in JSON.
    key: Vec<u8>,
    value: Value<'a>,
}

/// How a column's values are written.
enum Value<'a> {
    Of(Get),
    Scaled(fn(&Point<'_>) -> i32, Scaled),
    Degrees,
    Attribute(Box<Attribute<'a>>, Form),
}

/// How the values of an attribute are written.
enum Form {
    /// As they are stored.
    Stored,
    /// Whole numbers, scaled.
    Scaled(Scaled),
    /// Floats, scaled: scale and offset.
    ScaledFloat(f64, f64),
}

impl Form {
    fn new(attribute: &Attribute<'_>, raw: bool) -> Form {
        let (scale, offset) = match (
            attribute.descriptor().scale(),
            attribute.descriptor().offset(),
        ) {
            (None, None) => return Form::Stored,
            (scale, offset) => (scale.unwrap_or(1.0), offset.unwrap_or(0.0)),
        };
        match (raw, extra::range(attribute.data_type())) {
            (true, _) => Form::Stored,
            (false, Some(range)) => Form::Scaled(Scaled::new(scale, offset, range)),
            (false, None) => Form::ScaledFloat(scale, offset),
        }
    }
}

impl<'a> Column<'a> {
    fn new(name: &str, value: Value<'a>) -> Column<'a> {
        Column {
            name: name.to_string(),
            key: format!("{}:", json::quoted(name)).into_bytes(),
            value,
        }
    }
}

/// An attribute with the name that it has among the fields.
type Named<'a> = (String, Attribute<'a>);

/// The attributes with names that no two share, with the standard's fields or with each other, and that steer no terminal.
fn with_names<'a>(attributes: &[Attribute<'a>]) -> Vec<Named<'a>> {
    let mut taken: HashSet<String> = names().map(String::from).collect();
    let mut named = Vec::new();
    for attribute in attributes {
        let own = match plain(&attribute.name()) {
            name if name.trim().is_empty() => String::from("unnamed"),
            name => name,
        };
        let mut name = own.clone();
        let mut number = 1_u64;
        while !taken.insert(name.clone()) {
            number = number.saturating_add(1);
            name = format!("{own}_{number}");
        }
        named.push((name, *attribute));
    }
    named
}

impl<'a> Row<'a> {
    /// The columns of this choice for the points of a file, which has these attributes.
    pub(crate) fn new(
        choice: &Choice,
        raw: bool,
        file: &File<'a>,
        extras: &Extras<'a>,
    ) -> Result<Row<'a>, String> {
        let (header, format) = (file.header(), &file.format());
        let attributes = with_names(&extras.attributes);
        let standard = |Standard(name, _, _, _, get): &Standard| {
            let axes = [
                (header.x_scale_factor, header.x_offset),
                (header.y_scale_factor, header.y_offset),
                (header.z_scale_factor, header.z_offset),
            ];
            let value = match *get {
                Get::Coordinate(axis, stored) if !raw => {
                    let (scale, offset) = axes.get(axis).copied().unwrap_or((1.0, 0.0));
                    let range = (i128::from(i32::MIN), i128::from(i32::MAX));
                    Value::Scaled(stored, Scaled::new(scale, offset, range))
                }
                Get::Angle if !raw => Value::Degrees,
                get => Value::Of(get),
            };
            Column::new(name, value)
        };
        let described = |(name, attribute): &Named<'a>| {
            let form = Form::new(attribute, raw);
            Column::new(name, Value::Attribute(Box::new(*attribute), form))
        };
        let has = |field: &&Standard| (field.3)(format);
        let columns: Vec<Column<'a>> = match choice {
            Choice::Usual => FIELDS
                .iter()
                .filter(|Standard(name, ..)| USUAL.contains(name))
                .filter(has)
                .map(standard)
                .collect(),
            Choice::All => {
                let sizes = attributes.iter().map(|(_, of)| of.data_type().size());
                let told: usize = sizes.sum();
                let all_told = told == usize::from(format.extra_bytes);
                FIELDS
                    .iter()
                    .filter(|field| field.0 != "extra" || !all_told)
                    .filter(has)
                    .map(standard)
                    .chain(attributes.iter().map(described))
                    .collect()
            }
            Choice::Named(chosen) => {
                let mut columns: Vec<Column<'a>> = Vec::new();
                for name in chosen {
                    let column = match found(name, &attributes) {
                        Some(Found::Standard(field)) => standard(field),
                        Some(Found::Attribute(attribute)) => described(attribute),
                        None => return Err(unknown(name, &attributes, extras)),
                    };
                    if columns.iter().any(|other| other.name == column.name) {
                        return Err(twice(&column.name));
                    }
                    columns.push(column);
                }
                columns
            }
        };
        Ok(Row {
            columns,
            scratch: Vec::new(),
        })
    }

    /// The names of its columns, in their order.
    pub(crate) fn names(&self) -> impl Iterator<Item = &str> {
        self.columns.iter().map(|column| column.name.as_str())
    }

    /// The names of those that are fields of the standard.
    pub(crate) fn standard_names(&self) -> impl Iterator<Item = &str> {
        let is_standard = |column: &&Column<'_>| !matches!(column.value, Value::Attribute(..));
        let columns = self.columns.iter().filter(is_standard);
        columns.map(|column| column.name.as_str())
    }

    /// The line of names.
    pub(crate) fn heading(&self) -> String {
        let names: Vec<String> = self.names().map(csv).collect();
        names.join(",")
    }

    /// A point, which has this number in the file, as a line of CSV, at the end of `to`.
    pub(crate) fn csv(&mut self, number: u64, point: &Point<'_>, to: &mut Vec<u8>) {
        let mut first = true;
        for column in &self.columns {
            if !first {
                to.push(b',');
            }
            first = false;
            column
                .value
                .write(number, point, false, &mut self.scratch, to);
        }
        to.push(b'\n');
    }

    /// A point, which has this number in the file, as a line of JSON, at the end of `to`.
    pub(crate) fn json(&mut self, number: u64, point: &Point<'_>, to: &mut Vec<u8>) {
        let mut before = b'{';
        for column in &self.columns {
            to.push(before);
            before = b',';
            to.extend_from_slice(&column.key);
            let value = &column.value;
            if !value.write(number, point, true, &mut self.scratch, to) {
                to.extend_from_slice(b"null");
            }
        }
        to.extend_from_slice(b"}\n");
    }
}

impl Value<'_> {
    /// Writes the value of a point, which has this number in the file, and answers whether there is one.
    #[inline]
    fn write(
        &self,
        number: u64,
        point: &Point<'_>,
        json: bool,
        scratch: &mut Vec<u8>,
        to: &mut Vec<u8>,
    ) -> bool {
        match self {
            Value::Scaled(stored, scaled) => scaled.write(stored(point).into(), to),
            Value::Of(get) => get.write(point, json, to),
            // A rank is whole degrees, and the other angle counts steps of 0.006.
            Value::Degrees => {
                match point.scan_angle {
                    ScanAngle::Rank(rank) => decimal::whole(rank.into(), to),
                    ScanAngle::Scaled(n) => decimal::decimal(i64::from(n).saturating_mul(6), 3, to),
                }
                true
            }
            Value::Attribute(attribute, form) => {
                let stored = attribute.value(number);
                stored.map_or(false, |stored| form.write(stored, json, scratch, to))
            }
        }
    }
}

impl Get {
    /// Writes the value as it is stored.
    fn write(self, point: &Point<'_>, json: bool, to: &mut Vec<u8>) -> bool {
        match self {
            Get::Coordinate(_, stored) => given(Some(stored(point).into()), decimal::whole, to),
            Get::Whole(get) => given(get(point), decimal::whole, to),
            Get::Large(get) => given(get(point), decimal::unsigned, to),
            Get::Is(get) => {
                let is = get(point);
                match json {
                    true => to.extend_from_slice(if is { b"true" } else { b"false" }),
                    false => to.push(if is { b'1' } else { b'0' }),
                }
                true
            }
            Get::Double(get) => {
                let number = get(point).filter(|number| !json || number.is_finite());
                given(number, decimal::float, to)
            }
            Get::Single(get) => {
                let number = get(point).filter(|number| !json || number.is_finite());
                given(number, decimal::float_of_32, to)
            }
            Get::Angle => {
                let stored = match point.scan_angle {
                    ScanAngle::Rank(rank) => i64::from(rank),
                    ScanAngle::Scaled(scaled) => i64::from(scaled),
                };
                given(Some(stored), decimal::whole, to)
            }
            Get::Bytes => {
                hex(point.extra_bytes, json, to);
                true
            }
        }
    }
}

impl Form {
    /// Writes a value that is stored so.
    fn write(
        &self,
        stored: Stored<'_>,
        json: bool,
        scratch: &mut Vec<u8>,
        to: &mut Vec<u8>,
    ) -> bool {
        let real = |number: f64, to: &mut Vec<u8>| {
            let number = Some(number).filter(|number| !json || number.is_finite());
            given(number, decimal::float, to)
        };
        match (self, stored) {
            (_, Stored::Bytes(bytes)) => {
                hex(bytes, json, to);
                true
            }
            (Form::Scaled(scaled), stored) => {
                extra::whole(stored).map_or(false, |stored| scaled.write(stored, to))
            }
            (Form::ScaledFloat(scale, offset), Stored::F32(number)) => {
                real(decimal::widened(number, scratch) * scale + offset, to)
            }
            (Form::ScaledFloat(scale, offset), stored) => {
                let number = stored.to_f64();
                number.map_or(false, |number| real(number * scale + offset, to))
            }
            (Form::Stored, Stored::F32(number)) => {
                let number = Some(number).filter(|number| !json || number.is_finite());
                given(number, decimal::float_of_32, to)
            }
            (Form::Stored, stored) => match stored.widened() {
                Stored::U64(n) => given(Some(n), decimal::unsigned, to),
                Stored::I64(n) => given(Some(n), decimal::whole, to),
                Stored::F64(number) => real(number, to),
                _ => false,
            },
        }
    }
}

/// Writes a number, if there is one, and answers whether there is.
fn given<N>(number: Option<N>, write: fn(N, &mut Vec<u8>), to: &mut Vec<u8>) -> bool {
    match number {
        Some(number) => {
            write(number, to);
            true
        }
        None => false,
    }
}

/// Writes bytes in hexadecimal digits.
fn hex(bytes: &[u8], json: bool, to: &mut Vec<u8>) {
    let digit = |n: u8| match n {
        0..=9 => b'0'.wrapping_add(n),
        _ => b'a'.wrapping_add(n.wrapping_sub(10)),
    };
    if json {
        to.push(b'"');
    }
    for byte in bytes {
        to.push(digit(byte >> 4));
        to.push(digit(byte & 0xf));
    }
    if json {
        to.push(b'"');
    }
}

/// A text as CSV has it.
fn csv(text: &str) -> String {
    match text.contains(['"', ',', '\n', '\r']) {
        true => format!("\"{}\"", text.replace('"', "\"\"")),
        false => text.to_string(),
    }
}

/// A field that was found by its name.
enum Found<'n, 'a> {
    Standard(&'static Standard),
    Attribute(&'n Named<'a>),
}

/// The field of this name: as it is written, or else in letters of either size, or by another of its names.
fn found<'n, 'a>(name: &str, attributes: &'n [Named<'a>]) -> Option<Found<'n, 'a>> {
    let exact = |other: &str| other == name;
    let like = |other: &str| other.eq_ignore_ascii_case(name);
    let of_standard = |same: &dyn Fn(&str) -> bool| {
        let field = FIELDS.iter().find(|Standard(own, ..)| same(own));
        field.map(Found::Standard)
    };
    let of_file = |same: &dyn Fn(&str) -> bool| {
        let attribute = attributes.iter().find(|(own, _)| same(own));
        attribute.map(Found::Attribute)
    };
    let by_another = || {
        let field = FIELDS
            .iter()
            .find(|Standard(_, others, ..)| others.iter().any(|other| like(other)));
        field.map(Found::Standard)
    };
    of_standard(&exact)
        .or_else(|| of_file(&exact))
        .or_else(|| of_standard(&like))
        .or_else(|| of_file(&like))
        .or_else(by_another)
}

/// That there is no such field, and what could be meant; or why the file has no attributes, of which it could be one.
fn unknown(name: &str, attributes: &[Named<'_>], extras: &Extras<'_>) -> String {
    let standard: Vec<&str> = names().collect();
    let described: Vec<&str> = attributes.iter().map(|(name, _)| name.as_str()).collect();
    let others = FIELDS.iter().flat_map(|Standard(_, others, ..)| *others);
    let all = standard.iter().chain(&described).chain(others);
    let mut words = format!("there is no field '{name}'");
    if let Some(near) = near::nearest(name, all.copied()) {
        words.push_str(&format!(
            "; did you mean {near}? 'inscjarol help points' tells all fields"
        ));
        return words;
    }
    words.push_str(&format!("; there are {}", standard.join(", ")));
    if !described.is_empty() {
        words.push_str(&format!("; and in this file {}", described.join(", ")));
    }
    if let Some(refusal) = &extras.refusal {
        words.push_str(&format!("; and in this file no attributes: {refusal}"));
    }
    words
}

#[cfg(test)]
mod tests {
    use super::*;
    use inscjarol::{Header, LargeFile, Version, Vlr};

    /// A file of LAS 1.4 with one point of a format, whose extra bytes are described by these descriptors.
    fn file(code: u8, descriptors: &[u8], point: Point<'_>) -> Vec<u8> {
        let extra_bytes = point.extra_bytes.len() as u16;
        let format = Format::new(code).unwrap().with_extra_bytes(extra_bytes);
        let vlr = Vlr::new(false, "LASF_Spec", 4, "", descriptors);
        let mut header = Header::new(Version { major: 1, minor: 4 }).unwrap();
        header.x_scale_factor = 0.01;
        header.x_offset = 10.0;
        header.y_scale_factor = 1.0;
        header.z_scale_factor = f64::NAN;
        header.offset_to_point_data += vlr.size() as u32;
        header.number_of_variable_length_records = 1;
        header.point_data_record_format = code;
        header.point_data_record_length = format.len().unwrap();
        header.large_file = Some(LargeFile {
            number_of_point_records: 1,
            ..LargeFile::default()
        });
        let parts = [header.to_vec(&[]), vlr.to_vec(), point.to_vec(format)];
        parts.map(Result::unwrap).concat()
    }

    /// What is written of the point of a file, under its heading.
    fn written(
        bytes: &[u8],
        choice: Option<&str>,
        raw: bool,
        json: bool,
    ) -> Result<(String, String), String> {
        let file = File::check(bytes).unwrap();
        let mut row = Row::new(&Choice::new(choice)?, raw, &file, &Extras::of(&file))?;
        let point = file.points().next().unwrap();
        let mut to = Vec::new();
        match json {
            true => row.json(1, &point, &mut to),
            false => row.csv(1, &point, &mut to),
        }
        Ok((row.heading(), String::from_utf8(to).unwrap()))
    }

    fn heading(choice: Option<&str>, code: u8) -> Result<String, String> {
        let bytes = file(code, &[], Point::default());
        written(&bytes, choice, false, false).map(|(heading, _)| heading)
    }

    fn line(choice: &str, raw: bool, json: bool) -> String {
        let point = Point {
            x: 5,
            y: -7,
            z: 9,
            flags: Flags::ThreeByte(0x21, 0xc8, 2),
            scan_angle: ScanAngle::Scaled(-251),
            gps_time: Some(12.5),
            extra_bytes: b"\x01\xff",
            ..Point::default()
        };
        let bytes = file(6, &[], point);
        written(&bytes, Some(choice), raw, json).unwrap().1
    }

    #[test]
    fn scaled_and_raw() {
        assert_eq!(line("x,y,z,scan_angle", false, false), "10.05,-7,,-1.506\n");
        assert_eq!(line("x,y,z,scan_angle", true, false), "5,-7,9,-251\n");
        assert_eq!(line("x,z", false, true), "{\"x\":10.05,\"z\":null}\n");
    }

    #[test]
    fn flags_time_and_what_is_missing() {
        assert_eq!(
            line("return_number,number_of_returns,classification,overlap,scan_direction,edge_of_flight_line", false, false),
            "1,2,2,1,1,1\n"
        );
        assert_eq!(
            line("gps_time, red,nir,wave_x_t,extra", false, false),
            "12.5,,,,01ff\n"
        );
        assert_eq!(
            line("gps_time,red,withheld,extra", false, true),
            "{\"gps_time\":12.5,\"red\":null,\"withheld\":false,\"extra\":\"01ff\"}\n"
        );
    }

    #[test]
    fn choices() {
        assert_eq!(
            heading(None, 0),
            Ok("x,y,z,intensity,return_number,number_of_returns,classification".into())
        );
        assert!(heading(None, 3)
            .unwrap()
            .ends_with("gps_time,red,green,blue"));
        let all = heading(Some("all"), 10).unwrap();
        assert!(all.contains("scanner_channel,scan_angle,user_data") && all.ends_with("wave_z_t"));
        assert!(!heading(Some("all"), 1).unwrap().contains("scanner_channel"));
        let refused = |choice| heading(Some(choice), 1).unwrap_err();
        assert!(refused("x,intesity").contains("no field 'intesity'; did you mean intensity?"));
        assert!(refused("x,something").contains("no field 'something'; there are x, y"));
        assert_eq!(refused("x,y,x"), "--fields names x twice");
        assert_eq!(refused("x,X"), "--fields names x twice");
        assert!(refused("x,,y").contains("has an empty one"));
    }

    #[test]
    fn other_names() {
        let heading = |choice| heading(Some(choice), 3).unwrap();
        assert_eq!(heading("X,Y,Z,class"), "x,y,z,classification");
        assert_eq!(
            heading("GPS_Time,Intensity,angle"),
            "gps_time,intensity,scan_angle"
        );
        // No name is two fields'.
        let mut all: Vec<&str> = names().collect();
        all.extend(FIELDS.iter().flat_map(|Standard(_, others, ..)| *others));
        let distinct: HashSet<&&str> = all.iter().collect();
        assert_eq!(distinct.len(), all.len());
    }

    fn description(data_type: u8, options: u8, name: &str, scale: f64, offset: f64) -> Vec<u8> {
        let mut bytes = vec![0; 192];
        bytes[2] = data_type;
        bytes[3] = options;
        bytes[4..4 + name.len()].copy_from_slice(name.as_bytes());
        bytes[112..120].copy_from_slice(&scale.to_le_bytes());
        bytes[136..144].copy_from_slice(&offset.to_le_bytes());
        bytes
    }

    /// What is written of extra bytes of this description.
    fn extra(description: &[u8], raw: bool, extra_bytes: &[u8]) -> String {
        let point = Point {
            extra_bytes,
            ..Point::default()
        };
        let bytes = file(0, description, point);
        let (_, line) = written(&bytes, Some("a"), raw, false).unwrap();
        line.trim_end().to_string()
    }

    #[test]
    fn extra_bytes_of_one_form() {
        let plain = |data_type, bytes: &[u8]| {
            extra(&description(data_type, 0, "a", 0.5, 1.0), false, bytes)
        };
        assert_eq!(plain(9, &0.1_f32.to_le_bytes()), "0.1");
        assert_eq!(plain(10, &0.1_f64.to_le_bytes()), "0.1");
        assert_eq!(plain(10, &1e300_f64.to_le_bytes()), "1e300");
        assert_eq!(plain(10, &2_f64.to_le_bytes()), "2.0");
        assert_eq!(plain(7, &u64::MAX.to_le_bytes()), u64::MAX.to_string());
        assert_eq!(plain(8, &(-5_i64).to_le_bytes()), "-5");
        let scaled = |data_type, bytes: &[u8]| {
            let description = description(data_type, 0x18, "a", 0.125, 4e6);
            extra(&description, false, bytes)
        };
        assert_eq!(scaled(5, &800_u32.to_le_bytes()), "4000100.000");
        assert_eq!(scaled(5, &u32::MAX.to_le_bytes()), "540870911.875");
        assert_eq!(scaled(7, &799_u64.to_le_bytes()), "4000099.875");
        assert_eq!(
            scaled(7, &(1_u64 << 63).to_le_bytes()),
            "1152921504610846976.000"
        );
        assert_eq!(scaled(9, &0.8_f32.to_le_bytes()), "4000000.1");
        assert_eq!(
            extra(&description(5, 0x18, "a", 0.125, 4e6), true, &[1, 0, 0, 0]),
            "1"
        );
    }

    #[test]
    fn names_that_would_be_there_twice() {
        let mut data = description(1, 0, "intensity", 0.0, 0.0);
        for name in ["a", "a", "", "b\x1b[2J", "a_2", ""] {
            data.extend(description(1, 0, name, 0.0, 0.0));
        }
        let point = Point {
            extra_bytes: &[1, 2, 3, 4, 5, 6, 7],
            ..Point::default()
        };
        let bytes = file(0, &data, point);
        let file = File::check(&bytes).unwrap();
        let names: Vec<String> = with_names(&Extras::of(&file).attributes)
            .into_iter()
            .map(|(name, _)| name)
            .collect();
        assert_eq!(
            names,
            [
                "intensity_2",
                "a",
                "a_2",
                "unnamed",
                "b\u{fffd}[2J",
                "a_2_2",
                "unnamed_2"
            ]
        );
        let (heading, line) = written(&bytes, Some("all"), false, false).unwrap();
        let distinct: HashSet<&str> = heading.split(',').collect();
        assert_eq!(distinct.len(), line.split(',').count());
        assert_eq!(
            written(&bytes, Some("intensity,intensity_2,a_2"), false, false),
            Ok(("intensity,intensity_2,a_2".into(), "0,1,3\n".into()))
        );
    }

    #[test]
    fn why_there_are_no_attributes() {
        let point = Point {
            extra_bytes: &[1],
            ..Point::default()
        };
        let mut array = description(1, 0, "a", 0.0, 0.0);
        array[2] = 11;
        for (descriptors, words) in [
            (&array[..], "a data type above 10"),
            (&array[1..], "is not a multiple of 192"),
            (
                &description(3, 0, "a", 0.0, 0.0),
                "more bytes than a point record has",
            ),
        ] {
            let bytes = file(0, descriptors, point);
            let refused = written(&bytes, Some("reflectance"), false, false).unwrap_err();
            assert!(
                refused.contains("no field 'reflectance'; there are x, y")
                    && refused.contains("; and in this file no attributes: ")
                    && refused.contains(words),
                "{refused}"
            );
            // The bytes are there all the same.
            let all = written(&bytes, Some("all"), false, false).unwrap();
            assert!(
                all.0.ends_with(",extra") && all.1.ends_with(",01\n"),
                "{all:?}"
            );
        }
    }

    #[test]
    fn usual_names_are_names() {
        assert!(USUAL.iter().all(|usual| names().any(|name| name == *usual)));
    }

    #[test]
    fn names_with_commas_are_quoted() {
        assert_eq!(csv("a,\"b\""), "\"a,\"\"b\"\"\"");
        assert_eq!(csv("plain"), "plain");
    }
}
