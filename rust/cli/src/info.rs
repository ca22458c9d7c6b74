//! `inscjarol info`.

use super::{
    args::Words,
    extra::{self, Extras},
    grid::Grid,
    input::{Files, Name},
    json::{self, Object},
    known,
    output::{refusal_object, Output},
    show::{counted, float, floats, grouped, plain, plain_or_none},
    Command, Failure, Status,
};
use inscjarol::{Attribute, File, Part, PartKind, Vlr};

pub(crate) const COMMAND: Command = Command {
    name: "info",
    operands: "FILE..",
    count: (1, usize::MAX),
    summary: "show header, attributes, VLRs, EVLRs and waveform packets in readable form",
    options: &[],
    help: "\
Shows what the header says: version, software, date, point format, counts, scale, offset and bounds. Counts by return
and bounds are the header's word, not worked out from the points.

Then come the attributes that the extra bytes of every point hold: name, type, scale and offset where they are said to
count, first byte in a point, and description. They are described by the first VLR of LASF_Spec with record id 4; an
EVLR is not looked at. Where one of its descriptors is broken, the points have no attributes by name, and it is said
why; their bytes are there all the same, as the field 'extra' of 'inscjarol points'.

Then come the VLRs and EVLRs, and the waveform packets where they are a record of the file, each with its user id,
record id, description, length and first byte, and what it is where that is known; and the gaps, which are bytes that
belong to no part.

Which grid the points are in is told as 'inscjarol grid' tells it, but of WKT no more than its name.

Each file stands under its name. Of a folder the .las files are shown, in the order of their names.

Examples:
  inscjarol info survey.las
  inscjarol info --json *.las",
    run,
};

fn run(words: &Words, out: &mut Output) -> Result<Status, Failure> {
    let files = Files::of(&words.files);
    let mut first = true;
    let worst = files.each(out, |name, bytes, out| {
        let file = match File::check(bytes) {
            Ok(file) => file,
            Err(refusal) => return out.refused(name, &refusal),
        };
        if out.json {
            out.line(&for_programs(name, &file))?;
            return Ok(Status::Done);
        }
        // Each file under its name, apart from the one before.
        if !first {
            out.line("")?;
        }
        first = false;
        out.line(&name.to_string())?;
        for_people(&file, out)?;
        Ok(Status::Done)
    })?;
    if let Some(left_out) = files.left_out() {
        out.tell(&left_out);
    }
    Ok(worst)
}

/// A record and where it is.
struct Placed<'a> {
    start: u64,
    vlr: Vlr<'a>,
}

/// The records of a kind with their places.
fn placed<'a>(file: &File<'a>, kind: PartKind) -> Vec<Placed<'a>> {
    let read = |part: Part| {
        let vlr = Vlr::read(file.part(part), kind != PartKind::Vlr).ok()?;
        Some(Placed {
            start: part.start,
            vlr,
        })
    };
    file.parts()
        .filter(|part| part.kind == kind)
        .filter_map(read)
        .collect()
}

/// What a point record of the file has, in words.
fn format_words(file: &File<'_>) -> String {
    let (header, format) = (file.header(), file.format());
    let mut has = vec![match format.is_extended {
        true => "extended flags",
        false => "old flags",
    }];
    let fields = [
        (format.has_gps_time, "GPS time"),
        (format.has_color, "colour"),
        (format.has_nir, "near infrared"),
        (format.has_waveform, "waveform"),
    ];
    has.extend(
        fields
            .iter()
            .filter(|(has, _)| *has)
            .map(|(_, words)| *words),
    );
    format!(
        "{}: {}; {} a record, {} of them extra",
        header.point_data_record_format,
        has.join(", "),
        counted(u64::from(header.point_data_record_length), "byte"),
        format.extra_bytes
    )
}

fn for_people(file: &File<'_>, out: &mut Output) -> Result<(), Failure> {
    let header = file.header();
    let mut say = |what: &str, words: String| out.line(&format!("  {what:<22}{words}"));

    let padding = file.padding().len() as u64;
    let created = known::date(header.file_creation_year, header.file_creation_day_of_year);
    let by_return: Vec<String> = (1..)
        .zip(header.points_by_return())
        .filter(|(_, count)| *count > 0)
        .map(|(number, count): (u8, u64)| format!("{number}: {}", grouped(count)))
        .collect();

    say("bytes", grouped(file.bytes().len() as u64))?;
    say("LAS version", header.version.to_string())?;
    say("file source id", header.file_source_id.to_string())?;
    say(
        "global encoding",
        format!(
            "{} ({})",
            header.global_encoding,
            known::global_encoding(header.global_encoding).join(", ")
        ),
    )?;
    say(
        "project id",
        known::guid(&header.guid).unwrap_or_else(|| String::from("(none)")),
    )?;
    say("system", plain_or_none(&header.system()))?;
    say("software", plain_or_none(&header.software()))?;
    say(
        "created",
        created.unwrap_or_else(|| {
            format!(
                "day {} of {}",
                header.file_creation_day_of_year, header.file_creation_year
            )
        }),
    )?;
    say(
        "header",
        format!(
            "{}, {padding} of them padding",
            counted(u64::from(header.header_size), "byte")
        ),
    )?;
    say("point format", format_words(file))?;
    say(
        "points",
        format!(
            "{} from byte {}",
            grouped(file.point_count()),
            header.offset_to_point_data
        ),
    )?;
    say("points by return", plain_or_none(&by_return.join(", ")))?;
    let (scale, offset) = scale_and_offset(file);
    let bounds = header.bounds();
    say("scale x y z", floats(scale))?;
    say("offset x y z", floats(offset))?;
    for ((axis, from), to) in ["x", "y", "z"].iter().zip(bounds.min).zip(bounds.max) {
        let words = format!("{} {}", float(from), float(to));
        say(&format!("{axis} from, to"), words)?;
    }
    say("grid", Grid::of(file).in_brief())?;
    if let Some(start) = header
        .start_of_waveform_data_packet_record
        .filter(|start| *start > 0)
    {
        say("waveform data", format!("from byte {start}"))?;
    }

    attributes_for_people(file, out)?;
    for (kind, heading) in [
        (PartKind::Vlr, "VLRs"),
        (PartKind::Evlr, "EVLRs"),
        (PartKind::Waveform, "waveform packets"),
    ] {
        let records = placed(file, kind);
        if kind == PartKind::Waveform && records.is_empty() {
            continue; // most files have none, and are not said to
        }
        out.line(&format!("  {heading:<22}{}", grouped(records.len() as u64)))?;
        for (number, Placed { start, vlr }) in (1_u64..).zip(&records) {
            let description = vlr.about();
            let mut line = format!(
                "  {number:>4}  {} {}, {} of data, from byte {start}",
                plain_or_none(&vlr.user()),
                vlr.record_id,
                counted(vlr.data.len() as u64, "byte"),
            );
            if !description.is_empty() {
                line.push_str(&format!(", \"{}\"", plain(&description)));
            }
            out.line(&line)?;
            if let Some(meaning) = known::meaning(vlr) {
                out.line(&format!("        {}", plain(&meaning)))?;
            }
        }
    }
    for gap in file.parts().filter(|part| part.kind == PartKind::Gap) {
        out.line(&format!(
            "  {:<22}{} from byte {}",
            "gap",
            counted(gap.len, "byte"),
            gap.start
        ))?;
    }
    Ok(())
}

/// The attributes, or why there are none; nothing where the points have no extra bytes.
fn attributes_for_people(file: &File<'_>, out: &mut Output) -> Result<(), Failure> {
    let extras = Extras::of(file);
    if let Some(refusal) = &extras.refusal {
        return out.line(&format!("  {:<22}none: {refusal}", "attributes"));
    }
    if extras.attributes.is_empty() {
        return Ok(());
    }
    let count = extras.attributes.len() as u64;
    out.line(&format!("  {:<22}{}", "attributes", grouped(count)))?;
    for (number, attribute) in (1_u64..).zip(&extras.attributes) {
        let mut line = format!(
            "  {number:>4}  {}, {}, from byte {} of a point",
            plain_or_none(&attribute.name()),
            extra::words(attribute),
            attribute.start(),
        );
        let about = attribute.descriptor().about();
        if !about.is_empty() {
            line.push_str(&format!(", \"{}\"", plain(&about)));
        }
        out.line(&line)?;
    }
    Ok(())
}

/// What a step is along each axis, and where steps count from.
fn scale_and_offset(file: &File<'_>) -> ([f64; 3], [f64; 3]) {
    let header = file.header();
    (
        [
            header.x_scale_factor,
            header.y_scale_factor,
            header.z_scale_factor,
        ],
        [header.x_offset, header.y_offset, header.z_offset],
    )
}

/// A list of numbers as JSON.
fn numbers(numbers: &[u64]) -> Vec<String> {
    numbers.iter().map(u64::to_string).collect()
}

/// A list of floats as JSON.
fn listed(floats: [f64; 3]) -> Vec<String> {
    floats.into_iter().map(json::float).collect()
}

/// Records of a kind as JSON.
fn records(records: &[Placed<'_>]) -> Vec<String> {
    let record = |Placed { start, vlr }: &Placed<'_>| {
        let mut object = Object::new();
        object
            .text("user_id", &vlr.user())
            .number("record_id", vlr.record_id)
            .text("description", &vlr.about())
            .number("start", *start)
            .number("data_length", vlr.data.len() as u64);
        match known::meaning(vlr) {
            Some(meaning) => object.text("meaning", &meaning),
            None => object.raw("meaning", "null"),
        };
        object.finish()
    };
    records.iter().map(record).collect()
}

/// An attribute as JSON.
fn attribute(attribute: &Attribute<'_>) -> String {
    let descriptor = attribute.descriptor();
    let float_or_null =
        |number: Option<f64>| number.map_or_else(|| String::from("null"), json::float);
    let mut object = Object::new();
    object
        .text("name", &attribute.name())
        .text("description", &descriptor.about())
        .number("data_type", attribute.data_type().number())
        .text("type", &attribute.data_type().to_string())
        .number("start", attribute.start() as u64)
        .number("length", attribute.data_type().size() as u64)
        .raw("scale", float_or_null(descriptor.scale()))
        .raw("offset", float_or_null(descriptor.offset()));
    object.finish()
}

fn for_programs(name: &Name, file: &File<'_>) -> String {
    let header = file.header();
    let extras = Extras::of(file);
    let gaps = file
        .parts()
        .filter(|part| part.kind == PartKind::Gap)
        .map(|gap| {
            let mut object = Object::new();
            object.number("start", gap.start).number("length", gap.len);
            object.finish()
        });
    let (scale, offset) = scale_and_offset(file);
    let bounds = header.bounds();
    let mut object = name.object();
    object
        .bool("accepted", true)
        .number("bytes", file.bytes().len() as u64)
        .text("version", &header.version.to_string())
        .number("file_source_id", header.file_source_id)
        .number("global_encoding", header.global_encoding);
    match known::guid(&header.guid) {
        Some(guid) => object.text("project_id", &guid),
        None => object.raw("project_id", "null"),
    };
    object
        .text("system_identifier", &header.system())
        .text("generating_software", &header.software())
        .number("creation_year", header.file_creation_year)
        .number("creation_day_of_year", header.file_creation_day_of_year)
        .number("header_size", header.header_size)
        .number("padding", file.padding().len() as u64)
        .number("point_offset", header.offset_to_point_data)
        .number("format", header.point_data_record_format)
        .number("record_length", header.point_data_record_length)
        .number("extra_bytes", file.format().extra_bytes)
        .number("points", file.point_count())
        .list("points_by_return", numbers(&header.points_by_return()))
        .list("scale", listed(scale))
        .list("offset", listed(offset))
        .list("min", listed(bounds.min))
        .list("max", listed(bounds.max))
        .text("grid", &Grid::of(file).in_brief());
    match header.start_of_waveform_data_packet_record {
        Some(start) => object.number("waveform_start", start),
        None => object.raw("waveform_start", "null"),
    };
    object.list("attributes", extras.attributes.iter().map(attribute));
    match &extras.refusal {
        Some(refusal) => object.object("attributes_refused", refusal_object(refusal)),
        None => object.raw("attributes_refused", "null"),
    };
    object
        .list("vlrs", records(&placed(file, PartKind::Vlr)))
        .list("evlrs", records(&placed(file, PartKind::Evlr)))
        .list("waveforms", records(&placed(file, PartKind::Waveform)))
        .list("gaps", gaps);
    object.finish()
}
