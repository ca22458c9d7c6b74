//! What `--json` prints, field by field; a test holds it to what is printed.

use super::fields;
use std::fmt::Write;

/// The fields of an object: where each is, its type, and what it is.
type Fields = &'static [(&'static str, &'static str, &'static str)];

/// What stands before the fields.
const BEGIN: &str = "\
inscjarol help json: what --json prints

Each line of the standard output is an object of its own, in the order of the files. Its fields come in the order in
which they are told here. Numbers are whole but for scale, offset, min, max, doubles and those of points; counts may be
as large as 2^64 - 1. Texts are UTF-8: bytes of a file or of a name that are none are shown as replacement characters.
A.B is the field B of the object A, and A[].B that of each object in the list A. Later versions may add fields.
";

const NAME: (&str, &str, &str) = (
    "file",
    "text",
    "the name as it was given, or 'standard input'",
);
const ACCEPTED: (&str, &str, &str) = ("accepted", "true", "it is a whole LAS file");
const NOT_ACCEPTED: (&str, &str, &str) = ("accepted", "false", "it is none");
const NUMBER: (&str, &str, &str) = (
    "refusal.number",
    "number",
    "1 to 50, by the library's table",
);
const KIND: (&str, &str, &str) = ("refusal.name", "text", "what the table calls it");
const VALUE: (&str, &str, &str) = (
    "refusal.value",
    "number",
    "the number that was found or is needed",
);
const RECORD: (&str, &str, &str) = (
    "refusal.record",
    "number",
    "the VLR, EVLR or waveform record, counted from 1, or 0",
);
const POINT: (&str, &str, &str) = (
    "refusal.record",
    "number",
    "the first point that cannot, counted from 1, or 0",
);
const WORDS: (&str, &str, &str) = ("refusal.words", "text", "a sentence");
const X: (&str, &str, &str) = (
    "x",
    "number or null",
    "where it lies; null where no point is told",
);
const Y: (&str, &str, &str) = ("y", "number or null", "");
const Z: (&str, &str, &str) = ("z", "number or null", "");
const FORMAT: (&str, &str, &str) = ("format", "number", "point format, 0 to 10");
const POINTS: (&str, &str, &str) = ("points", "number", "points");
const POINT_NUMBER: (&str, &str, &str) = ("point", "number", "counted from 1");
const CLASS: (&str, &str, &str) = ("class", "number", "the class that was asked for");
const TO_FORMAT: (&str, &str, &str) = ("to_format", "number", "the format that they go to");
const TO_VERSION: (&str, &str, &str) = ("to_version", "text", "the version that it goes to");
const SAYS: (&str, &str, &str) = (
    "says",
    "text or null",
    "keys or WKT, whichever counts; null where neither does",
);
const WKT_BIT: (&str, &str, &str) = (
    "wkt_bit",
    "true or false",
    "bit 4 of global encoding, by which WKT counts",
);
const WKT: (&str, &str, &str) = ("wkt", "text or null", "as it stands");
const WKT_IN: (&str, &str, &str) = ("wkt_in", "text or null", "VLR or EVLR");
const TRANSFORM: (&str, &str, &str) = ("math_transform", "text or null", "as it stands");

/// Every object that there is, with what it is printed for.
const OBJECTS: &[(&str, Fields)] = &[
    (
        "every command, for a file that cannot be read or written:",
        &[NAME, ("error", "text", "why, in words")],
    ),
    (
        "check, for a file that is accepted:",
        &[
            NAME,
            ACCEPTED,
            ("bytes", "number", "bytes of the file"),
            ("records", "number", "VLRs, EVLRs and waveform records"),
            ("version", "text", "of LAS, as 1.4"),
            FORMAT,
            ("record_length", "number", "bytes of a point"),
            POINTS,
            ("vlrs", "number", "VLRs"),
            ("evlrs", "number", "EVLRs"),
            ("waveforms", "number", "records of waveform packets, 0 or 1"),
        ],
    ),
    (
        "check, for a file that is refused:",
        &[
            NAME,
            NOT_ACCEPTED,
            (
                "bytes",
                "number",
                "bytes that were there; of a stream, that were read",
            ),
            ("records", "number", "such records that were found whole"),
            NUMBER,
            KIND,
            VALUE,
            RECORD,
            WORDS,
        ],
    ),
    (
        "audit, for each finding of a file:",
        &[
            NAME,
            ACCEPTED,
            ("finding.rule", "number", "1 to 5: 'inscjarol help audit'"),
            ("finding.name", "text", "what the rule is called"),
            (
                "finding.part",
                "number",
                "the part, as parts has them, counted from 1",
            ),
            ("finding.kind", "text", "what that part is, as parts has it"),
            ("finding.point", "number", "counted from 1, or 0"),
            (
                "finding.byte",
                "number",
                "first byte of the counter, field or record",
            ),
            ("finding.words", "text", "a sentence"),
        ],
    ),
    (
        "audit, for a file that is accepted, after its findings:",
        &[
            NAME,
            ACCEPTED,
            (
                "findings",
                "number",
                "how many there are, with those that --max leaves out",
            ),
            ("rules[].rule", "number", "each rule in turn, 1 to 5"),
            ("rules[].name", "text", "what it is called"),
            ("rules[].findings", "number", "how many of them are of it"),
        ],
    ),
    (
        "audit, for a file that is refused:",
        &[NAME, NOT_ACCEPTED, NUMBER, KIND, VALUE, RECORD, WORDS],
    ),
    (
        "parts, info, grid, points, sheet and rewrite, for a file that is refused:",
        &[NAME, NOT_ACCEPTED, NUMBER, KIND, VALUE, RECORD, WORDS],
    ),
    (
        "parts, for a file that is accepted:",
        &[
            NAME,
            ACCEPTED,
            (
                "parts[].kind",
                "text",
                "header, vlr, gap, points, evlr or waveform",
            ),
            ("parts[].start", "number", "first byte"),
            ("parts[].length", "number", "bytes"),
        ],
    ),
    (
        "info, for a file that is accepted:",
        &[
            NAME,
            ACCEPTED,
            ("bytes", "number", "bytes of the file"),
            ("version", "text", "of LAS, as 1.4"),
            ("file_source_id", "number", "as in the header"),
            ("global_encoding", "number", "its bits, as in the header"),
            ("project_id", "text or null", "GUID; null where it is zero"),
            ("system_identifier", "text", "as in the header"),
            ("generating_software", "text", "as in the header"),
            ("creation_year", "number", "as in the header"),
            ("creation_day_of_year", "number", "as in the header"),
            ("header_size", "number", "bytes, with padding"),
            ("padding", "number", "bytes of padding"),
            ("point_offset", "number", "first byte of the points"),
            FORMAT,
            ("record_length", "number", "bytes of a point"),
            ("extra_bytes", "number", "how many of them are extra"),
            POINTS,
            ("points_by_return[]", "number", "15, the first return first"),
            (
                "scale[]",
                "number or null",
                "of x, y and z; null for what is no number",
            ),
            ("offset[]", "number or null", "of x, y and z"),
            ("min[]", "number or null", "least x, y and z, by the header"),
            (
                "max[]",
                "number or null",
                "largest x, y and z, by the header",
            ),
            (
                "grid",
                "text",
                "as grid says it, of WKT no more than its name",
            ),
            (
                "waveform_start",
                "number or null",
                "first byte; null before LAS 1.3",
            ),
            ("attributes[].name", "text", "as in its descriptor"),
            ("attributes[].description", "text", "as in its descriptor"),
            (
                "attributes[].data_type",
                "number",
                "0 to 10, by the standard",
            ),
            ("attributes[].type", "text", "as i16, or 3 bytes"),
            ("attributes[].start", "number", "first byte in a point"),
            ("attributes[].length", "number", "bytes in a point"),
            (
                "attributes[].scale",
                "number or null",
                "null where none is said to count",
            ),
            ("attributes[].offset", "number or null", "likewise"),
            (
                "attributes_refused",
                "null",
                "where the descriptors are taken, or there are no extra bytes; else",
            ),
            (
                "attributes_refused.number",
                "number",
                "37 to 40: why there are no attributes",
            ),
            ("attributes_refused.name", "text", "as for refusal"),
            ("attributes_refused.value", "number", "0"),
            ("attributes_refused.record", "number", "0"),
            ("attributes_refused.words", "text", "a sentence"),
            ("vlrs[].user_id", "text", "who defined it"),
            ("vlrs[].record_id", "number", "which of the user's it is"),
            ("vlrs[].description", "text", "as in the file"),
            ("vlrs[].start", "number", "first byte, of its head"),
            ("vlrs[].data_length", "number", "bytes of data"),
            (
                "vlrs[].meaning",
                "text or null",
                "what it is, where that is known",
            ),
            ("evlrs[].user_id", "text", "as for vlrs"),
            ("evlrs[].record_id", "number", ""),
            ("evlrs[].description", "text", ""),
            ("evlrs[].start", "number", ""),
            ("evlrs[].data_length", "number", ""),
            ("evlrs[].meaning", "text or null", ""),
            ("waveforms[].user_id", "text", "as for vlrs; one, or none"),
            ("waveforms[].record_id", "number", ""),
            ("waveforms[].description", "text", ""),
            ("waveforms[].start", "number", ""),
            ("waveforms[].data_length", "number", ""),
            ("waveforms[].meaning", "text or null", ""),
            (
                "gaps[].start",
                "number",
                "first byte that belongs to no part",
            ),
            ("gaps[].length", "number", "bytes"),
        ],
    ),
    (
        "grid, for a file that is accepted:",
        &[
            NAME,
            ACCEPTED,
            SAYS,
            WKT_BIT,
            (
                "horizontal_epsg",
                "number or null",
                "by key 3072, or else 2048; null where there is none of EPSG",
            ),
            ("horizontal_units", "text or null", "in words, as metres"),
            ("vertical_epsg", "number or null", "by key 4096"),
            ("vertical_units", "text or null", "in words"),
            ("keys[].key", "number", "rising"),
            (
                "keys[].name",
                "text or null",
                "GeoTIFF's, where it is known",
            ),
            ("keys[].number", "number", "what it has: a number,"),
            (
                "keys[].doubles[]",
                "number or null",
                "or doubles, null for none,",
            ),
            (
                "keys[].text",
                "text",
                "or a text, without its bar at the end",
            ),
            WKT,
            WKT_IN,
            TRANSFORM,
        ],
    ),
    (
        "grid, for a file whose directory of keys is refused:",
        &[
            NAME,
            ACCEPTED,
            SAYS,
            WKT_BIT,
            ("refusal.number", "number", "43 to 47"),
            KIND,
            ("refusal.value", "number", "0"),
            ("refusal.record", "number", "0"),
            WORDS,
            WKT,
            WKT_IN,
            TRANSFORM,
        ],
    ),
    (
        "sheet, for a file that was counted:",
        &[NAME, ACCEPTED, FORMAT, POINTS],
    ),
    (
        "sheet, after the files:",
        &[
            ("files", "number", "files that were counted"),
            ("refused", "number", "files that were refused"),
            ("points", "number", "points of all files"),
            ("classes[].class", "number", "a class that points have"),
            ("classes[].name", "text", "what the standard calls it"),
            ("classes[].points", "number", "points of it"),
            ("returns[]", "number", "16, return number 0 first"),
            ("bounds", "null", "where there are no points"),
            ("bounds.min[]", "number", "smallest X, Y and Z, as stored"),
            ("bounds.max[]", "number", "largest X, Y and Z, as stored"),
            (
                "scaled",
                "null",
                "without points, or where scales or offsets differ",
            ),
            ("scaled.min[]", "number", "smallest x, y and z"),
            ("scaled.max[]", "number", "largest x, y and z"),
            (
                "out",
                "text or null",
                "the name of the page; null without --html",
            ),
            ("bytes", "number", "bytes of the page, with --html"),
        ],
    ),
    (
        "ask, for a file whose points can go:",
        &[
            NAME,
            ACCEPTED,
            ("can_go", "true", "every point can"),
            FORMAT,
            POINTS,
            TO_FORMAT,
            (
                "to_bytes",
                "number",
                "bytes that the points have then, all together",
            ),
        ],
    ),
    (
        "ask with --to 1.2 or 1.4, for a file that can go:",
        &[
            NAME,
            ACCEPTED,
            ("can_go", "true", "all of it can"),
            FORMAT,
            POINTS,
            TO_FORMAT,
            TO_VERSION,
            ("to_file_bytes", "number", "bytes that the file has then"),
        ],
    ),
    (
        "ask, for a file that cannot go, or whose points cannot:",
        &[
            NAME,
            ACCEPTED,
            (
                "can_go",
                "false",
                "some point cannot, or the file by its header",
            ),
            FORMAT,
            POINTS,
            NUMBER,
            KIND,
            VALUE,
            POINT,
            WORDS,
            X,
            Y,
            Z,
        ],
    ),
    (
        "ask, for a file that is refused:",
        &[
            NAME,
            NOT_ACCEPTED,
            ("can_go", "false", ""),
            NUMBER,
            KIND,
            VALUE,
            RECORD,
            WORDS,
        ],
    ),
    (
        "convert, for a file that was written:",
        &[
            NAME,
            ACCEPTED,
            ("written", "true", "it went, and is on the disk"),
            FORMAT,
            POINTS,
            TO_FORMAT,
            TO_VERSION,
            ("out", "text", "the name of what was written"),
            ("bytes", "number", "bytes that were written"),
        ],
    ),
    (
        "convert, for a file that cannot go:",
        &[
            NAME,
            ACCEPTED,
            (
                "written",
                "false",
                "some point cannot, or the file by its header",
            ),
            FORMAT,
            POINTS,
            NUMBER,
            KIND,
            VALUE,
            POINT,
            WORDS,
            X,
            Y,
            Z,
        ],
    ),
    (
        "convert, for a file that is refused:",
        &[
            NAME,
            NOT_ACCEPTED,
            ("written", "false", ""),
            NUMBER,
            KIND,
            VALUE,
            RECORD,
            WORDS,
        ],
    ),
    (
        "rewrite, for a file that was written:",
        &[
            NAME,
            ACCEPTED,
            ("out", "text", "the name of OUT as it was given"),
            ("bytes", "number", "bytes that were written"),
            (
                "same_bytes",
                "true or false",
                "whether they are those of IN",
            ),
        ],
    ),
    (
        "append, where it is refused:",
        &[
            NAME,
            (
                "accepted",
                "false",
                "it is none, or does not take the records",
            ),
            NUMBER,
            KIND,
            VALUE,
            RECORD,
            WORDS,
        ],
    ),
    (
        "append, where it is not refused:",
        &[
            NAME,
            ACCEPTED,
            (
                "appended",
                "text or null",
                "added or already in; null without RECORDS",
            ),
            ("records", "number", "records that were offered"),
            ("points", "number", "points that there are now"),
            (
                "room",
                "number",
                "records for which there is room behind them",
            ),
            ("bytes", "number", "bytes of the file"),
        ],
    ),
    (
        "classify, for a point that has its class, or can have it:",
        &[
            NAME,
            ACCEPTED,
            (
                "written",
                "true or false",
                "false with --ask, and where another is refused",
            ),
            POINT_NUMBER,
            ("was", "number", "the class that it had"),
            CLASS,
        ],
    ),
    (
        "classify, for a point that is refused:",
        &[
            NAME,
            ACCEPTED,
            ("written", "false", "nothing was"),
            POINT_NUMBER,
            CLASS,
            NUMBER,
            KIND,
            VALUE,
            ("refusal.record", "number", "0"),
            WORDS,
        ],
    ),
    (
        "classify, for a file that is refused:",
        &[
            NAME,
            NOT_ACCEPTED,
            ("written", "false", ""),
            NUMBER,
            KIND,
            VALUE,
            RECORD,
            WORDS,
        ],
    ),
];

/// All of it.
pub(crate) fn text() -> String {
    let mut text = String::from(BEGIN);
    let line = |text: &mut String, path: &str, of: &str, words: &str| {
        let line = format!("  {path:<26}{of:<16}{words}");
        let _ = writeln!(text, "{}", line.trim_end());
    };
    for (heading, fields) in OBJECTS {
        let _ = writeln!(text, "\n{heading}");
        for (path, of, words) in *fields {
            line(&mut text, path, of, words);
        }
    }
    text.push_str(
        "\npoints, for each point, the fields that were chosen; null where the point has none:\n",
    );
    for (name, of, words) in fields::documented() {
        line(&mut text, name, of, &words);
    }
    text.push_str(
        "\nand the attributes that the file describes: a number or null, or a text of hexadecimal digits where they are bytes\n\
         of which nothing is said.\n",
    );
    text
}

#[cfg(test)]
mod tests {
    use super::*;

    #[test]
    fn it_fits_a_page() {
        let longest = text().lines().map(|line| line.chars().count()).max();
        assert!(longest <= Some(120), "{longest:?}");
    }
}
