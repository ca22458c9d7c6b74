//! What the standard says of numbers and records in a header.

use inscjarol::{text, Vlr};

/// The bits of global encoding that the standard names, in words.
pub(crate) fn global_encoding(bits: u16) -> Vec<&'static str> {
    let mut words = vec![match bits & 1 {
        0 => "GPS time of week",
        _ => "adjusted standard GPS time",
    }];
    let named = [
        (1, "waveforms inside the file"),
        (2, "waveforms in a file of their own"),
        (3, "synthetic return numbers"),
        (4, "coordinate system in WKT"),
    ];
    words.extend(
        named
            .iter()
            .filter(|(bit, _)| bits >> bit & 1 == 1)
            .map(|(_, words)| *words),
    );
    words
}

/// A project id as it is usually written; none where all of it is zero.
pub(crate) fn guid(bytes: &[u8; 16]) -> Option<String> {
    if *bytes == [0; 16] {
        return None;
    }
    let [a, b, c, d, e, f, g, h, rest @ ..] = *bytes;
    let first = u32::from_le_bytes([a, b, c, d]);
    let (second, third) = (u16::from_le_bytes([e, f]), u16::from_le_bytes([g, h]));
    let rest: Vec<String> = rest.iter().map(|byte| format!("{byte:02X}")).collect();
    let (fourth, fifth) = rest.split_at(2);
    Some(format!(
        "{first:08X}-{second:04X}-{third:04X}-{}-{}",
        fourth.concat(),
        fifth.concat()
    ))
}

/// The date of a day of a year; none where there is no such day.
pub(crate) fn date(year: u16, day_of_year: u16) -> Option<String> {
    let leap = year % 4 == 0 && (year % 100 != 0 || year % 400 == 0);
    let months = [
        31,
        if leap { 29 } else { 28 },
        31,
        30,
        31,
        30,
        31,
        31,
        30,
        31,
        30,
        31,
    ];
    let mut day = day_of_year;
    if year == 0 || day == 0 {
        return None;
    }
    for (month, length) in (1_u8..).zip(months) {
        if day <= length {
            return Some(format!("{year:04}-{month:02}-{day:02}"));
        }
        day = day.saturating_sub(length);
    }
    None
}

/// The name that GeoTIFF gives a coordinate key.
pub(crate) fn key(id: u16) -> Option<&'static str> {
    Some(match id {
        1024 => "GTModelType",
        1025 => "GTRasterType",
        1026 => "GTCitation",
        2048 => "GeographicType",
        2049 => "GeogCitation",
        2050 => "GeogGeodeticDatum",
        2051 => "GeogPrimeMeridian",
        2052 => "GeogLinearUnits",
        2053 => "GeogLinearUnitSize",
        2054 => "GeogAngularUnits",
        2055 => "GeogAngularUnitSize",
        2056 => "GeogEllipsoid",
        2057 => "GeogSemiMajorAxis",
        2058 => "GeogSemiMinorAxis",
        2059 => "GeogInvFlattening",
        2060 => "GeogAzimuthUnits",
        2061 => "GeogPrimeMeridianLong",
        2062 => "GeogTOWGS84",
        3072 => "ProjectedCSType",
        3073 => "PCSCitation",
        3074 => "Projection",
        3075 => "ProjCoordTrans",
        3076 => "ProjLinearUnits",
        3077 => "ProjLinearUnitSize",
        3078 => "ProjStdParallel1",
        3079 => "ProjStdParallel2",
        3080 => "ProjNatOriginLong",
        3081 => "ProjNatOriginLat",
        3082 => "ProjFalseEasting",
        3083 => "ProjFalseNorthing",
        3084 => "ProjFalseOriginLong",
        3085 => "ProjFalseOriginLat",
        3086 => "ProjFalseOriginEasting",
        3087 => "ProjFalseOriginNorthing",
        3088 => "ProjCenterLong",
        3089 => "ProjCenterLat",
        3090 => "ProjCenterEasting",
        3091 => "ProjCenterNorthing",
        3092 => "ProjScaleAtNatOrigin",
        3093 => "ProjScaleAtCenter",
        3094 => "ProjAzimuthAngle",
        3095 => "ProjStraightVertPoleLong",
        3096 => "ProjRectifiedGridAngle",
        4096 => "VerticalCSType",
        4097 => "VerticalCitation",
        4098 => "VerticalDatum",
        4099 => "VerticalUnits",
        _ => return None,
    })
}

/// The unit, of lengths or of angles, that a code of EPSG stands for.
pub(crate) fn unit(code: u16) -> Option<&'static str> {
    Some(match code {
        9001 => "metres",
        9002 => "feet",
        9003 => "US survey feet",
        9004 => "modified American feet",
        9005 => "Clarke's feet",
        9006 => "Indian feet",
        9007 => "links",
        9008 => "Benoit links",
        9009 => "Sears links",
        9010 => "Benoit chains",
        9011 => "Sears chains",
        9012 => "Sears yards",
        9013 => "Indian yards",
        9014 => "fathoms",
        9015 | 9030 => "nautical miles",
        9036 => "kilometres",
        9101 => "radians",
        9102 => "degrees",
        9103 => "arc-minutes",
        9104 => "arc-seconds",
        9105 => "grads",
        9106 => "gons",
        _ => return None,
    })
}

/// What the standard calls classes that it has not named yet.
pub(crate) const RESERVED: &str = "reserved";

/// What the standard calls a class, in points of formats 0 to 5, which are old, or of 6 to 10.
pub(crate) fn class(class: u8, old: bool) -> &'static str {
    match (class, old) {
        (0, _) => "never classified",
        (1, _) => "unclassified",
        (2, _) => "ground",
        (3, _) => "low vegetation",
        (4, _) => "medium vegetation",
        (5, _) => "high vegetation",
        (6, _) => "building",
        (7, _) => "low noise",
        (8, true) => "model key point",
        (9, _) => "water",
        (10, false) => "rail",
        (11, false) => "road surface",
        (12, true) => "overlap",
        (13, false) => "wire, guard",
        (14, false) => "wire, conductor",
        (15, false) => "transmission tower",
        (16, false) => "wire connector",
        (17, false) => "bridge deck",
        (18, false) => "high noise",
        (19, false) => "overhead structure",
        (20, false) => "ignored ground",
        (21, false) => "snow",
        (22, false) => "temporal exclusion",
        (64..=255, false) => "defined by the user",
        // Old points have no class above 31.
        _ => RESERVED,
    }
}

/// What a record is, where the standard or common use says so.
pub(crate) fn meaning(vlr: &Vlr<'_>) -> Option<String> {
    let words = match (vlr.user().as_ref(), vlr.record_id) {
        ("LASF_Projection", 2111) => "math transform in WKT",
        ("LASF_Projection", 2112) => return Some(wkt(vlr.data)),
        ("LASF_Projection", 34735..=34737) if vlr.extended => {
            "of coordinate keys (GeoTIFF), which only a VLR can hold"
        }
        ("LASF_Projection", 34735) => "coordinate keys (GeoTIFF)",
        ("LASF_Projection", 34736) => "floats of the coordinate keys",
        ("LASF_Projection", 34737) => "texts of the coordinate keys",
        ("LASF_Spec", 0) => "names of the classes",
        ("LASF_Spec", 3) => return Some(described(vlr.data)),
        ("LASF_Spec", 4) if vlr.extended => "what the extra bytes are, which only a VLR can say",
        ("LASF_Spec", 4) => "what the extra bytes are",
        ("LASF_Spec", 7) => "superseded",
        ("LASF_Spec", 100..=354) => "description of a wave packet",
        ("LASF_Spec", 65535) => "waveform data",
        ("laszip encoded", 22204) => "how points are compressed (LAZ)",
        ("copc", 1) => "cloud-optimised order (COPC)",
        ("copc", 1000) => "places of the cloud-optimised order (COPC)",
        _ => return None,
    };
    Some(words.to_string())
}

/// The most characters of a text that are shown.
const SHOWN: usize = 60;

fn shortened(words: &str) -> String {
    match words.char_indices().nth(SHOWN) {
        Some((end, _)) => format!("{}...", words.get(..end).unwrap_or_default()),
        None => words.to_string(),
    }
}

/// A coordinate system in WKT.
fn wkt(data: &[u8]) -> String {
    match wkt_name(&text(data)) {
        Some(name) => format!("coordinate system in WKT: {name}"),
        None => String::from("coordinate system in WKT"),
    }
}

/// The name of a coordinate system in WKT: its first text in quotes.
pub(crate) fn wkt_name(wkt: &str) -> Option<String> {
    wkt.split('"').nth(1).map(shortened)
}

/// A text area: its first line.
fn described(data: &[u8]) -> String {
    let words = text(data);
    match words.lines().next() {
        Some(line) if !line.is_empty() => format!("text: {}", shortened(line)),
        _ => String::from("text"),
    }
}

#[cfg(test)]
mod tests {
    use super::*;

    #[test]
    fn dates() {
        assert_eq!(date(2026, 1), Some("2026-01-01".into()));
        assert_eq!(date(2026, 59), Some("2026-02-28".into()));
        assert_eq!(date(2026, 60), Some("2026-03-01".into()));
        assert_eq!(date(2024, 60), Some("2024-02-29".into()));
        assert_eq!(date(2024, 366), Some("2024-12-31".into()));
        assert_eq!(date(2026, 366), None);
        assert_eq!((date(0, 1), date(2026, 0)), (None, None));
    }

    #[test]
    fn classes() {
        for number in 0..=255 {
            let names = (class(number, true), class(number, false));
            assert!(names.0 == names.1 || names.0 == RESERVED || names.1 == RESERVED);
        }
        assert_eq!((class(2, true), class(2, false)), ("ground", "ground"));
        assert_eq!(
            (class(8, true), class(8, false)),
            ("model key point", "reserved")
        );
        assert_eq!(
            (class(11, true), class(11, false)),
            ("reserved", "road surface")
        );
        assert_eq!((class(12, true), class(12, false)), ("overlap", "reserved"));
        assert_eq!(
            (class(23, false), class(63, false)),
            ("reserved", "reserved")
        );
        assert_eq!(
            (class(31, true), class(64, false)),
            ("reserved", "defined by the user")
        );
    }

    #[test]
    fn project_ids() {
        assert_eq!(guid(&[0; 16]), None);
        let bytes = [
            0x33, 0x22, 0x11, 0, 0x55, 0x44, 0x77, 0x66, 0x88, 0x99, 0xaa, 0xbb, 0xcc, 0xdd, 0xee,
            0xff,
        ];
        assert_eq!(
            guid(&bytes),
            Some("00112233-4455-6677-8899-AABBCCDDEEFF".into())
        );
    }

    #[test]
    fn bits_in_words() {
        assert_eq!(global_encoding(0), ["GPS time of week"]);
        assert_eq!(
            global_encoding(0x11),
            ["adjusted standard GPS time", "coordinate system in WKT"]
        );
    }

    #[test]
    fn records_in_words() {
        let said = |user: &str, id: u16, data: &[u8]| meaning(&Vlr::new(false, user, id, "", data));
        assert_eq!(
            said("LASF_Projection", 34735, b""),
            Some("coordinate keys (GeoTIFF)".into())
        );
        let extended = meaning(&Vlr::new(true, "LASF_Projection", 34735, "", b""));
        assert!(extended.map_or(false, |words| words.contains("only a VLR")));
        assert_eq!(
            said(
                "LASF_Projection",
                2112,
                b"PROJCS[\"ETRS89 / UTM zone 32N\",GEOGCS[..."
            ),
            Some("coordinate system in WKT: ETRS89 / UTM zone 32N".into())
        );
        assert_eq!(
            said("LASF_Spec", 4, b""),
            Some("what the extra bytes are".into())
        );
        assert_eq!(
            said("LASF_Spec", 3, b"first\nsecond"),
            Some("text: first".into())
        );
        assert_eq!(said("somebody", 4, b""), None);
        assert_eq!(shortened(&"é".repeat(61)), format!("{}...", "é".repeat(60)));
    }
}
