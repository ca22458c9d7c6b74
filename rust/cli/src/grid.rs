//! `inscjarol grid`, and what it says of a file, which `info` says too. Which keys there are and what each has is the library's
//! to say; what they mean is told here, by GeoTIFF's names and codes.

use super::{
    args::Words,
    input::{Files, Name},
    json::{self, Object},
    known,
    output::{refusal_object, Output},
    show::{counted, float, grouped, plain, plain_or_none},
    Command, Failure, Status,
};
use inscjarol::{
    keys::{self, Value},
    text, File, Key, Keys, Kind, Refusal, Vlr,
};
use std::collections::BTreeSet;

pub(crate) const COMMAND: Command = Command {
    name: "grid",
    operands: "FILE..",
    count: (1, usize::MAX),
    summary: "say which grid and which heights the points are in: EPSG codes, units and names, or WKT",
    options: &[],
    help: "\
Says in a line for each file what its coordinates mean, as the file itself says it; nothing is worked out from the
points. A file says it by coordinate keys, which LAS took over from GeoTIFF, or in WKT, which LAS 1.4 prefers.

Of keys it tells the code of the horizontal system in the registry EPSG, which is that of the projected system (key
3072) or else of the geographic one (2048), the units of X and Y, and the name that the file gives the system; then the
same of heights (keys 4096, 4099 and 4097), and the name of both together (1026). 'user-defined' says that no code fits
(32767), 'undefined' that the file leaves it open (0), 'not said' that it has no key for it. --json has every key.

WKT is shown as it stands, line breaks as blanks. Where the file has both, bit 4 of the global encoding in its header
says which of the two counts: the one that counts is told first, and then the other. A file with neither 'says nothing'.

Keys stand in the first VLRs of LASF_Projection with record ids 34735, 34736 and 34737; an EVLR is not looked at. WKT
stands in the first VLR of that user id with record id 2112, or else in the first such EVLR; a transform of it in 2111.
Where the directory of keys is damaged, none of them can be trusted: it is said how (refusals 43 to 47), and the status
is 1, as for a file that is no whole LAS file. A file that says nothing is no error.

All files are looked at. With several it is said at the end whether those that say their grid all say the same. Of a
folder its .las files are looked at, in the order of their names.

Examples:
  inscjarol grid survey.las
  inscjarol grid surveys/
  inscjarol grid --json surveys/ | grep -v '\"horizontal_epsg\":25832'",
    run,
};

fn run(words: &Words, out: &mut Output) -> Result<Status, Failure> {
    let files = Files::of(&words.files);
    let mut total = Total::default();
    let worst = files.each(out, |name, bytes, out| match File::check(bytes) {
        Ok(file) => tell(name, &Grid::of(&file), &mut total, out),
        Err(refusal) => {
            total.refused = total.refused.saturating_add(1);
            let line = match out.json {
                true => name
                    .object()
                    .bool("accepted", false)
                    .object("refusal", refusal_object(&refusal))
                    .finish(),
                false => format!("{name}: {refusal:?}"),
            };
            out.line(&line)?;
            Ok(Status::Refused)
        }
    })?;
    files.sum_up(total.sentence(files.count()), out)?;
    Ok(worst)
}

/// Tells the grid of a file.
fn tell(
    name: &Name,
    grid: &Grid<'_>,
    total: &mut Total,
    out: &mut Output,
) -> Result<Status, Failure> {
    let words = grid.words();
    out.line(&match out.json {
        true => for_programs(name, grid),
        false => format!("{name}: {words}"),
    })?;
    let (count, status) = match (grid.refusal(), grid.says()) {
        (Some(_), _) => (&mut total.refused, Status::Refused),
        (None, None) => (&mut total.without, Status::Done),
        (None, Some(_)) => {
            total.grids.insert(words);
            (&mut total.with, Status::Done)
        }
    };
    *count = count.saturating_add(1);
    Ok(status)
}

/// What all files come to.
#[derive(Default)]
struct Total {
    with: u64,
    /// The grids of those with one.
    grids: BTreeSet<String>,
    without: u64,
    refused: u64,
}

impl Total {
    fn sentence(&self, files: u64) -> String {
        let same = match (self.with, self.grids.len() as u64) {
            (0 | 1, _) => String::new(),
            (_, 1) => String::from(" (all the same)"),
            (_, grids) => format!(" ({} different)", grouped(grids)),
        };
        let mut sentence = format!(
            "{}: {} with a grid{same}, {} that {} nothing, {} refused",
            counted(files, "file"),
            grouped(self.with),
            grouped(self.without),
            if self.without == 1 { "says" } else { "say" },
            grouped(self.refused),
        );
        let known = [self.with, self.without, self.refused].into_iter();
        let unread = files.saturating_sub(known.fold(0, u64::saturating_add));
        if unread > 0 {
            sentence.push_str(&format!(", {} could not be read", grouped(unread)));
        }
        sentence
    }
}

/// What a file says of its grid.
pub(crate) struct Grid<'a> {
    /// Its coordinate keys, if it has a directory of them, or why that is refused.
    keys: Option<Result<Keys<'a>, Refusal>>,
    /// Its WKT, and the transform of it.
    wkt: Option<Vlr<'a>>,
    transform: Option<Vlr<'a>>,
    /// Whether the header says that WKT counts.
    wkt_bit: bool,
}

/// Which of the two counts.
#[derive(Clone, Copy, PartialEq, Eq)]
enum Says {
    Keys,
    Wkt,
}

/// The record ids of WKT and of its transform.
const WKT: u16 = 2112;
const TRANSFORM: u16 = 2111;

impl<'a> Grid<'a> {
    pub(crate) fn of(file: &File<'a>) -> Grid<'a> {
        let keys = match file.keys() {
            Err(refusal) if refusal.kind() == Kind::NoDirectory => None,
            keys => Some(keys),
        };
        let first = |id: u16| {
            let is = |vlr: &Vlr<'_>| vlr.user() == keys::USER_ID && vlr.record_id == id;
            file.vlrs().find(is).or_else(|| file.evlrs().find(is))
        };
        Grid {
            keys,
            wkt: first(WKT),
            transform: first(TRANSFORM),
            wkt_bit: file.header().global_encoding >> 4 & 1 == 1,
        }
    }

    /// What counts, of what is there.
    fn says(&self) -> Option<Says> {
        match (&self.keys, &self.wkt) {
            (Some(Ok(_)), None) => Some(Says::Keys),
            (Some(Ok(_)), Some(_)) if !self.wkt_bit => Some(Says::Keys),
            (_, Some(_)) => Some(Says::Wkt),
            (_, None) => None,
        }
    }

    /// Why its keys are refused, if they are.
    fn refusal(&self) -> Option<&Refusal> {
        self.keys.as_ref().and_then(|keys| keys.as_ref().err())
    }

    /// All of it, in a line.
    pub(crate) fn words(&self) -> String {
        self.told(|wkt| plain_or_none(&in_a_line(&text(wkt))))
    }

    /// The same with no more of WKT than the system's name.
    pub(crate) fn in_brief(&self) -> String {
        self.told(|wkt| plain_or_none(&known::wkt_name(&text(wkt)).unwrap_or_default()))
    }

    fn told(&self, shown: impl Fn(&[u8]) -> String) -> String {
        let wkt = self.wkt.as_ref().map(|vlr| {
            let transform = self.transform.as_ref().map(|vlr| shown(vlr.data));
            let transform =
                transform.map_or_else(String::new, |words| format!("; its transform: {words}"));
            format!("{}{transform}", shown(vlr.data))
        });
        match (&self.keys, wkt) {
            (None, None) => String::from("says nothing"),
            (Some(Ok(keys)), None) if self.wkt_bit => format!(
                "{}; its header says that WKT counts, of which there is none",
                by_keys(keys)
            ),
            (Some(Ok(keys)), None) => by_keys(keys),
            (None, Some(wkt)) if self.wkt_bit => format!("WKT: {wkt}"),
            (None, Some(wkt)) => {
                format!("WKT: {wkt}; its header says that keys count, of which there are none")
            }
            (Some(Ok(keys)), Some(wkt)) if self.wkt_bit => {
                let bit = "WKT counts, by bit 4 of its global encoding";
                format!("{bit}: {wkt}; its keys: {}", by_keys(keys))
            }
            (Some(Ok(keys)), Some(wkt)) => {
                let bit = "keys count, by bit 4 of its global encoding";
                format!("{bit}: {}; its WKT: {wkt}", by_keys(keys))
            }
            (Some(Err(refusal)), None) => format!("{refusal:?}"),
            (Some(Err(refusal)), Some(wkt)) => format!("{refusal:?}; its WKT: {wkt}"),
        }
    }
}

/// A text in one line: a line break, with the blanks around it, is one blank.
fn in_a_line(text: &str) -> String {
    let lines: Vec<&str> = text.trim().lines().map(str::trim).collect();
    lines.join(" ")
}

/// What keys say, in a line.
fn by_keys(keys: &Keys<'_>) -> String {
    let horizontal = System::horizontal(keys);
    let mut words = format!(
        "horizontal {}; vertical {}",
        horizontal.words(),
        System::vertical(keys).words()
    );
    // Many programs say the same in both.
    let both = named(keys, keys::CITATION).filter(|both| Some(both) != horizontal.name.as_ref());
    if let Some(both) = both {
        words.push_str(&format!("; {}", quoted(&both)));
    }
    words
}

fn quoted(name: &str) -> String {
    format!("\"{}\"", plain(name))
}

/// A system of coordinates by keys.
struct System {
    /// Its code in EPSG, if it has one, and in words.
    epsg: Option<u16>,
    code: Option<String>,
    /// Its units in words.
    units: Option<String>,
    /// What the file calls it.
    name: Option<String>,
}

impl System {
    /// The projected system, or else the geographic one.
    fn horizontal(keys: &Keys<'_>) -> System {
        let geographic = code(keys, keys::GEOGRAPHIC_CRS);
        let lengths = units(keys, keys::PROJECTED_UNITS, Some((UNIT_SIZE, "metres")));
        let projected = match code(keys, keys::PROJECTED_CRS) {
            Some(projected) => projected,
            None => {
                let angles = || units(keys, keys::ANGULAR_UNITS, Some((ANGLE_SIZE, "radians")));
                return System {
                    epsg: epsg(keys, keys::GEOGRAPHIC_CRS),
                    code: geographic,
                    units: lengths.or_else(angles),
                    name: named(keys, keys::PROJECTED_CITATION)
                        .or_else(|| named(keys, keys::GEOGRAPHIC_CITATION)),
                };
            }
        };
        let epsg = epsg(keys, keys::PROJECTED_CRS);
        System {
            epsg,
            // Without a code of its own it stands on the geographic one.
            code: Some(match (epsg, geographic) {
                (None, Some(geographic)) => format!("{projected} over {geographic}"),
                _ => projected,
            }),
            units: lengths,
            name: named(keys, keys::PROJECTED_CITATION),
        }
    }

    /// The system of heights.
    fn vertical(keys: &Keys<'_>) -> System {
        System {
            epsg: epsg(keys, keys::VERTICAL_CRS),
            code: code(keys, keys::VERTICAL_CRS),
            units: units(keys, keys::VERTICAL_UNITS, None),
            name: named(keys, keys::VERTICAL_CITATION),
        }
    }

    /// What is said of it.
    fn words(&self) -> String {
        let name = self.name.as_deref().map(quoted);
        let said = [self.code.clone(), self.units.clone(), name];
        let said: Vec<String> = said.into_iter().flatten().collect();
        match said.is_empty() {
            true => String::from("not said"),
            false => said.join(", "),
        }
    }
}

/// The keys that say how many metres a unit of length has, and how many radians one of angles, where no code fits.
const UNIT_SIZE: u16 = 3077;
const ANGLE_SIZE: u16 = 2055;

/// What GeoTIFF has for a thing that no code fits.
const USER_DEFINED: u16 = 32_767;

/// The code of EPSG that a key has, if it has one.
fn epsg(keys: &Keys<'_>, id: u16) -> Option<u16> {
    let code = keys.get(id).ok()?.to_number()?;
    (1_024..USER_DEFINED).contains(&code).then_some(code)
}

/// The code of a system in words; none where there is no such key.
fn code(keys: &Keys<'_>, id: u16) -> Option<String> {
    Some(match (keys.get(id).ok()?, epsg(keys, id)) {
        (_, Some(code)) => format!("EPSG:{code}"),
        (Value::Number(0), _) => String::from("undefined"),
        (Value::Number(USER_DEFINED), _) => String::from("user-defined"),
        (Value::Number(code), _) => format!("code {code}, which is none of EPSG"),
        _ => String::from("no code"),
    })
}

/// The units of a key in words; where no code fits, by the size that another key has.
fn units(keys: &Keys<'_>, id: u16, size: Option<(u16, &str)>) -> Option<String> {
    Some(match keys.get(id).ok()?.to_number()? {
        0 => String::from("undefined units"),
        USER_DEFINED => {
            let sized = |(id, unit): (u16, &str)| match keys.get(id).ok()? {
                Value::Doubles(doubles) => {
                    let size = doubles.iter().next()?;
                    Some(format!("units of {} {unit}", float(size)))
                }
                _ => None,
            };
            size.and_then(sized)
                .unwrap_or_else(|| String::from("user-defined units"))
        }
        code => match known::unit(code) {
            Some(unit) => unit.to_string(),
            None => format!("units EPSG:{code}"),
        },
    })
}

/// The name that a key has; none where it is empty.
fn named(keys: &Keys<'_>, id: u16) -> Option<String> {
    let words = keys.get(id).ok()?.to_text()?;
    let words = words.trim();
    (!words.is_empty()).then(|| words.to_string())
}

/// A key as JSON.
fn key(key: Key<'_>) -> String {
    let mut object = Object::new();
    object.number("key", key.id);
    match known::key(key.id) {
        Some(name) => object.text("name", name),
        None => object.raw("name", "null"),
    };
    match key.value {
        Value::Number(number) => object.number("number", number),
        Value::Doubles(doubles) => object.list("doubles", doubles.iter().map(json::float)),
        Value::Text(_) => object.text("text", &key.value.to_text().unwrap_or_default()),
    };
    object.finish()
}

fn for_programs(name: &Name, grid: &Grid<'_>) -> String {
    let or_null = |text: Option<&str>| text.map_or_else(|| String::from("null"), json::quoted);
    let mut object = name.object();
    object.bool("accepted", true);
    let says = grid.says().map(|says| match says {
        Says::Keys => "keys",
        Says::Wkt => "WKT",
    });
    object
        .raw("says", or_null(says))
        .bool("wkt_bit", grid.wkt_bit);
    match &grid.keys {
        Some(Err(refusal)) => {
            object.object("refusal", refusal_object(refusal));
        }
        keys => {
            let keys = keys.as_ref().and_then(|keys| keys.as_ref().ok());
            of_keys(keys, &mut object);
        }
    }
    let data = |vlr: &Option<Vlr<'_>>| vlr.map(|vlr| text(vlr.data).into_owned());
    let stands = grid
        .wkt
        .map(|vlr| if vlr.extended { "EVLR" } else { "VLR" });
    object
        .raw("wkt", or_null(data(&grid.wkt).as_deref()))
        .raw("wkt_in", or_null(stands))
        .raw("math_transform", or_null(data(&grid.transform).as_deref()));
    object.finish()
}

/// What keys say, for programs.
fn of_keys(keys: Option<&Keys<'_>>, object: &mut Object) {
    let null = || String::from("null");
    let systems = [
        ("horizontal", keys.map(System::horizontal)),
        ("vertical", keys.map(System::vertical)),
    ];
    for (which, system) in systems {
        let epsg = system.as_ref().and_then(|system| system.epsg);
        let units = system.and_then(|system| system.units);
        object
            .raw(
                &format!("{which}_epsg"),
                epsg.map_or_else(null, |code| code.to_string()),
            )
            .raw(
                &format!("{which}_units"),
                units.map_or_else(null, |units| json::quoted(&units)),
            );
    }
    object.list("keys", keys.into_iter().flatten().map(key));
}
