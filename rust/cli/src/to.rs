//! Where files are to go, by the option `--to` of `ask` and `convert`; why one cannot; and what several come to.

use super::{
    args::Words,
    extra::Extras,
    fields::{Choice, Row},
    json::Object,
    output::refusal_object,
    show::{counted, grouped},
    Failure,
};
use inscjarol::{File, Kind, Refusal, Version};

/// Where a file is to go.
#[derive(Clone, Copy)]
pub(crate) enum To {
    /// Its points, to the old format of their pair.
    Old,
    /// Its points, to the new format of their pair.
    New,
    /// All of it, to LAS 1.2.
    Las12,
    /// All of it, to LAS 1.4.
    Las14,
}

/// The most that LAS 1.2 counts.
const MOST: u64 = u32::MAX as u64;

impl To {
    /// What a command was told, of what it can be told; none where it was told nothing.
    pub(crate) fn of(words: &Words, command: &str, among: &[To]) -> Result<Option<To>, Failure> {
        let given = match words.value("to") {
            None => return Ok(None),
            Some(given) => given.to_string_lossy(),
        };
        match among.iter().find(|to| to.name() == given) {
            Some(to) => Ok(Some(*to)),
            None => {
                let names: Vec<&str> = among.iter().map(|to| to.name()).collect();
                Err(Failure::Usage(format!(
                    "{command}: --to needs one of {}, and '{given}' is none; 'inscjarol help {command}' tells how it goes",
                    names.join(", ")
                )))
            }
        }
    }

    /// What it is called by.
    pub(crate) fn name(self) -> &'static str {
        match self {
            To::Old => "old",
            To::New => "new",
            To::Las12 => "1.2",
            To::Las14 => "1.4",
        }
    }

    /// The version, where all of a file is to go.
    pub(crate) fn version(self) -> Option<Version> {
        match self {
            To::Old | To::New => None,
            To::Las12 => Some(Version { major: 1, minor: 2 }),
            To::Las14 => Some(Version { major: 1, minor: 4 }),
        }
    }

    /// Whether what goes is old then.
    pub(crate) fn is_old(self) -> bool {
        matches!(self, To::Old | To::Las12)
    }

    /// The question.
    pub(crate) fn ask(self, file: &File<'_>) -> Result<usize, Refusal> {
        match self {
            To::Old => file.run().ask_old(),
            To::New => file.run().ask_new(),
            To::Las12 => file.ask_old(),
            To::Las14 => file.ask_new(),
        }
    }

    /// The format that the points go to, if they have a pair.
    pub(crate) fn format(self, file: &File<'_>) -> Option<u8> {
        match self.is_old() {
            true => file.run().old_format(),
            false => file.run().new_format(),
        }
    }

    /// Whether a file need not go, since it is there.
    fn is_there(self, file: &File<'_>) -> bool {
        match self.version() {
            Some(version) => file.header().version == version,
            None => file.format().is_extended != self.is_old(),
        }
    }

    /// What a file is that is there.
    fn there(self) -> String {
        match self.version() {
            Some(version) => format!("LAS {version}"),
            None => String::from(self.name()),
        }
    }

    /// Why a file cannot go, in words.
    fn why(self, file: &File<'_>, refusal: &Refusal) -> String {
        let (version, code) = (
            file.header().version,
            file.header().point_data_record_format,
        );
        match refusal.kind() {
            Kind::NoPair if self.is_there(file) => {
                format!("its points are in {} format {code} already", self.there())
            }
            Kind::NoPair => format!(
                "its points are of format {code}, which has no time, and every new format has one"
            ),
            Kind::OtherVersionOrFormat if self.is_there(file) => {
                format!("it is LAS {version} already, with points of format {code}")
            }
            Kind::OtherVersionOrFormat => {
                let only = match self.is_old() {
                    true => "to LAS 1.2 goes only LAS 1.4 with points of format 6 or 7",
                    false => "to LAS 1.4 goes only LAS 1.2 with points of format 1 or 3",
                };
                format!("it is LAS {version} with points of format {code}, and {only}")
            }
            Kind::EvlrsOrWaveforms => {
                let mut has = Vec::new();
                if let Some(evlrs) = file.header().evlrs {
                    has.push(counted(u64::from(evlrs.number_of_evlrs), "EVLR"));
                }
                if file.header().start_of_waveform_data_packet_record.is_some() {
                    has.push(String::from("waveform packets"));
                }
                format!(
                    "it has {}, for which LAS 1.2 has no place ('inscjarol info' shows what there is); they have to be taken out \
                     first, by a program that knows what they are for",
                    has.join(" and ")
                )
            }
            Kind::CountsTooLargeForOld => counts(file).unwrap_or_else(|| refusal.to_string()),
            _ => refusal.to_string(),
        }
    }

    /// Why a file cannot go, in words and for programs, with the place of the point that cannot, if it is for a point.
    pub(crate) fn cannot(self, file: &File<'_>, refusal: &Refusal, object: &mut Object) -> String {
        let mut words = self.why(file, refusal);
        object.object("refusal", refusal_object(refusal));
        let place = place(file, refusal.record());
        for (axis, number) in ["x", "y", "z"].iter().zip(&place) {
            object.raw(axis, number.as_deref().unwrap_or("null"));
        }
        if let [Some(x), Some(y), Some(z)] = place {
            words.push_str(&format!("; the point lies at x {x}, y {y}, z {z}"));
        }
        words
    }
}

/// The first of a file's counts that has no place in LAS 1.2, in words.
fn counts(file: &File<'_>) -> Option<String> {
    let (points, most) = (file.point_count(), grouped(MOST));
    if points > MOST {
        return Some(format!(
            "it has {}, and LAS 1.2 counts at most {most}: it has to be cut into smaller files first",
            counted(points, "point")
        ));
    }
    let large = file.header().large_file.unwrap_or_default();
    let held = (1..).zip(file.header().points_by_return()).take(5);
    let beyond = (1..).zip(large.number_of_points_by_return).skip(5);
    let mut misfits = held
        .filter(|(_, count)| *count > MOST)
        .chain(beyond.filter(|(_, count)| *count > 0));
    let (number, count) = misfits.next()?;
    Some(format!(
        "its header counts {} of return {number}, and LAS 1.2 counts returns 1 to 5 alone, at most {most} of each: what it cannot \
         count has to be left out first",
        counted(count, "point")
    ))
}

/// Where a file's point lies, counted from 1: x, y and z as `inscjarol points` writes them, as far as they are numbers.
fn place(file: &File<'_>, number: u64) -> [Option<String>; 3] {
    let line = || {
        let before = usize::try_from(number.checked_sub(1)?).ok()?;
        let point = file.points().nth(before)?;
        let choice = Choice::Named(["x", "y", "z"].map(String::from).to_vec());
        let mut row = Row::new(&choice, false, file, &Extras::none()).ok()?;
        let mut line = Vec::new();
        row.csv(number, &point, &mut line);
        String::from_utf8(line).ok()
    };
    let line = line().unwrap_or_default();
    let mut numbers = line.trim_end().split(',').map(String::from);
    [(); 3].map(|()| numbers.next().filter(|number| !number.is_empty()))
}

/// What all files together come to.
#[derive(Default)]
pub(crate) struct Total {
    gone: u64,
    points: u64,
    bytes: u64,
    cannot: u64,
    /// How many of these have no need to.
    already: u64,
    refused: u64,
}

impl Total {
    /// Counts a file that can go, or went, and what it has then.
    pub(crate) fn gone(&mut self, file: &File<'_>, bytes: u64) {
        self.gone = self.gone.saturating_add(1);
        self.points = self.points.saturating_add(file.point_count());
        self.bytes = self.bytes.saturating_add(bytes);
    }

    /// Counts a file that cannot.
    pub(crate) fn cannot(&mut self, to: To, file: &File<'_>) {
        self.cannot = self.cannot.saturating_add(1);
        let already = u64::from(to.is_there(file));
        self.already = self.already.saturating_add(already);
    }

    /// Counts a file that is no whole LAS file.
    pub(crate) fn refused(&mut self) {
        self.refused = self.refused.saturating_add(1);
    }

    /// The sentence, where there were so many files, in these words for what can go, what cannot, and what failed.
    pub(crate) fn sentence(&self, to: To, files: u64, words: [&str; 3]) -> String {
        let [gone, cannot, failed] = words;
        let mut sentence = format!("{}: {} {gone}", counted(files, "file"), grouped(self.gone));
        if self.gone > 0 {
            sentence.push_str(&format!(
                " ({}, {})",
                counted(self.points, "point"),
                counted(self.bytes, "byte")
            ));
        }
        sentence.push_str(&format!(", {} {cannot}", grouped(self.cannot)));
        if self.already > 0 {
            let (count, there) = (grouped(self.already), to.there());
            sentence.push_str(&format!(" ({count} of them {there} already)"));
        }
        let rest = files
            .saturating_sub(self.gone)
            .saturating_sub(self.cannot)
            .saturating_sub(self.refused);
        for (count, words) in [(self.refused, "refused"), (rest, failed)] {
            if count > 0 {
                sentence.push_str(&format!(", {} {words}", grouped(count)));
            }
        }
        sentence
    }
}
