//! Appends that are cut short: by a process that is killed after every single store, on real files, and by a disk that loses
//! what was written since it was last waited for, all of it or some. Whatever is left is accepted, has exactly the old points or
//! exactly the old and the new, and the append repeated ends as if it had never been cut.
//!
//! How many states were tried is said on the standard error, for docs/TRUST.md.

mod common;

use common::{Chance, Folder};
use inscjarol::{
    allowance_for, Append, Appended, Bounds, File, Flags, Format, Header, Point, Step, Version,
    Vlr, Writer,
};
use std::{
    env, fs,
    io::{self, Write},
    os::{raw::c_int, unix::process::ExitStatusExt},
    path::Path,
    process::{Command, Stdio},
};

const BOUNDS: Bounds = Bounds {
    min: [-1.0, -2.0, -3.0],
    max: [1.0, 2.0, f64::NAN],
};

/// A file on the disk, and records that are offered to it.
struct Case {
    name: String,
    file: Vec<u8>,
    records: Vec<u8>,
    count: u64,
    believed: u64,
}

/// Says a figure, whether or not somebody asked for what tests say.
fn say(words: &str) {
    let _ = writeln!(io::stderr(), "{words}");
}

/// A file of LAS 1.2: header with so much padding, VLRs with so much data, a gap, so many points, and what is behind them.
struct Shape {
    format: u8,
    extra: u16,
    padding: usize,
    vlrs: Vec<usize>,
    gap: usize,
    points: u32,
    /// Offered.
    records: u64,
    /// Bytes behind the points.
    room: usize,
    /// What these are.
    fill: u8,
}

/// One that has nothing but points of format 0.
const SHAPE: Shape = Shape {
    format: 0,
    extra: 0,
    padding: 0,
    vlrs: Vec::new(),
    gap: 0,
    points: 3,
    records: 1,
    room: 0,
    fill: 0,
};

impl Shape {
    /// So much room that it just suffices.
    fn enough(self) -> Shape {
        let room = usize::from(self.each()) * self.records as usize;
        Shape { room, ..self }
    }

    fn each(&self) -> u16 {
        let format = Format::new(self.format).unwrap();
        format.with_extra_bytes(self.extra).len().unwrap()
    }

    fn case(&self, name: &str) -> Case {
        let mut chance = Chance(name.len() as u64 + u64::from(self.points));
        let format = Format::new(self.format)
            .unwrap()
            .with_extra_bytes(self.extra);
        let each = self.each();
        let mut header = Header::new(Version { major: 1, minor: 2 }).unwrap();
        let data = vec![0xd; 70_000];
        let vlr = |&len: &usize| {
            Vlr::new(false, "user", 1, "", &data[..len])
                .to_vec()
                .unwrap()
        };
        let vlrs: Vec<u8> = self.vlrs.iter().flat_map(vlr).collect();
        header.header_size = 227 + self.padding as u16;
        header.number_of_variable_length_records = self.vlrs.len() as u32;
        header.offset_to_point_data =
            u32::from(header.header_size) + (vlrs.len() + self.gap) as u32;
        header.point_data_record_format = self.format;
        header.point_data_record_length = each;
        header.number_of_point_records = self.points;
        header.number_of_points_by_return = [self.points, 1, 2, 3, 4];
        let mut file = header.to_vec(&vec![0xa; self.padding]).unwrap();
        file.extend(vlrs);
        file.resize(file.len() + self.gap, 0xb);
        let mut records = |count: u64| -> Vec<u8> {
            let mut bytes = Vec::new();
            for _ in 0..count {
                let random: Vec<u8> = (0..each).map(|_| chance.next() as u8).collect();
                let point = Point {
                    flags: Flags::TwoByte(chance.next() as u8, 2),
                    ..Point::read(&random, format).unwrap()
                };
                bytes.extend(point.to_vec(format).unwrap());
            }
            bytes
        };
        file.extend(records(u64::from(self.points)));
        file.resize(file.len() + self.room, self.fill);
        assert!(File::check(&file).is_ok());
        Case {
            name: name.to_string(),
            file,
            records: records(self.records),
            count: self.records,
            believed: u64::from(self.points),
        }
    }
}

/// Files of every kind that a store can meet.
fn cases() -> Vec<Case> {
    let to = |end: usize, points: u32| end - 227 - 20 * points as usize;
    vec![
        Shape {
            records: 3,
            ..SHAPE
        }
        .enough()
        .case("all in one sector that the file's end cuts"),
        Shape {
            records: 14,
            room: 700,
            ..SHAPE
        }
        .case("from sector 0 into the next"),
        Shape {
            points: 0,
            records: 60,
            ..SHAPE
        }
        .enough()
        .case("the first points, right after the header"),
        Shape {
            gap: to(492, 3),
            ..SHAPE
        }
        .enough()
        .case("one record, up to a sector's end"),
        Shape {
            gap: to(512, 3),
            ..SHAPE
        }
        .enough()
        .case("one record, from a sector's start"),
        Shape {
            gap: to(502, 3),
            ..SHAPE
        }
        .enough()
        .case("one record over a border"),
        Shape {
            gap: to(512, 0),
            points: 0,
            records: 128,
            ..SHAPE
        }
        .enough()
        .case("five whole sectors"),
        Shape {
            padding: 500,
            records: 40,
            ..SHAPE
        }
        .enough()
        .case("a header of more than a sector"),
        Shape {
            padding: 2_000,
            vlrs: vec![10, 300],
            gap: 9,
            records: 30,
            room: 900,
            fill: 0xee,
            ..SHAPE
        }
        .case("a header of many sectors, VLRs, and a tail that was used before"),
        Shape {
            records: 45,
            ..SHAPE
        }
        .case("no room"),
        Shape {
            records: 45,
            room: 333,
            fill: 0xff,
            ..SHAPE
        }
        .case("too little room"),
        Shape {
            format: 3,
            extra: 7,
            records: 20,
            room: 5_000,
            ..SHAPE
        }
        .case("format 3 with extra bytes, and room left"),
        Shape {
            format: 2,
            extra: 2_000,
            records: 3,
            ..SHAPE
        }
        .enough()
        .case("records of several sectors"),
        Shape {
            points: 3_000,
            records: 2_000,
            ..SHAPE
        }
        .enough()
        .case("thousands"),
    ]
}

impl Case {
    fn append(&self) -> Append<'_> {
        Append {
            records: &self.records,
            count: self.count,
            believed: self.believed,
            bounds: BOUNDS,
        }
    }

    /// The file's points.
    fn old(&self) -> &[u8] {
        File::check(&self.file).unwrap().run().records
    }

    /// The file, as long as it has to be.
    fn grown(&self) -> Vec<u8> {
        let end = Header::end_of_points(&self.file).unwrap() as usize + self.records.len();
        let mut bytes = self.file.clone();
        bytes.resize(bytes.len().max(end), 0);
        bytes
    }

    /// What an append that nothing cuts short leaves.
    fn uncut(&self) -> Vec<u8> {
        let mut bytes = self.grown();
        assert_eq!(self.append().apply(&mut bytes), Ok(Appended::Added));
        bytes
    }

    /// That a state is one that may be: accepted as the file was, and with exactly the old points or exactly the old and the
    /// new, all else in front of the points as it was. Answers what the append is to answer when it is repeated.
    fn judge(&self, state: &[u8], uncut: &[u8]) -> Result<Appended, String> {
        let wrong = |words: &str| Err(format!("{}: {words}", self.name));
        let before = File::judge(&self.file, allowance_for(self.file.len()));
        if File::judge(state, allowance_for(state.len())) != before {
            return wrong("another answer of the file check");
        }
        let points = File::check(state).unwrap().run().records;
        let (header, appended) = match points.len() == self.old().len() {
            true => (&self.file, Appended::Added),
            false => (&uncut.to_vec(), Appended::AlreadyIn),
        };
        let all = [self.old(), &self.records].concat();
        if points != &all[..points.len()] || appended == Appended::AlreadyIn && points != all {
            return wrong("other points");
        }
        let front = Header::end_of_points(&self.file).unwrap() as usize;
        if state[..227] != header[..227] || state[227..front] != self.file[227..front] {
            return wrong("other bytes before the records");
        }
        Ok(appended)
    }

    /// The same, and that the append repeated in lent memory ends as if it had never been cut.
    fn judge_and_repeat(&self, state: &[u8], uncut: &[u8]) -> Result<(), String> {
        let appended = self.judge(state, uncut)?;
        let mut again = state.to_vec();
        match self.append().apply(&mut again) {
            Ok(answer) if answer == appended && again == uncut => Ok(()),
            answer => Err(format!("{}: repeated, it answers {answer:?}", self.name)),
        }
    }
}

// Processes that are killed.

extern "C" {
    fn raise(signal: c_int) -> c_int;
}

const SIGKILL: c_int = 9;

/// Opens a file that is this test's own.
fn writer(path: &Path) -> Writer {
    // SAFETY: nobody else writes to it.
    unsafe { Writer::open(path) }.unwrap()
}

/// No test of its own: the process that is killed, before the step that it is told.
#[test]
fn the_one_that_is_killed() {
    let folder = match env::var_os("INSCJAROL_KILLED_IN") {
        Some(folder) => folder,
        None => return,
    };
    let number = |name: &str| -> u64 { env::var(name).unwrap().parse().unwrap() };
    let folder = Path::new(&folder);
    let records = fs::read(folder.join("records")).unwrap();
    let append = Append {
        records: &records,
        count: number("INSCJAROL_COUNT"),
        believed: number("INSCJAROL_BELIEVED"),
        bounds: BOUNDS,
    };
    let mut left = number("INSCJAROL_STEPS");
    let appended = writer(&folder.join("file.las")).append_watched(&append, |_| {
        if left == 0 {
            // SAFETY: a call that takes a number, and does not come back.
            unsafe { raise(SIGKILL) };
        }
        left -= 1;
        Ok(())
    });
    panic!("it was not killed: {appended:?}");
}

/// Runs an append in another process, which is killed before this step.
fn killed(case: &Case, folder: &Folder, before: u64) {
    let status = Command::new(env::current_exe().unwrap())
        .args(["--exact", "the_one_that_is_killed", "--test-threads", "1"])
        .env("INSCJAROL_KILLED_IN", folder.join(""))
        .env("INSCJAROL_COUNT", case.count.to_string())
        .env("INSCJAROL_BELIEVED", case.believed.to_string())
        .env("INSCJAROL_STEPS", before.to_string())
        .stdin(Stdio::null())
        .stdout(Stdio::null())
        .stderr(Stdio::null())
        .status()
        .unwrap();
    assert_eq!(status.signal(), Some(SIGKILL), "{} {before}", case.name);
}

/// The steps of an append: its stores, and that it waits for the disk twice.
fn steps(case: &Case) -> Vec<Option<(usize, Vec<u8>)>> {
    let mut steps = Vec::new();
    let mut bytes = case.grown();
    let appended = case.append().by_steps(&mut bytes, |step| {
        steps.push(match step {
            Step::Write { start, bytes } => Some((start as usize, bytes.to_vec())),
            Step::Sync => None,
        });
        Ok(())
    });
    assert_eq!(appended.unwrap(), Appended::Added);
    steps
}

#[test]
fn killed_after_every_single_store() {
    let folder = Folder::new("killed");
    let path = folder.join("file.las");
    let mut chance = Chance(1);
    let (mut kills, mut files) = (0_u64, 0_u64);
    for case in cases() {
        files += 1;
        folder.put("records", &case.records);
        let uncut = case.uncut();
        let steps = steps(&case).len() as u64;
        // A kill before every step, and then some that follow each other on one file.
        let single = (0..steps).map(|step| vec![step]);
        let several = (0..4).map(|_| (0..3).map(|_| chance.next() % (steps - 1)).collect());
        for cuts in single.chain(several.collect::<Vec<_>>()) {
            folder.put("file.las", &case.file);
            for cut in cuts {
                killed(&case, &folder, cut);
                kills += 1;
                let state = fs::read(&path).unwrap();
                let expected = case.judge(&state, &uncut).unwrap();
                // Only the last step, that it waits again, comes after the header.
                assert_eq!(expected == Appended::AlreadyIn, cut == steps - 1);
            }
            let state = fs::read(&path).unwrap();
            let expected = case.judge(&state, &uncut).unwrap();
            let mut writer = writer(&path);
            assert_eq!(writer.append(&case.append()).unwrap(), expected);
            assert_eq!(fs::read(&path).unwrap(), uncut, "{}", case.name);
            assert_eq!(writer.append(&case.append()).unwrap(), Appended::AlreadyIn);
            assert_eq!(fs::read(&path).unwrap(), uncut);
        }
    }
    say(&format!(
        "appends killed with SIGKILL on real files: {kills}, on {files} files, 0 broken"
    ));
}

// A disk that loses what was not waited for.

/// The states that a disk may be in when the power fails during these steps: what was waited for is there, and of what was
/// written since any part of the sectors, written in any order. All of them where they are few, else `many` by chance and the
/// telling ones: up to a sector, a sector alone, and all but one.
fn states(
    before: &[u8],
    steps: &[Option<(usize, Vec<u8>)>],
    many: usize,
    chance: &mut Chance,
    mut see: impl FnMut(&[u8]),
) {
    let mut disk = before.to_vec();
    for written in steps.split(|step| step.is_none()) {
        let written: Vec<&(usize, Vec<u8>)> = written.iter().flatten().collect();
        let len = written.len();
        let sets: Vec<Vec<bool>> = match len {
            0..=12 => {
                let set = |bits: usize| (0..len).map(|k| bits >> k & 1 == 1).collect();
                (0..1 << len).map(set).collect()
            }
            _ => {
                let up_to = (0..=len).map(|end| (0..len).map(|k| k < end).collect());
                let alone = (0..len).map(|it| (0..len).map(|k| k == it).collect());
                let without = (0..len).map(|it| (0..len).map(|k| k != it).collect());
                let any = (0..many).map(|_| (0..len).map(|_| chance.next() % 2 == 0).collect());
                let any: Vec<Vec<bool>> = any.collect();
                up_to.chain(alone).chain(without).chain(any).collect()
            }
        };
        for set in sets {
            let mut there: Vec<&&(usize, Vec<u8>)> = written
                .iter()
                .zip(&set)
                .filter(|(_, is)| **is)
                .map(|(step, _)| step)
                .collect();
            let mut state = disk.clone();
            while !there.is_empty() {
                let (start, bytes) = there.swap_remove(chance.below(there.len()));
                state[*start..start + bytes.len()].copy_from_slice(bytes);
            }
            see(&state);
        }
        for (start, bytes) in written {
            disk[*start..start + bytes.len()].copy_from_slice(bytes);
        }
    }
}

/// The steps of an append to what a cut has left.
fn steps_after(case: &Case, state: &[u8]) -> Vec<Option<(usize, Vec<u8>)>> {
    let mut left = Case {
        name: case.name.clone(),
        file: state.to_vec(),
        records: case.records.clone(),
        ..*case
    };
    left.name.push_str(", again");
    steps(&left)
}

/// Files by chance.
fn any_case(chance: &mut Chance) -> Case {
    let vlrs = (0..chance.below(3)).map(|_| chance.below(200)).collect();
    let shape = Shape {
        format: chance.below(4) as u8,
        extra: chance.below(30) as u16,
        padding: chance.below(2) * chance.below(900),
        vlrs,
        gap: chance.below(2) * chance.below(300),
        points: chance.below(40) as u32,
        records: 1 + chance.below(150) as u64,
        room: chance.below(6_000),
        fill: chance.next() as u8,
    };
    shape.case("by chance")
}

#[test]
fn a_disk_that_loses_what_was_not_waited_for() {
    let mut chance = Chance(2);
    let (mut seen, mut twice, mut files) = (0_u64, 0_u64, 0_u64);
    let mut all = cases();
    all.extend((0..60).map(|_| any_case(&mut chance)));
    for case in &all {
        files += 1;
        let uncut = case.uncut();
        let mut after = Vec::new();
        let mut picked = Chance(3);
        states(&case.grown(), &steps(case), 200, &mut chance, |state| {
            seen += 1;
            case.judge_and_repeat(state, &uncut).unwrap();
            // From some the append is repeated, and cut short again.
            let old = case.judge(state, &uncut) == Ok(Appended::Added);
            if old && after.len() < 6 && picked.below(20) == 0 {
                after.push(state.to_vec());
            }
        });
        for state in after {
            let steps = steps_after(case, &state);
            states(&state, &steps, 100, &mut chance, |state| {
                twice += 1;
                case.judge_and_repeat(state, &uncut).unwrap();
            });
        }
    }
    say(&format!(
        "states of a disk after a cut: {seen}, and {twice} after a second, of {files} files, 0 broken"
    ));
    assert!(seen > 10_000 && twice > 10_000, "{seen} {twice}");
}

#[test]
fn states_of_a_disk_on_real_files() {
    let folder = Folder::new("states");
    let path = folder.join("file.las");
    let mut chance = Chance(4);
    let mut seen = 0_u64;
    for case in cases() {
        let uncut = case.uncut();
        let mut picked = Chance(5);
        let mut some = Vec::new();
        states(&case.grown(), &steps(&case), 200, &mut chance, |state| {
            if some.len() < 20 && picked.below(8) == 0 || state == uncut {
                some.push(state.to_vec());
            }
        });
        for state in some {
            seen += 1;
            folder.put("file.las", &state);
            let expected = case.judge(&state, &uncut).unwrap();
            assert_eq!(writer(&path).append(&case.append()).unwrap(), expected);
            assert_eq!(fs::read(&path).unwrap(), uncut);
        }
        // A file that was made longer only in part.
        for len in (case.file.len()..case.grown().len()).step_by(97) {
            seen += 1;
            folder.put("file.las", &case.grown()[..len]);
            let appended = writer(&path).append(&case.append());
            assert_eq!(appended.unwrap(), Appended::Added);
            assert_eq!(fs::read(&path).unwrap(), uncut);
        }
    }
    say(&format!(
        "of these, brought to real files and appended to again: {seen}, 0 broken"
    ));
}

#[test]
fn what_is_left_out_would_break() {
    // The states of appends that are made in a wrong way; so it is seen that the tests above would see it.
    let case = Shape {
        padding: 500,
        records: 60,
        ..SHAPE
    }
    .enough()
    .case("wrong");
    let uncut = case.uncut();
    let right = steps(&case);
    let broken = |steps: &[Option<(usize, Vec<u8>)>]| {
        let (mut all, mut broken) = (0, 0);
        states(&case.file, steps, 100, &mut Chance(6), |state| {
            all += 1;
            broken += u64::from(case.judge_and_repeat(state, &uncut).is_err());
        });
        (all, broken)
    };
    assert_eq!(broken(&right), (8 + 2 + 1, 0));
    // No waiting before the header: it may be there before the points.
    let mut hasty = right.clone();
    hasty.remove(hasty.len() - 3);
    assert_eq!(broken(&hasty), (16 + 1, 7));
    // The header first.
    let mut early = right.clone();
    let header = early.remove(early.len() - 2);
    early.insert(0, header);
    early.insert(1, None);
    assert!(broken(&early).1 > 0);
    // Half a header.
    let half = right.iter().map(|step| {
        let step = step.as_ref()?;
        Some((
            step.0,
            step.1[..if step.0 == 0 { 110 } else { step.1.len() }].to_vec(),
        ))
    });
    assert!(broken(&half.collect::<Vec<_>>()).1 > 0);
}

#[test]
fn an_error_of_the_system_at_any_step() {
    let folder = Folder::new("failed");
    let path = folder.join("file.las");
    for case in cases().iter().take(4) {
        let uncut = case.uncut();
        let steps = steps(case).len();
        for fails in 0..steps {
            folder.put("file.las", &case.file);
            let mut left = fails;
            let mut writer = writer(&path);
            let failed = writer.append_watched(&case.append(), |_| match left {
                0 => Err(io::Error::from(io::ErrorKind::WriteZero)),
                _ => {
                    left -= 1;
                    Ok(())
                }
            });
            assert!(failed.unwrap_err().refusal().is_none());
            let state = fs::read(&path).unwrap();
            let expected = case.judge(&state, &uncut).unwrap();
            // By the same writer, which goes on.
            assert_eq!(writer.append(&case.append()).unwrap(), expected);
            assert_eq!(fs::read(&path).unwrap(), uncut);
        }
    }
}
