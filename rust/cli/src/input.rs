//! Files to be looked at.

use super::{
    json::Object,
    os,
    output::Output,
    show::{counted, plain},
    Failure, Status,
};
use inscjarol::{Kind, Mapped};
use std::{
    ffi::{OsStr, OsString},
    fmt,
    fs::{self, File, FileType},
    io::{self, Read, Seek},
    os::unix::{
        fs::{FileTypeExt, MetadataExt},
        io::AsFd,
    },
    path::Path,
};

/// The name of a file as it was given. Shown, it steers no terminal.
pub(crate) struct Name(String);

impl Name {
    pub(crate) fn new(name: &OsStr) -> Name {
        Name(match name.to_str() {
            Some("-") => String::from("standard input"),
            _ => name.to_string_lossy().into_owned(),
        })
    }

    /// An object that begins with the name.
    pub(crate) fn object(&self) -> Object {
        let mut object = Object::new();
        object.text("file", &self.0);
        object
    }

    /// The name for programs.
    pub(crate) fn exact(&self) -> &str {
        &self.0
    }
}

impl fmt::Display for Name {
    fn fmt(&self, f: &mut fmt::Formatter<'_>) -> fmt::Result {
        f.pad(&plain(&self.0))
    }
}

/// A file's bytes: mapped where it is a regular file, else read into memory.
pub(crate) enum Input {
    Mapped(Mapped),
    Read(Vec<u8>),
}

/// What tells a file from every other file of the system.
pub(crate) fn id(name: &OsStr) -> io::Result<(u64, u64)> {
    let about = match name == "-" {
        true => standard_input()?.metadata()?,
        false => fs::metadata(name)?,
    };
    Ok((about.dev(), about.ino()))
}

fn standard_input() -> io::Result<File> {
    Ok(File::from(io::stdin().as_fd().try_clone_to_owned()?))
}

impl Input {
    /// Opens a file; `-` is the standard input.
    pub(crate) fn open(name: &OsStr) -> io::Result<Input> {
        Input::named(name, like_las)
    }

    /// The same, of bytes that are no LAS file.
    pub(crate) fn open_raw(name: &OsStr) -> io::Result<Input> {
        Input::named(name, |_| true)
    }

    fn named(name: &OsStr, goes_on: fn(&[u8]) -> bool) -> io::Result<Input> {
        if name == "-" {
            return Input::of(standard_input()?, goes_on);
        }
        let path = Path::new(name);
        // To open a device may do something: what it is is asked first.
        readable(fs::metadata(path)?.file_type())?;
        Input::of(File::open(path)?, goes_on)
    }

    /// What an open file has from its place on; of a stream that is not worth it by its beginning, that alone.
    fn of(mut file: File, goes_on: fn(&[u8]) -> bool) -> io::Result<Input> {
        let about = file.metadata()?;
        readable(about.file_type())?;
        // Of a regular file that somebody has read from already only the rest counts.
        match about.is_file() && matches!(file.stream_position(), Ok(0)) {
            true => os::map(&file).map(Input::Mapped),
            false => read(file, free(), goes_on).map(Input::Read),
        }
    }

    /// The bytes.
    pub(crate) fn bytes(&self) -> &[u8] {
        match self {
            Input::Mapped(map) => map,
            Input::Read(bytes) => bytes,
        }
    }
}

/// That something of this kind can be read to its end: a device need not have one.
fn readable(kind: FileType) -> io::Result<()> {
    if kind.is_dir() {
        return Err(other("it is a folder, not a file"));
    }
    if kind.is_char_device() || kind.is_block_device() {
        return Err(other("it is a device, not a file"));
    }
    Ok(())
}

/// How much is read at once.
const PIECE: u64 = 1 << 20;

/// As much of a file as tells whether it is one of LAS at all.
const BEGINNING: u64 = 512;

/// Whether these bytes may be the beginning of a LAS file: else nothing that follows could make it one.
fn like_las(beginning: &[u8]) -> bool {
    let refused = inscjarol::File::check(beginning).map_err(|refusal| refusal.kind());
    !matches!(refused, Err(Kind::Signature | Kind::Version))
}

/// All that comes from a stream, as long as there is memory for it, and as its beginning lets it go on.
fn read(
    mut stream: impl Read,
    free: Option<u64>,
    goes_on: fn(&[u8]) -> bool,
) -> io::Result<Vec<u8>> {
    let mut bytes = Vec::new();
    stream.by_ref().take(BEGINNING).read_to_end(&mut bytes)?;
    if !goes_on(&bytes) {
        return Ok(bytes);
    }
    let mut piece = Vec::new();
    while stream.by_ref().take(PIECE).read_to_end(&mut piece)? > 0 {
        let most = free.map_or(false, |free| bytes.len() as u64 > free);
        if most || bytes.try_reserve(piece.len()).is_err() {
            return Err(other(
                "it is longer than there is memory for; a file that is given by its name needs none",
            ));
        }
        bytes.append(&mut piece);
    }
    Ok(bytes)
}

/// How many bytes of memory there are to be had, where the system says so.
pub(crate) fn free() -> Option<u64> {
    let about = fs::read_to_string("/proc/meminfo").ok()?;
    let line = about
        .lines()
        .find_map(|line| line.strip_prefix("MemAvailable:"))?;
    let kibibytes: u64 = line.trim().strip_suffix("kB")?.trim().parse().ok()?;
    kibibytes.checked_mul(1024)
}

fn other(words: &str) -> io::Error {
    io::Error::new(io::ErrorKind::Other, words)
}

/// Why a file cannot be read, as it is told.
pub(crate) fn words(error: &io::Error) -> String {
    match error.kind() {
        io::ErrorKind::NotFound => String::from("there is no such file"),
        io::ErrorKind::PermissionDenied => String::from("it may not be read (permission denied)"),
        _ => error.to_string(),
    }
}

/// The files that a command was given, folders opened.
pub(crate) struct Files {
    /// Each file, and what is wrong with it if it is a folder of which there is nothing to be had.
    files: Vec<(OsString, Option<String>)>,
    /// Whether there were folders.
    folders: bool,
    /// How much else there is in them.
    others: u64,
}

impl Files {
    /// These files, and of a folder its `.las` files in the order of their names; what lies in folders of it is not looked for.
    pub(crate) fn of(names: &[OsString]) -> Files {
        let mut all = Files {
            files: Vec::new(),
            folders: false,
            others: 0,
        };
        for name in names {
            let is_folder = name != "-" && Path::new(name).is_dir();
            all.folders |= is_folder;
            let trouble = match is_folder {
                true => all.open(Path::new(name)).err(),
                false => None,
            };
            if !is_folder || trouble.is_some() {
                all.files.push((name.clone(), trouble));
            }
        }
        all
    }

    /// Takes the files of a folder.
    fn open(&mut self, folder: &Path) -> Result<(), String> {
        let listed =
            fs::read_dir(folder).and_then(|entries| entries.collect::<io::Result<Vec<_>>>());
        let listed = listed.map_err(|error| words(&error))?;
        let mut found: Vec<OsString> = listed.iter().map(fs::DirEntry::file_name).collect();
        let all = found.len();
        found.retain(|name| {
            let named = Path::new(name).extension();
            named.map_or(false, |named| named.eq_ignore_ascii_case("las"))
                && fs::metadata(folder.join(name)).map_or(true, |about| !about.is_dir())
        });
        self.others = self
            .others
            .saturating_add(all.saturating_sub(found.len()) as u64);
        if found.is_empty() {
            return Err(String::from("there is no .las file in this folder"));
        }
        found.sort();
        let paths = found.iter().map(|name| folder.join(name).into_os_string());
        self.files.extend(paths.map(|path| (path, None)));
        Ok(())
    }

    /// Whether a list of what is told of each needs headings and sums.
    pub(crate) fn several(&self) -> bool {
        self.folders || self.files.len() > 1
    }

    /// What was left out of the folders, if anything was.
    pub(crate) fn left_out(&self) -> Option<String> {
        let others = counted(self.others, "other");
        match self.others {
            0 => None,
            1 => Some(format!("{others} there is no .las file")),
            _ => Some(format!("{others} there are no .las files")),
        }
    }

    /// How many files there are.
    pub(crate) fn count(&self) -> u64 {
        self.files.len() as u64
    }

    /// What they are called.
    pub(crate) fn names(&self) -> impl Iterator<Item = &OsStr> {
        self.files.iter().map(|(name, _)| name.as_os_str())
    }

    /// What they are called, each with what is wrong with it if it is a folder of which there is nothing to be had.
    pub(crate) fn opened(&self) -> impl Iterator<Item = (&OsStr, Option<&str>)> {
        let files = self.files.iter();
        files.map(|(name, trouble)| (name.as_os_str(), trouble.as_deref()))
    }

    /// Shows each file's name to `then`. The worst status counts.
    pub(crate) fn each_name(
        &self,
        out: &mut Output,
        mut then: impl FnMut(&OsStr, &mut Output) -> Result<Status, Failure>,
    ) -> Result<Status, Failure> {
        let mut worst = Status::Done;
        for (name, trouble) in &self.files {
            let status = match trouble {
                Some(trouble) => out.failed(&Name::new(name), trouble)?,
                None => then(name, out)?,
            };
            worst = worst.max(status);
        }
        Ok(worst)
    }

    /// Opens each file and shows its bytes to `then`. What cannot be read is said, and the next file's turn comes; the worst
    /// status counts.
    pub(crate) fn each(
        &self,
        out: &mut Output,
        mut then: impl FnMut(&Name, &[u8], &mut Output) -> Result<Status, Failure>,
    ) -> Result<Status, Failure> {
        self.each_name(out, |name, out| {
            let shown = Name::new(name);
            match Input::open(name) {
                Ok(input) => then(&shown, input.bytes(), out),
                Err(error) => out.failed(&shown, &words(&error)),
            }
        })
    }

    /// Says what all files come to, where they are several and it is not for programs, and what was left out of the folders.
    pub(crate) fn sum_up(&self, sentence: String, out: &mut Output) -> Result<(), Failure> {
        match (self.several() && !out.json, self.left_out()) {
            (true, None) => out.line(&sentence)?,
            (true, Some(left_out)) => out.line(&format!("{sentence}; {left_out}"))?,
            (false, Some(left_out)) => out.tell(&left_out),
            (false, None) => {}
        }
        Ok(())
    }
}

#[cfg(test)]
mod tests {
    use super::*;

    /// A stream that does not end.
    struct Endless(Vec<u8>);

    impl Read for Endless {
        fn read(&mut self, to: &mut [u8]) -> io::Result<usize> {
            let len = match self.0.len() {
                0 => to.len(),
                len => len.min(to.len()),
            };
            let front: Vec<u8> = self.0.drain(..len.min(self.0.len())).collect();
            to[..front.len()].copy_from_slice(&front);
            to[front.len()..len].fill(0);
            Ok(len)
        }
    }

    #[test]
    fn a_stream_without_end() {
        let read = |front: &[u8]| read(Endless(front.to_vec()), Some(10_000_000), like_las);
        assert_eq!(read(b"").unwrap().len(), 512);
        assert_eq!(read(b"LASX").unwrap().len(), 512);
        let header = inscjarol::Header::default().to_vec(&[]).unwrap();
        let error = read(&header).unwrap_err();
        assert!(error.to_string().contains("longer than there is memory"));
        let short = super::read(&header[..], Some(10), like_las).unwrap();
        assert_eq!(short, header);
        let raw = super::read(&[7; 2_000][..], None, |_| true).unwrap();
        assert_eq!(raw, [7; 2_000]);
    }

    #[test]
    fn memory_is_told() {
        assert!(free().map_or(true, |free| free > 1_000_000));
    }

    #[test]
    fn names_steer_nothing() {
        let name = Name::new(OsStr::new("a\x1b[31m.las"));
        assert_eq!(name.to_string(), "a\u{fffd}[31m.las");
        assert_eq!(name.object().finish(), r#"{"file":"a\u001b[31m.las"}"#);
        assert_eq!(Name::new(OsStr::new("-")).exact(), "standard input");
    }
}
