//! A file that takes its place all at once, or not at all.

use super::os::{self, Unfinished};
use memmap2::MmapMut;
use std::{
    env,
    fs::{self, File, Metadata, OpenOptions, Permissions},
    io,
    os::unix::fs::{MetadataExt, OpenOptionsExt, PermissionsExt},
    path::{Path, PathBuf},
    process,
};

/// How many names are tried for a temporary file.
const TRIES: u32 = 100;

/// How many links are followed before they are taken for a circle.
const LINKS: u32 = 40;

/// Set, it makes the tool do as it does where there are no unnamed files: for tests.
const NAMED: &str = "INSCJAROL_NAMED_TEMPORARY";

/// The bits of a mode that let somebody write.
const WRITABLE: u32 = 0o222;

/// A place for a file, and what is there.
pub(crate) struct Target {
    /// Where the links that its name is end, if it is one.
    path: PathBuf,
    was: Option<Metadata>,
}

impl Target {
    /// The place of this name. What is there has to be a regular file.
    pub(crate) fn find(name: &Path) -> io::Result<Target> {
        let path = followed(name)?;
        match fs::metadata(&path) {
            Ok(about) if about.is_dir() => Err(other("it is a folder, not a file")),
            Ok(about) if !about.is_file() => Err(other("it is no regular file")),
            Ok(about) => Ok(Target {
                path,
                was: Some(about),
            }),
            Err(error) if error.kind() == io::ErrorKind::NotFound => Ok(Target { path, was: None }),
            Err(error) => Err(error),
        }
    }

    /// What tells the file that is there from every other, if there is one.
    pub(crate) fn id(&self) -> Option<(u64, u64)> {
        self.was.as_ref().map(|was| (was.dev(), was.ino()))
    }

    /// That a file may be put there: nothing is there, or whatever it is may be replaced; and what is there may be written.
    pub(crate) fn judge(&self, replace: bool) -> io::Result<()> {
        let was = match &self.was {
            Some(was) => was,
            None => return Ok(()),
        };
        if !replace {
            return Err(there());
        }
        // Who may write everything is held to the mode all the same.
        if was.mode() & WRITABLE == 0 {
            return Err(other("it is read-only"));
        }
        OpenOptions::new().write(true).open(&self.path).map(|_| ())
    }
}

/// The path at the end of the links that a path is, which need not be there.
fn followed(name: &Path) -> io::Result<PathBuf> {
    let mut path = name.to_path_buf();
    for _ in 0..LINKS {
        match fs::symlink_metadata(&path) {
            Ok(about) if about.file_type().is_symlink() => {
                path = folder(&path).join(fs::read_link(&path)?);
            }
            _ => return Ok(path),
        }
    }
    Err(other("its links go in a circle"))
}

/// A new file that is to take its place when it is done. Dropped before, or ended by a signal, it leaves nothing behind.
pub(crate) struct Replacement {
    file: File,
    target: Target,
    /// Its name, where it has to have one before it is done.
    named: Option<Named>,
}

/// The name of a temporary file. Dropped, the file is removed; a signal that ends the tool removes it too.
struct Named {
    path: PathBuf,
    _unfinished: Unfinished,
}

impl Drop for Named {
    fn drop(&mut self) {
        // Where it took its place it is no longer there.
        let _ = fs::remove_file(&self.path);
    }
}

impl Replacement {
    /// A file of this many bytes that is to take this place.
    pub(crate) fn new(target: Target, len: u64) -> io::Result<Replacement> {
        // Until it is done nobody may read it who may not read what is there.
        let mode = match target.was {
            Some(_) => 0o600,
            None => 0o666,
        };
        let (file, named) = match unnamed(folder(&target.path), mode)? {
            Some(file) => (file, None),
            None => {
                let (file, named) = named(folder(&target.path), mode)?;
                (file, Some(named))
            }
        };
        // From here on whatever fails lets go of the file again.
        let replacement = Replacement {
            file,
            target,
            named,
        };
        os::allocate(&replacement.file, len)?;
        Ok(replacement)
    }

    /// The file's bytes, to be written.
    pub(crate) fn map(&mut self, len: usize) -> io::Result<MmapMut> {
        os::map_mut(&self.file, len)
    }

    /// Brings the file to the disk, with the owner and the mode of what was there, where the system lets us.
    pub(crate) fn save(&self) -> io::Result<()> {
        if let Some(was) = &self.target.was {
            let mut mode = was.mode() & 0o7777;
            if os::give(&self.file, Some(was.uid()), was.gid()).is_err() {
                // Another's file: what runs as its owner must not run as this user.
                mode &= 0o777;
                if os::give(&self.file, None, was.gid()).is_err() {
                    // The group that it has may do no more than everybody.
                    mode = mode & 0o707 | (mode & 0o007) << 3;
                }
            }
            self.file.set_permissions(Permissions::from_mode(mode))?;
        }
        self.file.sync_all()
    }

    /// Puts the file in its place. Where there was nothing, and now there is something, that is an error.
    pub(crate) fn finish(self) -> io::Result<()> {
        let Replacement {
            file,
            target,
            named,
        } = self;
        let to = &target.path;
        match (named, target.was) {
            (None, None) => os::link(&file, to).map_err(taken)?,
            (None, Some(_)) => os::uninterrupted(|| {
                // Only a name can take another's place: for a moment, which nothing can cut short but SIGKILL, there is one.
                let name = free_name(folder(to), |name| os::link(&file, name))?;
                fs::rename(&name, to).map_err(|error| {
                    let _ = fs::remove_file(&name);
                    error
                })
            })?,
            (Some(named), None) => match fs::hard_link(&named.path, to) {
                Ok(()) => {}
                // A file system without second names.
                Err(error)
                    if error.kind() != io::ErrorKind::AlreadyExists
                        && fs::symlink_metadata(to).is_err() =>
                {
                    fs::rename(&named.path, to)?
                }
                Err(error) => return Err(taken(error)),
            },
            (Some(named), Some(_)) => fs::rename(&named.path, to)?,
        }
        // The name is on the disk when the folder is; not every file system can be asked for that.
        if let Ok(folder) = File::open(folder(to)) {
            let _ = folder.sync_all();
        }
        Ok(())
    }
}

/// Why a file cannot be written, as it is told.
pub(crate) fn words(error: &io::Error) -> String {
    match error.kind() {
        io::ErrorKind::PermissionDenied => {
            String::from("it may not be written (permission denied)")
        }
        io::ErrorKind::NotFound => String::from("there is no such folder"),
        _ => error.to_string(),
    }
}

fn other(words: &str) -> io::Error {
    io::Error::new(io::ErrorKind::Other, words)
}

/// That there is something in the place already.
fn there() -> io::Error {
    other("it is there already; with --force it is replaced")
}

/// Somebody else was faster.
fn taken(error: io::Error) -> io::Error {
    match error.kind() {
        io::ErrorKind::AlreadyExists => there(),
        _ => error,
    }
}

/// The folder of a file.
fn folder(path: &Path) -> &Path {
    match path.parent() {
        Some(folder) if folder != Path::new("") => folder,
        _ => Path::new("."),
    }
}

/// A new file in a folder without a name, where the system has that, and a way to name it later.
fn unnamed(folder: &Path, mode: u32) -> io::Result<Option<File>> {
    if env::var_os(NAMED).is_some() {
        return Ok(None);
    }
    let opened = OpenOptions::new()
        .read(true)
        .write(true)
        .mode(mode)
        .custom_flags(libc::O_TMPFILE)
        .open(folder);
    match opened {
        Ok(file) => {
            let can_be_named = fs::metadata(os::name_of_open(&file)).is_ok();
            Ok(Some(file).filter(|_| can_be_named))
        }
        Err(error) => match error.raw_os_error() {
            // A file system, or a system, that has none.
            Some(libc::EOPNOTSUPP | libc::EISDIR | libc::EINVAL) => Ok(None),
            _ => Err(error),
        },
    }
}

/// A new file in a folder under a name that nobody has. A signal removes it from the moment that it is there: what is to be
/// removed is said before. The name has this process in it, so that there is nobody else's file to be removed by it.
fn named(folder: &Path, mode: u32) -> io::Result<(File, Named)> {
    let mut options = OpenOptions::new();
    options.read(true).write(true).create_new(true).mode(mode);
    let mut made = None;
    let path = free_name(folder, |name| {
        let unfinished = Unfinished::new(name);
        made = Some((options.open(name)?, unfinished));
        Ok(())
    })?;
    let (file, unfinished) = made.ok_or_else(|| other("it could not be made"))?;
    Ok((
        file,
        Named {
            path,
            _unfinished: unfinished,
        },
    ))
}

/// Makes something of a name in a folder that nobody has, and answers the name. It is short, whatever the file is to be called.
fn free_name(folder: &Path, mut make: impl FnMut(&Path) -> io::Result<()>) -> io::Result<PathBuf> {
    for attempt in 0..TRIES {
        let name = folder.join(format!(".inscjarol-{}-{attempt}.tmp", process::id()));
        match make(&name) {
            Ok(()) => return Ok(name),
            Err(error) if error.kind() == io::ErrorKind::AlreadyExists => continue,
            Err(error) => return Err(error),
        }
    }
    Err(other(
        "there is no free name for a temporary file beside it",
    ))
}
