//! New files, to be appended to.

use crate::{
    attributes::{self, Descriptor},
    error::Error,
    file::File,
    format::Format,
    header::{Header, Version},
    refusal::{Kind, Refusal},
    text,
    vlr::Vlr,
};
use std::{
    fs,
    io::{self, Write},
    path::{Path, PathBuf},
    process,
};

/// How many names are tried for a file that is not finished.
const TRIES: u32 = 100;

/// The settings of a new file of LAS 1.2 without points, for a scanner to begin with.
///
/// ```
/// use inscjarol::{File, NewFile, Vlr};
/// # fn main() -> Result<(), inscjarol::Error> {
///
/// let bytes = NewFile::new(3)
///     .extra_bytes(2)
///     .scale([0.001; 3])
///     .offset([500_000.0, 4_100_000.0, 0.0])
///     .system("scanner 7")
///     .software("firmware 2.1")
///     .created(2026, 320)
///     .vlr(Vlr::new(false, "scanner", 1, "lens", b"wide"))
///     .room(1_000)
///     .to_vec()?;
/// let file = File::check(&bytes)?;
/// assert_eq!((file.format().extra_bytes, file.vlrs().len(), file.points().len()), (2, 1, 0));
///
/// // What LAS 1.2 does not have is refused.
/// let refusal = NewFile::new(6).to_vec().unwrap_err();
/// assert!(refusal.to_string().contains("1.2 has 0 to 3"));
/// # Ok(())
/// # }
/// ```
#[derive(Clone, Debug)]
#[must_use = "nothing is made before `create` or `to_vec`"]
pub struct NewFile<'a> {
    format: u8,
    extra_bytes: u16,
    scale: [f64; 3],
    offset: [f64; 3],
    source_id: u16,
    global_encoding: u16,
    guid: [u8; 16],
    system: &'a str,
    software: &'a str,
    year: u16,
    day_of_year: u16,
    descriptors: Vec<Descriptor>,
    vlrs: Vec<Vlr<'a>>,
    room: u64,
}

impl<'a> NewFile<'a> {
    /// A file of this point format, 0 to 3, with points in thousandths, and nothing else.
    pub fn new(format: u8) -> NewFile<'a> {
        NewFile {
            format,
            extra_bytes: 0,
            scale: [0.001; 3],
            offset: [0.0; 3],
            source_id: 0,
            global_encoding: 0,
            guid: [0; 16],
            system: "",
            software: "inscjarol",
            year: 0,
            day_of_year: 0,
            descriptors: Vec::new(),
            vlrs: Vec::new(),
            room: 0,
        }
    }

    /// How many extra bytes each point has, besides those of its attributes; 0 where it is not said.
    pub fn extra_bytes(self, extra_bytes: u16) -> Self {
        Self {
            extra_bytes,
            ..self
        }
    }

    /// What a step of x, y and z is; 0.001 where it is not said.
    pub fn scale(self, scale: [f64; 3]) -> Self {
        Self { scale, ..self }
    }

    /// Where x, y and z count from; 0 where it is not said.
    pub fn offset(self, offset: [f64; 3]) -> Self {
        Self { offset, ..self }
    }

    /// The file source id, as of a flight line; 0 where it is not said.
    pub fn source_id(self, source_id: u16) -> Self {
        Self { source_id, ..self }
    }

    /// The bits of global encoding, of which the lowest says that GPS times are standard GPS time less 10^9; 0 where it is not
    /// said, which is GPS week time.
    pub fn global_encoding(self, global_encoding: u16) -> Self {
        Self {
            global_encoding,
            ..self
        }
    }

    /// The project id.
    pub fn guid(self, guid: [u8; 16]) -> Self {
        Self { guid, ..self }
    }

    /// The system identifier, as the name of the scanner: at most 32 bytes.
    pub fn system(self, system: &'a str) -> Self {
        Self { system, ..self }
    }

    /// The generating software: at most 32 bytes.
    pub fn software(self, software: &'a str) -> Self {
        Self { software, ..self }
    }

    /// The year and the day of the year, 1 for the first of January, in which the file is made.
    pub fn created(self, year: u16, day_of_year: u16) -> Self {
        Self {
            year,
            day_of_year,
            ..self
        }
    }

    /// The attributes that each point has, behind those that were given before: their values are the first of its extra bytes, in this
    /// order, and the first VLR of the file describes them.
    ///
    /// ```
    /// use inscjarol::{Append, DataType, Descriptor, File, NewFile, Point};
    /// # fn main() -> Result<(), inscjarol::Error> {
    ///
    /// let reflectance = Descriptor::new("reflectance", DataType::I16).with_scale(0.01);
    /// let pulse_width = Descriptor::new("pulse width", DataType::U16);
    /// let mut bytes = NewFile::new(1).attributes(&[reflectance, pulse_width]).room(1).to_vec()?;
    ///
    /// // The values of a point, each with its lowest byte first.
    /// let mut extra_bytes = Vec::new();
    /// extra_bytes.extend((-1_208_i16).to_le_bytes());
    /// extra_bytes.extend(37_u16.to_le_bytes());
    /// let file = File::check(&bytes)?;
    /// let point = Point { extra_bytes: &extra_bytes, ..Point::default() };
    /// let records = point.to_vec(file.format())?;
    /// Append::of(&file, &records, 0).apply(&mut bytes)?;
    ///
    /// let file = File::check(&bytes)?;
    /// let attributes = file.attributes()?;
    /// assert_eq!(attributes.find("reflectance")?.scaled(1)?, Some(-12.08));
    /// assert_eq!(attributes.find("pulse width")?.scaled(1)?, Some(37.0));
    /// # Ok(())
    /// # }
    /// ```
    pub fn attributes(mut self, descriptors: &[Descriptor]) -> Self {
        self.descriptors.extend(descriptors);
        self
    }

    /// One VLR more, behind those that were given before. One that says to be extended is written as a VLR all the same, since
    /// LAS 1.2 has no others.
    pub fn vlr(mut self, vlr: Vlr<'a>) -> Self {
        self.vlrs.push(Vlr {
            extended: false,
            ..vlr
        });
        self
    }

    /// How many points there is to be room for; 0 where it is not said. A file without room is made longer by each append,
    /// which takes a little time.
    pub fn room(self, room: u64) -> Self {
        Self { room, ..self }
    }

    /// The file's bytes: header and VLRs by the library's writers, and zeros for the room. Refused as the library does, and where
    /// a setting is none that a file can have.
    pub fn to_vec(&self) -> Result<Vec<u8>, Error> {
        let mut bytes = self.front()?;
        let len = self.len(&bytes)?;
        let len = usize::try_from(len).map_err(|_| no_room())?;
        let more = len.saturating_sub(bytes.len());
        bytes
            .try_reserve_exact(more)
            .map_err(|_| Error::Setting(format!("there is no memory for a file of {len} bytes")))?;
        bytes.resize(len, 0);
        Ok(bytes)
    }

    /// Makes the file on the disk, refused as [`NewFile::to_vec`] does. Where something has the name already, that is an error
    /// ([`io::ErrorKind::AlreadyExists`]), and it stays. The file takes its name when all of it is on the disk, so that a cut of
    /// the power leaves it or none; what may be left then is a file beside it whose name begins with `.inscjarol-`.
    pub fn create(&self, path: impl AsRef<Path>) -> Result<(), Error> {
        let path = path.as_ref();
        let front = self.front()?;
        let len = self.len(&front)?;
        if fs::symlink_metadata(path).is_ok() {
            return Err(there().into());
        }
        let folder = match path.parent() {
            Some(folder) if folder != Path::new("") => folder,
            _ => Path::new("."),
        };
        let (mut file, unfinished) = unnamed(folder)?;
        let made = file
            .write_all(&front)
            .and_then(|()| file.set_len(len))
            .and_then(|()| file.sync_all())
            .and_then(|()| name(&unfinished, path));
        // Where the name was moved and not given a second time, there is nothing to be removed.
        let _ = fs::remove_file(&unfinished);
        // The name is on the disk when the folder is; not every file system can be asked for that.
        if let Ok(folder) = fs::File::open(folder) {
            let _ = folder.sync_all();
        }
        Ok(made?)
    }

    /// Header and VLRs.
    fn front(&self) -> Result<Vec<u8>, Error> {
        self.judge()?;
        let format = Format::new(self.format)?.with_extra_bytes(self.all_extra_bytes()?);
        let described = attributes::to_vlr_data(&self.descriptors);
        let description = Vlr::new(
            false,
            attributes::USER_ID,
            attributes::RECORD_ID,
            "extra bytes",
            &described,
        );
        let describing = (!described.is_empty()).then_some(&description);
        let (mut vlrs, mut number_of_vlrs) = (Vec::new(), 0_u32);
        for vlr in describing.into_iter().chain(&self.vlrs) {
            vlrs.extend(vlr.to_vec()?);
            // As many as fit before the points fit into the field.
            number_of_vlrs = number_of_vlrs.saturating_add(1);
        }
        let mut header = Header::new(Version { major: 1, minor: 2 })?;
        let offset = vlrs.len().saturating_add(usize::from(header.header_size));
        header.offset_to_point_data = u32::try_from(offset).map_err(|_| {
            Error::Setting(format!(
                "with these VLRs the points would begin at byte {offset}: 4294967295 is the last at which they can"
            ))
        })?;
        header.number_of_variable_length_records = number_of_vlrs;
        header.point_data_record_format = self.format;
        header.point_data_record_length = format.len()?;
        header.file_source_id = self.source_id;
        header.global_encoding = self.global_encoding;
        header.guid = self.guid;
        header.system_identifier = text::field(self.system);
        header.generating_software = text::field(self.software);
        header.file_creation_year = self.year;
        header.file_creation_day_of_year = self.day_of_year;
        [
            header.x_scale_factor,
            header.y_scale_factor,
            header.z_scale_factor,
        ] = self.scale;
        [header.x_offset, header.y_offset, header.z_offset] = self.offset;
        let mut bytes = header.to_vec(&[])?;
        bytes.extend(vlrs);
        // That the format is one of LAS 1.2 is the file check's to say.
        File::check(&bytes)?;
        Ok(bytes)
    }

    /// The extra bytes of each point: those of its attributes, and then the others.
    fn all_extra_bytes(&self) -> Result<u16, Error> {
        let sizes = (self.descriptors.iter()).map(|descriptor| descriptor.data_type().size());
        let bytes = sizes.fold(usize::from(self.extra_bytes), usize::saturating_add);
        u16::try_from(bytes).map_err(|_| {
            Error::Setting(format!(
                "a point would have {bytes} extra bytes with these attributes: 65535 are the most that can be counted"
            ))
        })
    }

    /// That the settings are of a file that somebody can use; the rules of the format are the library's to know.
    fn judge(&self) -> Result<(), Error> {
        let wrong = |words: String| Err(Error::Setting(words));
        for (what, text) in [
            ("system identifier", self.system),
            ("generating software", self.software),
        ] {
            if text.len() > 32 {
                return wrong(format!(
                    "the {what} {text:?} has {} bytes: the header has room for 32",
                    text.len()
                ));
            }
        }
        if let Some(scale) = (self.scale.iter()).find(|scale| !(scale.is_normal() && **scale > 0.0))
        {
            return wrong(format!(
                "a scale is {scale}: what a step is has to be a number above zero, as 0.001"
            ));
        }
        if let Some(offset) = self.offset.iter().find(|offset| !offset.is_finite()) {
            return wrong(format!("an offset is {offset}, which is no number"));
        }
        if self.day_of_year > 366 {
            return wrong(format!(
                "the day of the year is {}: it is 1 to 366, or 0 where it is not known",
                self.day_of_year
            ));
        }
        Ok(())
    }

    /// The bytes of the file, whose first are these.
    fn len(&self, front: &[u8]) -> Result<u64, Error> {
        let header = Header::read(front)?;
        let room = self
            .room
            .checked_mul(u64::from(header.point_data_record_length));
        room.and_then(|room| room.checked_add(front.len() as u64))
            .ok_or_else(no_room)
    }
}

/// That there would be more bytes than can be counted: no room, by the library's table with value 0.
fn no_room() -> Error {
    Refusal::from_row(Kind::NoRoom.number(), 0, 0).into()
}

/// A new file in a folder, under a name that nobody has.
fn unnamed(folder: &Path) -> io::Result<(fs::File, PathBuf)> {
    let mut options = fs::OpenOptions::new();
    options.write(true).create_new(true);
    for attempt in 0..TRIES {
        let name = folder.join(format!(".inscjarol-{}-{attempt}.new", process::id()));
        match options.open(&name) {
            Ok(file) => return Ok((file, name)),
            Err(error) if error.kind() == io::ErrorKind::AlreadyExists => continue,
            Err(error) => return Err(error),
        }
    }
    Err(io::Error::new(
        io::ErrorKind::AlreadyExists,
        "there is no free name for an unfinished file beside it",
    ))
}

/// Gives a file the name that it is to have, which nothing may have yet.
fn name(unfinished: &Path, path: &Path) -> io::Result<()> {
    match fs::hard_link(unfinished, path) {
        // A file system without second names, as that of many cards.
        Err(error)
            if error.kind() != io::ErrorKind::AlreadyExists
                && fs::symlink_metadata(path).is_err() =>
        {
            fs::rename(unfinished, path)
        }
        Err(error) if error.kind() == io::ErrorKind::AlreadyExists => Err(there()),
        named => named,
    }
}

/// That something has the name already.
fn there() -> io::Error {
    io::Error::new(io::ErrorKind::AlreadyExists, "it is there already")
}
