//! Where a command writes: the standard output, locked and buffered, and sentences on the standard error.

use super::{input::Name, json::Object, show::plain, Failure, Status};
use inscjarol::Refusal;
use std::io::{self, BufWriter, StdoutLock, Write};

/// The standard output and how it is to be written.
pub(crate) struct Output {
    to: BufWriter<StdoutLock<'static>>,
    /// Whether it is for programs.
    pub(crate) json: bool,
    /// Whether the command goes on when nobody reads it any more, since telling is not all that it does.
    pub(crate) goes_on: bool,
}

impl Output {
    pub(crate) fn new() -> Output {
        Output {
            to: BufWriter::with_capacity(1 << 16, io::stdout().lock()),
            json: false,
            goes_on: false,
        }
    }

    /// Writes a line.
    pub(crate) fn line(&mut self, text: &str) -> Result<(), Failure> {
        self.bytes(text.as_bytes())?;
        self.bytes(b"\n")
    }

    /// Writes bytes.
    pub(crate) fn bytes(&mut self, bytes: &[u8]) -> Result<(), Failure> {
        let written = self.to.write_all(bytes);
        self.heard(written)
    }

    /// Lets go of all that was written.
    pub(crate) fn flush(&mut self) -> Result<(), Failure> {
        let written = self.to.flush();
        self.heard(written)
    }

    /// What comes of writing.
    fn heard(&self, written: io::Result<()>) -> Result<(), Failure> {
        match written.map_err(Failure::from) {
            Err(Failure::Closed) if self.goes_on => Ok(()),
            written => written,
        }
    }

    /// Says a sentence on the standard error, after all that was written; where it cannot be said, nobody listens. Whatever
    /// stands in it, it steers no terminal.
    pub(crate) fn tell(&mut self, words: &str) {
        let _ = self.to.flush();
        let lines: Vec<String> = words.lines().map(plain).collect();
        let _ = writeln!(io::stderr(), "inscjarol: {}", lines.join("\n"));
    }

    /// Says that a file could not be read or written.
    pub(crate) fn failed(&mut self, name: &Name, words: &str) -> Result<Status, Failure> {
        if self.json {
            self.line(&name.object().text("error", words).finish())?;
        }
        self.tell(&format!("{name}: {words}"));
        Ok(Status::Failed)
    }

    /// Says that a file is no whole LAS file, so that what was asked of it was not written.
    pub(crate) fn unwritten(&mut self, name: &Name, refusal: &Refusal) -> Result<Status, Failure> {
        match self.json {
            true => {
                let mut object = name.object();
                object.bool("accepted", false).bool("written", false);
                object.object("refusal", refusal_object(refusal));
                self.line(&object.finish())?;
            }
            false => self.tell(&format!("{name}: {refusal:?}")),
        }
        Ok(Status::Refused)
    }

    /// Says that a file was refused: in JSON on the standard output, else in words on the standard error.
    pub(crate) fn refused(&mut self, name: &Name, refusal: &Refusal) -> Result<Status, Failure> {
        if self.json {
            let mut object = name.object();
            object
                .bool("accepted", false)
                .object("refusal", refusal_object(refusal));
            self.line(&object.finish())?;
        } else {
            // Its numbers and its words.
            self.tell(&format!("{name}: {refusal:?}"));
        }
        Ok(Status::Refused)
    }
}

/// A refusal for programs.
pub(crate) fn refusal_object(refusal: &Refusal) -> Object {
    let mut object = Object::new();
    object
        .number("number", refusal.number())
        .text("name", refusal.name())
        .number("value", refusal.value())
        .number("record", refusal.record())
        .text("words", &refusal.to_string());
    object
}
