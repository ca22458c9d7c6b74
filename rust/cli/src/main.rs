//! The command-line tool `inscjarol`: `inscjarol help` teaches it. This file has the commands, their help, and how what comes
//! of them becomes an exit status.
//!
//! A command is a file with a constant `COMMAND`, and a line in the table below. Only `os.rs` has `unsafe`: the calls of the
//! operating system that the standard library does not have.

#![deny(unsafe_code, missing_docs)]
#![cfg_attr(
    not(test),
    deny(
        clippy::unwrap_used,
        clippy::expect_used,
        clippy::panic,
        clippy::unreachable,
        clippy::indexing_slicing,
        clippy::print_stdout,
        clippy::print_stderr
    )
)]
// Clippy as Debian packages it asks for `write!` into a string, whose error would have to be dropped each time.
#![allow(clippy::format_push_string)]

mod append;
mod args;
mod ask;
mod audit;
mod check;
mod classify;
mod columns;
mod convert;
mod decimal;
mod documented;
mod extra;
mod fields;
mod grid;
mod held;
mod info;
mod input;
mod json;
mod known;
mod near;
mod os;
mod output;
mod page;
mod parts;
mod picture;
mod png;
mod points;
mod progress;
mod replace;
mod rewrite;
mod sheet;
mod show;
mod to;

use args::{Opt, Words};
use output::Output;
use std::{env, ffi::OsString, fmt::Write as _, io, path::Path, process::ExitCode};

/// A command: a new one is a file with a constant of this type, and a line in the table below.
pub(crate) struct Command {
    /// What it is called by.
    name: &'static str,
    /// What it takes, as it stands in its usage line.
    operands: &'static str,
    /// The fewest and the most of them.
    count: (usize, usize),
    /// What it does, in a line.
    summary: &'static str,
    /// Its options, besides `--json` and `--help`.
    options: &'static [Opt],
    /// The rest of its help.
    help: &'static str,
    /// Itself.
    run: fn(&Words, &mut Output) -> Result<Status, Failure>,
}

/// Every command, in the order in which help tells them.
const COMMANDS: &[Command] = &[
    check::COMMAND,
    audit::COMMAND,
    parts::COMMAND,
    info::COMMAND,
    grid::COMMAND,
    points::COMMAND,
    sheet::COMMAND,
    ask::COMMAND,
    convert::COMMAND,
    rewrite::COMMAND,
    append::COMMAND,
    classify::COMMAND,
];

/// The options of every command.
const COMMON: &[Opt] = &[
    Opt {
        name: "json",
        value: None,
        help: "answer in JSON, for programs: 'inscjarol help json'",
    },
    Opt {
        name: "help",
        value: None,
        help: "show this help",
    },
];

/// How a command ended; the worst of several counts.
#[derive(Clone, Copy, Debug, PartialEq, Eq, PartialOrd, Ord)]
pub(crate) enum Status {
    /// All is well: 0.
    Done,
    /// A file was refused: 1.
    Refused,
    /// Wrong use, or a file could not be read or written: 2.
    Failed,
}

impl Status {
    fn code(self) -> u8 {
        match self {
            Status::Done => 0,
            Status::Refused => 1,
            Status::Failed => 2,
        }
    }
}

/// Why a command could not go on.
#[derive(Debug)]
pub(crate) enum Failure {
    /// Nobody reads what it writes any more; that is no error.
    Closed,
    /// It was called in a wrong way.
    Usage(String),
    /// Something could not be read or written.
    Io(String),
}

/// What is written to is the standard output.
impl From<io::Error> for Failure {
    fn from(error: io::Error) -> Failure {
        match error.kind() {
            io::ErrorKind::BrokenPipe => Failure::Closed,
            _ => Failure::Io(format!("standard output: {error}")),
        }
    }
}

fn main() -> ExitCode {
    os::say_instead_of_signals();
    let mut out = Output::new();
    let ended = run(env::args_os().skip(1), &mut out).and_then(|status| {
        out.flush()?;
        Ok(status)
    });
    let status = match ended {
        Ok(status) => status,
        Err(Failure::Closed) => Status::Done,
        Err(Failure::Usage(words) | Failure::Io(words)) => {
            out.tell(&words);
            Status::Failed
        }
    };
    ExitCode::from(status.code())
}

/// The command with this name.
fn command(name: &str) -> Option<&'static Command> {
    COMMANDS.iter().find(|command| command.name == name)
}

/// Runs the tool with these words. What every command takes may stand before the command too.
fn run(mut words: impl Iterator<Item = OsString>, out: &mut Output) -> Result<Status, Failure> {
    let mut json = false;
    let name = loop {
        let word = words.next().ok_or_else(|| {
            Failure::Usage(format!("no command was given\n\n{}", overview().trim_end()))
        })?;
        match word.to_string_lossy().as_ref() {
            "--json" => json = true,
            "help" | "--help" | "-h" => return help(words.next(), out),
            "version" | "--version" | "-V" => {
                out.line(concat!("inscjarol ", env!("CARGO_PKG_VERSION")))?;
                return Ok(Status::Done);
            }
            name => break name.to_string(),
        }
    };
    let command = command(&name).ok_or_else(|| unknown(&name))?;
    let words = Words::of(command, words)?;
    if words.has("help") {
        out.line(&taught(command))?;
        return Ok(Status::Done);
    }
    words.counted(command)?;
    out.json = json || words.has("json");
    (command.run)(&words, out)
}

/// `inscjarol help`, or `inscjarol help COMMAND`.
fn help(name: Option<OsString>, out: &mut Output) -> Result<Status, Failure> {
    let text = match &name {
        None => overview(),
        Some(name) => match name.to_string_lossy().as_ref() {
            "help" => String::from(HELP),
            "json" => documented::text(),
            "version" => String::from("inscjarol version: say which version of the tool this is"),
            name => taught(command(name).ok_or_else(|| unknown(name))?),
        },
    };
    out.line(text.trim_end())?;
    Ok(Status::Done)
}

/// What help says of itself.
const HELP: &str = "\
inscjarol help: teach a command

Usage: inscjarol help [COMMAND]

Without a command it says which commands there are. 'inscjarol COMMAND --help' says the same as 'inscjarol help COMMAND'.
'inscjarol help json' says what --json prints, field by field.

Examples:
  inscjarol help points
  inscjarol help json";

/// That there is no such command, and what could be meant.
fn unknown(name: &str) -> Failure {
    let mut names: Vec<&str> = COMMANDS.iter().map(|command| command.name).collect();
    names.push("help");
    names.push("version");
    if let Some(option) = name.strip_prefix('-').filter(|option| !option.is_empty()) {
        let option = option.trim_start_matches('-');
        let meant = near::nearest(option, ["json", "help", "version"]);
        let meant = meant.map_or_else(String::new, |near| format!("; did you mean --{near}?"));
        return Failure::Usage(format!(
            "there is no option '{name}' before the command{meant}"
        ));
    }
    let meant = match near::nearest(name, names.iter().copied()) {
        _ if name == "-" || Path::new(name).exists() => {
            format!("; a command comes first, as in 'inscjarol check {name}'")
        }
        Some(near) => format!("; did you mean {near}?"),
        None => String::new(),
    };
    Failure::Usage(format!(
        "there is no command '{name}' (there are {}){meant}",
        names.join(", ")
    ))
}

/// What the tool is and which commands it has.
fn overview() -> String {
    let mut text = String::from(
        "inscjarol looks at LAS files (lidar point clouds), by a library that is machine-proved.\n\n\
         Usage: inscjarol COMMAND [OPTIONS] FILE..\n\n",
    );
    for command in COMMANDS {
        let _ = writeln!(text, "  {:<9}{}", command.name, command.summary);
    }
    text.push_str(
        "  help     teach a command: inscjarol help points\n\n\
         Files may be of any size; - is the standard input. Of a folder check, audit, parts, info, grid, sheet, ask and convert\n\
         take the .las files.\n\
         Every command takes --json: 'inscjarol help json' says what that prints.\n\
         Exit status: 0 all is well, 1 a file was refused or something found, 2 wrong use or a file that cannot be read or\n\
         written.\n\n\
         To begin with:\n  inscjarol check *.las\n  inscjarol info FILE\n  inscjarol points FILE | head\n",
    );
    text
}

/// All that there is to know of a command.
fn taught(command: &Command) -> String {
    let mut text = format!(
        "inscjarol {}: {}\n\nUsage: inscjarol {} [OPTIONS] {}\n\n{}\n\nOptions:\n",
        command.name,
        command.summary,
        command.name,
        command.operands,
        command.help.trim().replace("{fields}", &fields::listed())
    );
    for option in command.options.iter().chain(COMMON) {
        let name = match option.value {
            Some(value) => format!("--{} {value}", option.name),
            None => format!("--{}", option.name),
        };
        let _ = writeln!(text, "  {name:<18}{}", option.help);
    }
    text.trim_end().to_string()
}

#[cfg(test)]
mod tests {
    use super::*;

    #[test]
    fn the_worst_status_counts() {
        assert_eq!(
            Status::Done.max(Status::Refused).max(Status::Done).code(),
            1
        );
        assert_eq!(Status::Refused.max(Status::Failed).code(), 2);
    }

    #[test]
    fn every_command_is_taught() {
        for command in COMMANDS {
            assert!(overview().contains(command.summary));
            let text = taught(command);
            assert!(text.contains("Usage: inscjarol") && text.contains("--json"));
            assert!(command.count.0 <= command.count.1);
            let longest = text.lines().map(str::len).max();
            assert!(longest <= Some(120), "{}: {longest:?}", command.name);
        }
        assert!(command("check").is_some() && command("chek").is_none());
    }
}
