//! The words of a command line: options and files.

use super::{near, Command, Failure, COMMON};
use std::ffi::{OsStr, OsString};

/// An option that a command takes.
pub(crate) struct Opt {
    /// Its name, without the two dashes.
    pub(crate) name: &'static str,
    /// What its value is, if it takes one.
    pub(crate) value: Option<&'static str>,
    /// What it does, in a line.
    pub(crate) help: &'static str,
}

/// A command's words, taken apart.
pub(crate) struct Words {
    options: Vec<(&'static str, OsString)>,
    /// The files, or whatever else the command takes.
    pub(crate) files: Vec<OsString>,
}

impl Words {
    /// Takes the words of a command apart. An option is `--name`, its value the next word or after an equals sign; after
    /// `--` there are none.
    pub(crate) fn of(
        command: &Command,
        mut words: impl Iterator<Item = OsString>,
    ) -> Result<Words, Failure> {
        let known = || command.options.iter().chain(COMMON);
        let mut taken = Words {
            options: Vec::new(),
            files: Vec::new(),
        };
        while let Some(word) = words.next() {
            if word == "--" {
                taken.files.extend(words);
                break;
            }
            // An option's name and all that the tool takes as a value is text.
            let text = word.to_string_lossy();
            let named = match text.as_ref() {
                "-h" => Some("help"),
                "-" => None,
                text => text.strip_prefix("--").or_else(|| text.strip_prefix('-')),
            };
            let named = match named {
                Some(named) => named.to_string(),
                None => {
                    taken.files.push(word);
                    continue;
                }
            };
            let (name, given) = match named.split_once('=') {
                Some((name, given)) => (name, Some(OsString::from(given))),
                None => (named.as_str(), None),
            };
            let option = match known().find(|option| option.name == name) {
                Some(option) if !text.starts_with("--") && text != "-h" => {
                    return Err(wrong(command, format!("the option is --{}", option.name)));
                }
                Some(option) => option,
                None => {
                    let near = near::nearest(name, known().map(|option| option.name));
                    let meant =
                        near.map_or_else(String::new, |near| format!("; did you mean --{near}?"));
                    return Err(wrong(
                        command,
                        format!("there is no option '{text}'{meant}"),
                    ));
                }
            };
            let value = match (option.value, given) {
                (None, None) => OsString::new(),
                (None, Some(_)) => return Err(wrong(command, format!("--{name} takes no value"))),
                (Some(_), Some(given)) => given,
                (Some(what), None) => match words.next() {
                    Some(next) => next,
                    None => return Err(wrong(command, format!("--{name} needs {what}"))),
                },
            };
            taken.options.push((option.name, value));
        }
        Ok(taken)
    }

    /// That there are as many files as the command takes.
    pub(crate) fn counted(&self, command: &Command) -> Result<(), Failure> {
        let (least, most) = command.count;
        match self.files.len() {
            n if n < least => Err(wrong(command, format!("it needs {}", command.operands))),
            n if n > most => Err(wrong(
                command,
                format!("it takes {} and no more", command.operands),
            )),
            _ => Ok(()),
        }
    }

    /// Whether an option was given.
    pub(crate) fn has(&self, name: &str) -> bool {
        self.value(name).is_some()
    }

    /// The value of an option; the last where it was given twice.
    pub(crate) fn value(&self, name: &str) -> Option<&OsStr> {
        let given = self
            .options
            .iter()
            .rev()
            .find(|(option, _)| *option == name);
        given.map(|(_, value)| value.as_os_str())
    }

    /// These options with their values, as often as they were given and in that order.
    pub(crate) fn given<'w>(
        &'w self,
        names: &'w [&str],
    ) -> impl Iterator<Item = (&'static str, &'w OsStr)> {
        let given = self.options.iter().filter(|(name, _)| names.contains(name));
        given.map(|(name, value)| (*name, value.as_os_str()))
    }

    /// The number that an option has.
    pub(crate) fn number(&self, name: &str) -> Result<Option<u64>, Failure> {
        let value = self.value(name);
        value.map(|value| number(name, value)).transpose()
    }
}

/// The number that is an option's value.
pub(crate) fn number(name: &str, value: &OsStr) -> Result<u64, Failure> {
    let text = value.to_string_lossy();
    let number = text.parse();
    number.map_err(|_| Failure::Usage(format!("--{name} needs a number, and '{text}' is none")))
}

/// What is wrong, and where to read how it goes.
fn wrong(command: &Command, words: String) -> Failure {
    let after = if words.ends_with('?') { "" } else { ";" };
    Failure::Usage(format!(
        "{}: {words}{after} 'inscjarol help {}' tells how it goes",
        command.name, command.name
    ))
}

#[cfg(test)]
mod tests {
    use super::*;
    use crate::Status;

    const COMMAND: Command = Command {
        name: "try",
        operands: "FILE..",
        count: (1, 2),
        summary: "",
        options: &[Opt {
            name: "limit",
            value: Some("N"),
            help: "",
        }],
        help: "",
        run: |_, _| Ok(Status::Done),
    };

    fn words(words: &[&str]) -> Result<Words, String> {
        let words = words.iter().map(OsString::from);
        let taken =
            Words::of(&COMMAND, words).and_then(|words| words.counted(&COMMAND).map(|()| words));
        taken.map_err(|failure| match failure {
            Failure::Usage(words) => words,
            other => panic!("{other:?}"),
        })
    }

    #[test]
    fn options_and_files_in_any_order() {
        let taken =
            words(&["a", "--limit", "5", "--json", "b"]).unwrap_or_else(|words| panic!("{words}"));
        assert_eq!(taken.files, ["a", "b"]);
        assert!(taken.has("json") && !taken.has("help"));
        assert!(matches!(taken.number("limit"), Ok(Some(5))));
        let taken =
            words(&["--limit=7", "--limit=8", "-"]).unwrap_or_else(|words| panic!("{words}"));
        assert!(matches!(taken.number("limit"), Ok(Some(8))));
        assert_eq!(taken.files, ["-"]);
        let taken = words(&["--", "--json", "-x"]).unwrap_or_else(|words| panic!("{words}"));
        assert_eq!(taken.files, ["--json", "-x"]);
    }

    #[test]
    fn what_is_wrong_is_said() {
        let said = |given: &[&str]| words(given).err().unwrap_or_default();
        assert!(said(&[]).contains("it needs FILE.."));
        assert!(said(&["a", "b", "c"]).contains("and no more"));
        assert!(said(&["a", "--jsn"]).contains("no option '--jsn'; did you mean --json? 'insc"));
        assert!(said(&["a", "--wholly"]).contains("no option '--wholly'; 'insc"));
        assert!(said(&["a", "-json"]).contains("the option is --json"));
        assert!(said(&["a", "--json=1"]).contains("takes no value"));
        assert!(said(&["a", "--limit"]).contains("needs N"));
        let taken = words(&["a", "--limit", "five"]).unwrap_or_else(|words| panic!("{words}"));
        assert!(
            matches!(taken.number("limit"), Err(Failure::Usage(words)) if words.contains("'five'"))
        );
    }
}
