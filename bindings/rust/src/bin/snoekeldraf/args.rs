//! Arguments of a command.

use crate::ended::Failure;
use crate::shown;
use std::collections::BTreeMap;
use std::ffi::{OsStr, OsString};
use std::ops::RangeInclusive;
use std::os::unix::ffi::OsStrExt;
use std::path::Path;

/// An option.
pub struct Opt {
    /// Its name without the dashes.
    pub name: &'static str,
    /// The word for its value, if it takes one.
    pub value: Option<&'static str>,
    /// What it does or what its value is.
    pub about: &'static str,
}

/// The parsed arguments of a command.
#[derive(Default)]
pub struct Args {
    positional: Vec<OsString>,
    options: BTreeMap<&'static str, OsString>,
}

impl Args {
    /// Parses what follows the command's name. `--` ends the options; `--name=value` is `--name value`.
    pub fn parse(given: Vec<OsString>, known: &[Opt], count: &RangeInclusive<usize>) -> Result<Args, Failure> {
        let mut args = Args::default();
        let mut given = given.into_iter();
        while let Some(argument) = given.next() {
            let bytes = argument.as_bytes();
            if bytes == b"--" {
                args.positional.extend(given.by_ref());
            } else if bytes.len() > 1 && bytes[0] == b'-' {
                args.option(&argument, known, &mut given)?;
            } else {
                args.positional.push(argument);
            }
        }
        if !count.contains(&args.positional.len()) {
            return Err(wrong_count(args.positional.len(), count));
        }
        Ok(args)
    }

    /// Takes one option, and its value from after the `=` or from the next argument.
    fn option(
        &mut self,
        argument: &OsStr,
        known: &[Opt],
        rest: &mut impl Iterator<Item = OsString>,
    ) -> Result<(), Failure> {
        let bytes = argument.as_bytes();
        let (name, joined) = match bytes.iter().position(|byte| *byte == b'=') {
            Some(at) => (&bytes[..at], Some(OsStr::from_bytes(&bytes[at + 1..]).to_owned())),
            None => (bytes, None),
        };
        let found = known.iter().find(|option| name.strip_prefix(b"--") == Some(option.name.as_bytes()));
        let option = found.ok_or_else(|| Failure::usage(format!("there is no option {}", shown::name(argument))))?;
        let value = match (option.value, joined) {
            (None, None) => OsString::new(),
            (None, Some(_)) => return Err(Failure::usage(format!("--{} takes no value", option.name))),
            (Some(_), Some(value)) => value,
            (Some(_), None) => rest
                .next()
                .ok_or_else(|| Failure::usage(format!("--{} needs a value: {}", option.name, option.about)))?,
        };
        match self.options.insert(option.name, value) {
            None => Ok(()),
            Some(_) => Err(Failure::usage(format!("--{} is given twice", option.name))),
        }
    }

    /// Whether an option is given.
    pub fn has(&self, option: &str) -> bool {
        self.options.contains_key(option)
    }

    /// The value of an option as a path.
    pub fn path(&self, option: &str) -> Option<&Path> {
        self.options.get(option).map(Path::new)
    }

    /// The value of an option that a command cannot do without.
    pub fn needed(&self, option: &str) -> Result<&Path, Failure> {
        self.path(option).ok_or_else(|| Failure::usage(format!("--{option} is missing")))
    }

    /// The argument at an index that the command's count of arguments allows.
    pub fn at(&self, index: usize) -> &Path {
        Path::new(&self.positional[index])
    }

    /// All arguments that are no options.
    pub fn all(&self) -> impl ExactSizeIterator<Item = &Path> {
        self.positional.iter().map(Path::new)
    }

    /// The argument at an index as a job number.
    pub fn job(&self, index: usize) -> Result<u32, Failure> {
        let given = &self.positional[index];
        let digits = given.as_bytes().iter().all(u8::is_ascii_digit);
        given.to_str().filter(|_| digits).and_then(|text| text.parse().ok()).ok_or_else(|| {
            Failure::usage(format!("{} is no job: a job is a number from 0 to 4294967295", shown::name(given)))
        })
    }
}

fn wrong_count(given: usize, count: &RangeInclusive<usize>) -> Failure {
    let (least, most) = (*count.start(), *count.end());
    let needed = match most {
        usize::MAX => format!("at least {least}"),
        _ => most.to_string(),
    };
    let noun = if needed == "1" || needed == "at least 1" { "argument" } else { "arguments" };
    Failure::usage(format!("{needed} {noun} needed, {given} given"))
}
