//! The command line of a command: flags, options with a value, and file names, in any order. `--` ends the options.

use crate::failure::Failure;

/// What a command takes.
pub struct Accepts {
    pub flags: &'static [&'static str],
    /// Options with a value, `--seed 7` or `--seed=7`.
    pub values: &'static [&'static str],
    /// The names of its files, for messages, and how many of them may be left out at the end.
    pub files: &'static [&'static str],
    pub optional: usize,
}

#[derive(Default, Debug)]
pub struct Options {
    command: String,
    flags: Vec<String>,
    values: Vec<(String, String)>,
    pub files: Vec<String>,
}

impl Options {
    pub fn parse(command: &str, accepts: &Accepts, arguments: &[String]) -> Result<Options, Failure> {
        let mut options = Options { command: command.into(), ..Options::default() };
        let mut left = arguments.iter();
        let mut only_files = false;
        while let Some(argument) = left.next() {
            if only_files || !argument.starts_with('-') || argument == "-" {
                options.files.push(argument.clone());
            } else if argument == "--" {
                only_files = true;
            } else {
                options.take(accepts, argument, &mut left)?;
            }
        }
        options.check_files(accepts)?;
        Ok(options)
    }

    fn take(&mut self, accepts: &Accepts, argument: &str, left: &mut std::slice::Iter<String>) -> Result<(), Failure> {
        let (name, joined) = match argument.split_once('=') {
            Some((name, value)) => (name, Some(value.to_string())),
            None => (argument, None),
        };
        if accepts.flags.contains(&name) && joined.is_none() {
            self.flags.push(name.into());
        } else if accepts.values.contains(&name) {
            if self.value(name).is_some() {
                return Err(self.wrong(&format!("{name} is given twice")));
            }
            let value = joined.or_else(|| left.next().cloned());
            let value = value.ok_or_else(|| self.wrong(&format!("a value is missing after {name}")))?;
            self.values.push((name.into(), value));
        } else {
            return Err(self.wrong(&format!("unknown option {argument}")));
        }
        Ok(())
    }

    fn check_files(&self, accepts: &Accepts) -> Result<(), Failure> {
        let needed = accepts.files.len() - accepts.optional;
        if self.files.len() < needed {
            return Err(self.wrong(&format!("{} is missing", accepts.files[self.files.len()])));
        }
        let inputs = self.files.iter().map(String::as_str).chain(self.value("--config"));
        if inputs.filter(|name| *name == "-").count() > 1 {
            return Err(self.wrong("standard input, -, can be read once"));
        }
        match self.files.get(accepts.files.len()) {
            Some(extra) => Err(self.wrong(&format!("one argument too many: {extra}"))),
            None => Ok(()),
        }
    }

    /// A bad command line, with where to read on.
    pub fn wrong(&self, what: &str) -> Failure {
        Failure::Usage(format!("{}: {what}; see osek {} --help", self.command, self.command))
    }

    pub fn flag(&self, name: &str) -> bool {
        self.flags.iter().any(|flag| flag == name)
    }

    pub fn value(&self, name: &str) -> Option<&str> {
        self.values.iter().find(|(known, _)| known == name).map(|(_, value)| value.as_str())
    }

    pub fn required(&self, name: &str) -> Result<&str, Failure> {
        self.value(name).ok_or_else(|| self.wrong(&format!("{name} is missing")))
    }

    /// A number in `least ..= most`, or `otherwise` if the option is not given.
    pub fn number(&self, name: &str, otherwise: u64, least: u64, most: u64) -> Result<u64, Failure> {
        let Some(value) = self.value(name) else { return Ok(otherwise) };
        value.parse().ok().filter(|number| (least..=most).contains(number)).ok_or_else(|| {
            let range = if most == u64::MAX { format!("a number from {least}") } else { format!("{least} to {most}") };
            self.wrong(&format!("{name} takes {range}, not {value}"))
        })
    }
}
