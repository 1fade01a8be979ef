//! Command-line arguments of the runners: `--name value` and `--flag`. Anything
//! else is refused with the usage and exit status 2.

use std::collections::{BTreeMap, BTreeSet};
use std::process::exit;

use crate::rules::{Misreading, Rules};

/// What a runner takes.
pub struct Usage {
    pub text: &'static str,
    pub values: &'static [&'static str],
    pub flags: &'static [&'static str],
}

pub struct Arguments {
    usage: &'static str,
    values: BTreeMap<String, String>,
    flags: BTreeSet<String>,
}

impl Arguments {
    /// The arguments of this process.
    pub fn of_process(usage: &Usage) -> Arguments {
        Arguments::of(usage, std::env::args().skip(1)).unwrap_or_else(|why| refuse(usage.text, &why))
    }

    fn of(usage: &Usage, mut given: impl Iterator<Item = String>) -> Result<Arguments, String> {
        let mut arguments = Arguments { usage: usage.text, values: BTreeMap::new(), flags: BTreeSet::new() };
        while let Some(argument) = given.next() {
            let name = argument.strip_prefix("--").unwrap_or("");
            if usage.flags.contains(&name) {
                arguments.flags.insert(name.to_string());
            } else if usage.values.contains(&name) {
                let value = given.next().ok_or(format!("--{name} needs a value"))?;
                arguments.values.insert(name.to_string(), value);
            } else {
                return Err(format!("unknown argument '{argument}'"));
            }
        }
        Ok(arguments)
    }

    pub fn has(&self, flag: &str) -> bool {
        self.flags.contains(flag)
    }

    pub fn text(&self, name: &str) -> Option<&str> {
        self.values.get(name).map(String::as_str)
    }

    pub fn required(&self, name: &str) -> &str {
        self.text(name).unwrap_or_else(|| refuse(self.usage, &format!("--{name} is missing")))
    }

    pub fn number(&self, name: &str, otherwise: u64) -> u64 {
        self.text(name).map_or(otherwise, |value| {
            value.parse().unwrap_or_else(|_| self.refuse(&format!("--{name}: '{value}' is no number")))
        })
    }

    /// The rules as written, or with the misreading that `--misread` names.
    pub fn rules(&self) -> Rules {
        self.text("misread").map_or(Rules::AS_WRITTEN, |name| {
            let named = Misreading::ALL.iter().find(|misreading| format!("{misreading:?}") == name);
            let unknown = || self.refuse(&format!("--misread: no misreading '{name}'"));
            Rules::with(*named.unwrap_or_else(unknown))
        })
    }

    pub fn refuse(&self, why: &str) -> ! {
        refuse(self.usage, why)
    }
}

fn refuse(usage: &str, why: &str) -> ! {
    eprintln!("{why}\nusage: {usage}");
    exit(2)
}

#[cfg(test)]
mod tests {
    use super::*;

    const USAGE: Usage = Usage { text: "test", values: &["seed"], flags: &["require"] };

    fn parsed(arguments: &[&str]) -> Result<Arguments, String> {
        Arguments::of(&USAGE, arguments.iter().map(|argument| argument.to_string()))
    }

    #[test]
    fn values_and_flags_are_read() {
        let arguments = parsed(&["--seed", "7", "--require"]).expect("known arguments");
        assert_eq!(arguments.number("seed", 1), 7);
        assert_eq!(arguments.number("count", 3), 3);
        assert!(arguments.has("require"));
    }

    #[test]
    fn unknown_and_incomplete_arguments_are_refused() {
        for wrong in [&["--sed", "7"][..], &["seed"], &["--seed"], &["--", "--require"]] {
            assert!(parsed(wrong).is_err(), "{wrong:?} is accepted");
        }
    }
}
