//! The words behind a command: plain words, options with a value, and switches.

use crate::problem::Problem;
use std::fmt::Display;
use std::str::FromStr;
use types::Height;

/// The words sorted; what was not asked for in the end is an error.
#[derive(Clone, Debug, Default)]
pub struct Arguments {
    plain: Vec<String>,
    options: Vec<(String, String)>,
    switches: Vec<String>,
}

impl Arguments {
    /// Sorts words by these names of options and switches, given without the dashes. The value of an
    /// option stands behind it or, after `=`, in the same word.
    pub fn sort(
        words: &[String],
        options: &[&str],
        switches: &[&str],
    ) -> Result<Arguments, Problem> {
        let mut sorted = Arguments::default();
        let mut words = words.iter();
        while let Some(word) = words.next() {
            let Some(text) = word.strip_prefix("--") else {
                sorted.plain.push(word.clone());
                continue;
            };
            let (name, value) = match text.split_once('=') {
                Some((name, value)) => (name, Some(value.to_string())),
                None => (text, None),
            };
            if switches.contains(&name) {
                if value.is_some() {
                    return Err(Problem::input(format!("--{name} takes no value")));
                }
                sorted.switches.push(name.to_string());
            } else if options.contains(&name) {
                let value = value.or_else(|| words.next().cloned());
                let missing = || Problem::input(format!("--{name} needs a value"));
                sorted.options.push((name.to_string(), value.ok_or_else(missing)?));
            } else {
                return Err(Problem::input(format!("'{word}' is not known here")));
            }
        }
        Ok(sorted)
    }

    /// The plain words, which must be so many.
    pub fn plain<const COUNT: usize>(&self, wanted: &str) -> Result<&[String; COUNT], Problem> {
        let plain = self.plain.as_slice().try_into();
        plain.map_err(|_| Problem::input(format!("expected here: {wanted}")))
    }

    /// The plain words, however many.
    pub fn words(&self) -> &[String] {
        &self.plain
    }

    /// Whether a switch is set.
    pub fn has(&self, name: &str) -> bool {
        self.switches.iter().any(|switch| switch == name)
    }

    /// All values of an option.
    pub fn values(&self, name: &str) -> impl Iterator<Item = &str> {
        let name = name.to_string();
        let named = self.options.iter().filter(move |(option, _)| *option == name);
        named.map(|(_, value)| value.as_str())
    }

    /// The value of an option that may stand once.
    pub fn value(&self, name: &str) -> Result<Option<&str>, Problem> {
        let mut values = self.values(name);
        let value = values.next();
        match values.next() {
            Some(_) => Err(Problem::input(format!("--{name} stands more than once"))),
            None => Ok(value),
        }
    }

    /// The value of an option that must stand once.
    pub fn needed(&self, name: &str) -> Result<&str, Problem> {
        self.value(name)?.ok_or_else(|| Problem::input(format!("--{name} is missing")))
    }

    /// An option that may stand once and is a number.
    pub fn number(&self, name: &str) -> Result<Option<u64>, Problem> {
        let wrong = |value| move |_| Problem::input(format!("--{name} {value}: no number"));
        self.value(name)?.map(|value| value.parse().map_err(wrong(value))).transpose()
    }

    /// Refuses options that would be ignored beside another one.
    pub fn none_beside(&self, other: &str, names: &[&str]) -> Result<(), Problem> {
        match names.iter().find(|name| self.values(name).next().is_some()) {
            Some(name) => Err(Problem::input(format!("beside --{other}, --{name} says nothing"))),
            None => Ok(()),
        }
    }

    /// An option that is a byte.
    pub fn byte(&self, name: &str) -> Result<u8, Problem> {
        self.up_to(name, u8::MAX)
    }

    /// An option that is a height.
    pub fn height(&self, name: &str) -> Result<Height, Problem> {
        self.up_to(name, Height::MAX)
    }

    /// An option that is a number of a type whose largest one this is.
    fn up_to<N: FromStr + Display>(&self, name: &str, most: N) -> Result<N, Problem> {
        let value = self.needed(name)?;
        let wrong = || Problem::input(format!("--{name} {value}: no number from 0 to {most}"));
        value.parse().map_err(|_| wrong())
    }
}
