//! Arguments: plain words, options with a value, and flags.

use super::Failure;
use std::collections::HashMap;
use std::ffi::{OsStr, OsString};
use std::path::Path;

pub(crate) struct Args {
    words: Vec<OsString>,
    options: HashMap<String, Vec<OsString>>,
    flags: Vec<String>,
}

/// Every command takes it: no report of what was done, and no progress.
pub(crate) const QUIET: &str = "--quiet";

/// What a command takes. An option takes one value, or those that are named after it, as in `--at X Y Z`, which then stand in
/// place of the words of these names.
pub(crate) struct Takes {
    pub(crate) words: &'static [&'static str],
    pub(crate) options: &'static [&'static str],
    pub(crate) flags: &'static [&'static str],
}

impl Takes {
    /// The names of an option's values.
    fn values(&self, name: &str) -> Option<Vec<&'static str>> {
        let mut options = self.options.iter().map(|option| option.split(' '));
        let option = options.find(|option| option.clone().next() == Some(name))?;
        Some(option.skip(1).collect())
    }
}

/// `-3.5` is a number and `-` the standard input, not an option.
fn is_option(word: &str) -> bool {
    let mut letters = word.chars();
    letters.next() == Some('-')
        && letters
            .next()
            .is_some_and(|letter| !letter.is_ascii_digit() && letter != '.')
        && word.parse::<f64>().is_err()
}

fn text<'a>(what: &str, word: &'a OsStr) -> Result<&'a str, Failure> {
    let wrong = || Failure::usage(format!("{what}: {} is not text (UTF-8)", word.display()));
    word.to_str().ok_or_else(wrong)
}

impl Args {
    pub(crate) fn parse(words: &[OsString], takes: &Takes) -> Result<Args, Failure> {
        let mut args = Args {
            words: Vec::new(),
            options: HashMap::new(),
            flags: Vec::new(),
        };
        let mut words = words.iter();
        while let Some(word) = words.next() {
            match word.to_str() {
                Some("--") => args.words.extend(words.by_ref().cloned()),
                Some(option) if is_option(option) => {
                    args.option_or_flag(option, &mut words, takes)?
                }
                _ => args.words.push(word.clone()),
            }
        }
        let given: Vec<&str> = args
            .options
            .keys()
            .filter_map(|name| takes.values(name))
            .flatten()
            .collect();
        let mut words: Vec<&str> = takes.words.to_vec();
        words.retain(|word| !given.contains(word));
        if args.words.len() < words.len() {
            let missing = words[args.words.len()..].join(" ");
            return Err(Failure::usage(format!("missing: {missing}")));
        }
        if let Some(word) = args.words.get(words.len()) {
            let word = word.display();
            return Err(Failure::usage(format!("`{word}` is one word too many")));
        }
        Ok(args)
    }

    /// `-o VALUE`, `--name VALUE`, `--name=VALUE`, `--name VALUE VALUE VALUE` or a flag.
    fn option_or_flag<'a>(
        &mut self,
        word: &str,
        rest: &mut impl Iterator<Item = &'a OsString>,
        takes: &Takes,
    ) -> Result<(), Failure> {
        let (name, given) = match word.split_once('=') {
            Some((name, value)) if name.starts_with("--") => (name, Some(value.into())),
            _ => (word, None),
        };
        if (name == QUIET || takes.flags.contains(&name)) && given.is_none() {
            self.flags.push(name.to_string());
            return Ok(());
        }
        let Some(names) = takes.values(name) else {
            return Err(Failure::usage(format!("no option {word} here")));
        };
        let all = given.into_iter().chain(rest.cloned());
        let values: Vec<OsString> = all.take(names.len().max(1)).collect();
        if values.len() < names.len().max(1) {
            let takes = match names.len() {
                0 => "a value".to_string(),
                count => format!("{count} values, {}", names.join(" ")),
            };
            return Err(Failure::usage(format!("{name} takes {takes}")));
        }
        match self.options.insert(name.to_string(), values) {
            Some(_) => Err(Failure::usage(format!("{name} is given twice"))),
            None => Ok(()),
        }
    }

    /// A word that names a file or folder.
    pub(crate) fn path(&self, place: usize) -> &Path {
        Path::new(&self.words[place])
    }

    /// A word that is a number.
    pub(crate) fn word<T: std::str::FromStr>(
        &self,
        name: &str,
        place: usize,
    ) -> Result<T, Failure> {
        parsed(name, text(name, &self.words[place])?)
    }

    /// The words from a place on.
    pub(crate) fn texts(&self, from: usize) -> Result<Vec<&str>, Failure> {
        let words = self.words[from..].iter();
        words.map(|word| text("an argument", word)).collect()
    }

    pub(crate) fn flag(&self, name: &str) -> bool {
        self.flags.iter().any(|flag| flag == name)
    }

    pub(crate) fn option(&self, name: &str) -> Result<Option<&str>, Failure> {
        let value = self.options.get(name).and_then(|values| values.first());
        value.map(|value| text(name, value)).transpose()
    }

    /// An option that names a file.
    pub(crate) fn option_path(&self, name: &str) -> Option<&Path> {
        let value = self.options.get(name).and_then(|values| values.first());
        value.map(Path::new)
    }

    /// An option's number, or the default.
    pub(crate) fn number<T: std::str::FromStr>(
        &self,
        name: &str,
        default: T,
    ) -> Result<T, Failure> {
        match self.option(name)? {
            None => Ok(default),
            Some(value) => parsed(name, value),
        }
    }

    /// The numbers of an option with several values.
    pub(crate) fn numbers<T: std::str::FromStr, const N: usize>(
        &self,
        name: &str,
    ) -> Result<Option<[T; N]>, Failure> {
        let Some(values) = self.options.get(name) else {
            return Ok(None);
        };
        let numbers = values
            .iter()
            .map(|value| parsed(name, text(name, value)?))
            .collect::<Result<Vec<T>, Failure>>()?;
        Ok(numbers.try_into().ok())
    }
}

fn parsed<T: std::str::FromStr>(name: &str, value: &str) -> Result<T, Failure> {
    let wrong = |_| Failure::usage(format!("{name}: `{value}` is not a number that fits"));
    value.parse().map_err(wrong)
}
