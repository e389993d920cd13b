//! The words behind a command's name.

use std::ffi::{OsStr, OsString};
use std::fmt::Display;
use std::str::FromStr;

use vpindex::{Day, Profile, Tag};

use crate::calendar::Calendar;
use crate::file::{self, INPUT, Image};
use crate::report::Failure;
use crate::words;

/// An option of a command.
#[derive(Clone, Copy)]
pub struct Flag {
    /// As it is typed, with its dashes.
    pub name: &'static str,
    /// Whether a value follows it.
    pub takes_value: bool,
}

/// An option that is there or not.
pub const fn flag(name: &'static str) -> Flag {
    Flag { name, takes_value: false }
}

/// An option with a value.
pub const fn value(name: &'static str) -> Flag {
    Flag { name, takes_value: true }
}

/// What was typed behind a command's name.
#[derive(Default)]
pub struct Args {
    /// The words that are no options, in their order.
    pub plain: Vec<OsString>,
    options: Vec<(&'static str, OsString)>,
}

pub fn misuse<T>(sentence: impl ToString) -> Result<T, Failure> {
    Err(Failure::Misuse(sentence.to_string()))
}

impl Args {
    /// Sorts the words. A word of two dashes and more is an option, and so is `-o`; a measure such as `-0.05` and a lone
    /// `-` are not. Behind the word `--` no word is one.
    pub fn sort(words: &[OsString], known: &[Flag]) -> Result<Args, Failure> {
        let mut args = Args::default();
        let mut words = words.iter();
        while let Some(word) = words.next() {
            match word.to_str() {
                Some("--") => args.plain.extend(words.by_ref().cloned()),
                Some(text) if text.starts_with("--") || text == "-o" => args.option(text, known, &mut words)?,
                _ => args.plain.push(word.clone()),
            }
        }
        Ok(args)
    }

    // `--day 412` or `--day=412`
    fn option<'a>(
        &mut self,
        text: &str,
        known: &[Flag],
        words: &mut impl Iterator<Item = &'a OsString>,
    ) -> Result<(), Failure> {
        let (name, joined) = text.split_once('=').map_or((text, None), |(name, value)| (name, Some(value)));
        let Some(flag) = known.iter().find(|flag| flag.name == name) else {
            return misuse(format!("there is no option {name} here"));
        };
        if self.has(flag.name) {
            return misuse(format!("{name} is there twice"));
        }
        let value = match (flag.takes_value, joined) {
            (false, Some(_)) => return misuse(format!("{name} takes no value")),
            (false, None) => OsString::new(),
            (true, Some(value)) => value.into(),
            (true, None) => match words.next() {
                Some(word) => word.clone(),
                None => return misuse(format!("{name} has no value after it")),
            },
        };
        self.options.push((flag.name, value));
        Ok(())
    }

    /// A plain word that is a file's name, for a sentence.
    pub fn name(&self, at: usize) -> String {
        file::shown(&self.plain[at])
    }

    pub fn has(&self, name: &str) -> bool {
        self.options.iter().any(|(option, _)| *option == name)
    }

    /// An option's value as it was typed.
    pub fn typed(&self, name: &str) -> Option<&OsStr> {
        self.options.iter().find(|(option, _)| *option == name).map(|(_, value)| value.as_os_str())
    }

    /// An option's value, if the option is there.
    pub fn value<T: FromStr<Err: Display>>(&self, name: &str) -> Result<Option<T>, Failure> {
        self.typed(name).map(|typed| read(typed, name)).transpose()
    }

    /// A plain word's value.
    pub fn plain<T: FromStr<Err: Display>>(&self, at: usize, name: &str) -> Result<T, Failure> {
        read(&self.plain[at], name)
    }

    /// The values of all plain words from one on.
    pub fn rest<T: FromStr<Err: Display>>(&self, from: usize, name: &str) -> Result<Vec<T>, Failure> {
        self.plain[from..].iter().map(|word| read(word, name)).collect()
    }

    /// An option's value that is a day.
    pub fn day(&self, name: &str, calendar: &Calendar) -> Result<Option<Day>, Failure> {
        let typed: Option<String> = self.value(name)?;
        let read = |typed: String| calendar.read(&typed).or_else(|error| misuse(format!("{name} `{typed}`: {error}")));
        typed.map(read).transpose()
    }

    /// The words from one on as tags, or those on standard input where the word is `-`.
    pub fn tags(&self, from: usize) -> Result<Vec<Tag>, Failure> {
        if self.plain[from..] == ["-"] { tags_in(file::read_input()?) } else { self.rest(from, "TAG") }
    }

    /// The words from one on as a profile: one word, or five.
    pub fn profile(&self, from: usize) -> Result<Profile, Failure> {
        let text = self.rest::<String>(from, "PROFILE")?.join(" ");
        words::read_profile(&text.split(' ').collect::<Vec<_>>()).or_else(|error| misuse(format!("PROFILE: {error}")))
    }

    /// The words from one on as queries: tags, or a profile, which a point, a comma or a space tells.
    pub fn queries(&self, from: usize) -> Result<Queries, Failure> {
        let is_of_profile = |word: &OsString| word.to_string_lossy().contains(['.', ',', ' ']);
        let is_profile = self.plain[from..].iter().any(is_of_profile);
        if is_profile { self.profile(from).map(Queries::Profile) } else { self.tags(from).map(Queries::Tags) }
    }
}

// Parted by spaces or lines.
fn tags_in(bytes: Vec<u8>) -> Result<Vec<Tag>, Failure> {
    let Ok(text) = String::from_utf8(bytes) else { return misuse(format!("{INPUT} is not a text")) };
    let words = text.lines().zip(1..).flat_map(|(text, line)| text.split_whitespace().map(move |word| (line, word)));
    let tag = |(line, word): (u32, &str)| {
        word.parse().or_else(|error| misuse(format!("{INPUT}, line {line}: `{word}`: {error}")))
    };
    words.map(tag).collect()
}

/// From what distances are asked for.
pub enum Queries {
    /// Head of the herd.
    Tags(Vec<Tag>),
    Profile(Profile),
}

impl Queries {
    /// The profile of each, with the tag of a head.
    pub fn profiles(&self, image: &Image) -> Result<Vec<(Option<Tag>, Profile)>, Failure> {
        let of_head = |tag: &Tag| {
            let found = image.table.look_up(*tag).map_err(|refusal| image.refused(words::refused(*tag, refusal)))?;
            Ok((Some(*tag), found.profile))
        };
        match self {
            Queries::Profile(profile) => Ok(vec![(None, *profile)]),
            Queries::Tags(tags) => tags.iter().map(of_head).collect(),
        }
    }
}

fn read<T: FromStr<Err: Display>>(word: &OsStr, name: &str) -> Result<T, Failure> {
    let Some(text) = word.to_str() else {
        return misuse(format!("{name} `{}` is not a text", file::shown(word)));
    };
    text.parse().or_else(|error| misuse(format!("{name} `{text}`: {error}")))
}
