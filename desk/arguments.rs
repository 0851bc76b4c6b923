//! The words behind a command: what it is given, and its options.

use crate::commands::Command;
use crate::disk;
use crate::stop::{Result, Stop};
use std::collections::BTreeMap;
use std::fs;
use std::path::{Path, PathBuf};

pub struct Arguments {
    pub command: &'static Command,
    pub given: Vec<String>,
    options: BTreeMap<String, String>,
}

impl Arguments {
    /// An option begins with `-`; `-` alone and whatever stands behind `--` are given words.
    pub fn read(command: &'static Command, words: &[String]) -> Result<Arguments> {
        let mut read = Arguments { command, given: Vec::new(), options: BTreeMap::new() };
        let mut rest = words.iter();
        while let Some(word) = rest.next() {
            if word == "--" {
                read.given.extend(rest.by_ref().cloned());
            } else if !is_option(word) {
                read.given.push(word.clone());
            } else {
                let value = if command.flags.contains(&word.as_str()) {
                    String::new()
                } else if command.valued.contains(&word.as_str()) {
                    let what = || read.usage(format!("{word} has no value"));
                    let value = rest.next().filter(|value| !is_option(value) && !value.is_empty());
                    value.cloned().ok_or_else(what)?
                } else {
                    return Err(read.usage(format!("no option {word}")));
                };
                if read.options.insert(word.clone(), value).is_some() {
                    return Err(read.usage(format!("{word} stands twice")));
                }
            }
        }
        Ok(read)
    }

    pub fn usage(&self, what: String) -> Stop {
        let Command { name, takes, .. } = self.command;
        Stop::Usage(format!("foldplover {name}: {what}\nusage: foldplover {name} {takes}"))
    }

    /// The given words, which have to be so many.
    pub fn exactly<const N: usize>(&self) -> Result<[&str; N]> {
        let given: Vec<&str> = self.given.iter().map(String::as_str).collect();
        let what = if given.len() < N { "too few words" } else { "too many words" };
        <[&str; N]>::try_from(given).map_err(|_| self.usage(what.to_string()))
    }

    pub fn option(&self, name: &str) -> Option<&str> {
        self.options.get(name).map(String::as_str)
    }

    pub fn needed(&self, name: &str) -> Result<&str> {
        self.option(name).ok_or_else(|| self.usage(format!("{name} is missing")))
    }

    /// A file to write that is none of those that the command has to do with already.
    pub fn output<'a>(&self, out: &'a str, others: &[&str]) -> Result<&'a str> {
        match out != "-" && others.iter().any(|other| place(other) == place(out)) {
            true => Err(self.usage(format!("{out} is named twice, and would be written over"))),
            false => Ok(out),
        }
    }

    /// The same, and not standard output.
    pub fn file<'a>(&self, out: &'a str, others: &[&str]) -> Result<&'a str> {
        match out {
            "-" => Err(self.usage("OUT is a file".to_string())),
            _ => self.output(out, others),
        }
    }

    pub fn flag(&self, name: &str) -> bool {
        self.options.contains_key(name)
    }

    pub fn generation_in(&self, word: &str) -> Result<u32> {
        let no = || self.usage(format!("`{word}` is no generation; log lists them"));
        crate::text::number(word, u32::MAX).map_err(|_| no())
    }

    /// The generation that the option `--of` names.
    pub fn generation(&self) -> Result<Option<u32>> {
        self.option("--of").map(|word| self.generation_in(word)).transpose()
    }

    /// The text that most commands take as their first word.
    pub fn text(&self) -> Result<&Path> {
        let first = self.given.first().map(Path::new);
        first.ok_or_else(|| self.usage("the text's name is missing".to_string()))
    }
}

/// Where a file is or would be, whatever leads there.
fn place(name: &str) -> PathBuf {
    let path = Path::new(name);
    fs::canonicalize(path).unwrap_or_else(|_| {
        let folder = fs::canonicalize(disk::parent(path)).unwrap_or_default();
        folder.join(path.file_name().unwrap_or_default())
    })
}

fn is_option(word: &str) -> bool {
    word.starts_with('-') && word != "-"
}
