//! What was asked for on the command line.

use crate::error::Error;
use crate::escape::plain;

#[derive(Debug, Default)]
pub struct Arguments {
    pub command: String,
    pub operands: Vec<String>,
    pub output: Option<String>,
    pub json: bool,
    pub force: bool,
    pub help: bool,
    pub version: bool,
}

impl Arguments {
    /// Tells options and operands apart; behind `--` all are operands, and so is `-`.
    pub fn parse(given: &[String]) -> Result<Self, Error> {
        let mut found = Arguments::default();
        let mut words = given.iter();
        let mut options = true;
        while let Some(word) = words.next() {
            match word.as_str() {
                "--" if options => options = false,
                "-o" if options => {
                    let output = words.next().ok_or_else(|| Error::Usage("-o needs a file behind it".to_string()))?;
                    if found.output.replace(output.clone()).is_some() {
                        return Err(Error::Usage("-o stands twice".to_string()));
                    }
                }
                option if options && option.len() > 1 && option.starts_with('-') => found.option(option)?,
                _ if found.command.is_empty() => found.command = word.clone(),
                _ => found.operands.push(word.clone()),
            }
        }
        Ok(found)
    }

    fn option(&mut self, option: &str) -> Result<(), Error> {
        let place = match option {
            "--json" => &mut self.json,
            "--force" => &mut self.force,
            "--help" | "-h" => &mut self.help,
            "--version" => &mut self.version,
            _ => return Err(Error::Usage(format!("there is no option {}; see card --help", plain(option)))),
        };
        *place = true;
        Ok(())
    }

    /// Exactly so many operands.
    pub fn exactly(&self, count: usize) -> Result<&[String], Error> {
        match self.operands.len() == count {
            true => Ok(&self.operands),
            false => Err(self.usage()),
        }
    }

    /// The output that has to be named.
    pub fn needs_output(&self) -> Result<&str, Error> {
        self.output.as_deref().ok_or_else(|| Error::Usage(format!("{} needs -o and a file", self.command)))
    }

    /// How the command is to be called.
    pub fn usage(&self) -> Error {
        Error::Usage(crate::help::usage(&self.command))
    }

    /// Refuses options that the command does not have.
    pub fn only(&self, json: bool, output: bool) -> Result<(), Error> {
        let no = |option: &str| Err(Error::Usage(format!("{} has no {option}", self.command)));
        match () {
            _ if self.json && !json => no("--json"),
            _ if self.output.is_some() && !output => no("-o"),
            _ if self.force && !output => no("--force"),
            _ => Ok(()),
        }
    }
}
